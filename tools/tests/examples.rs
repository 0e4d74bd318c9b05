//! The examples as text and as pictures, held to their run files.

mod common;

use std::fs;
use std::path::Path;

use common::{example, example_path, run_program};
use model::examples::all;
use tools::picture::layout::Window;
use tools::picture::svg;
use tools::text::{from_file, parse, script, to_file};

fn stored(name: &str, ending: &str) -> Vec<u8> {
    example(&format!("{name}.{ending}"))
}

#[test]
fn texts_and_run_files_are_the_same_runs() {
    for example in all() {
        let (file, text) = (stored(example.name, "run"), stored(example.name, "runtext"));
        let run = parse(&text).unwrap_or_else(|troubles| panic!("{}: {}", example.name, troubles[0]));
        assert_eq!(to_file(&run), file, "{}", example.name);
    }
}

/// The model's tests hold the stored ones to the model.
#[test]
fn the_program_writes_what_is_stored() {
    const WRITE_EXAMPLES: &str = env!("CARGO_BIN_EXE_write-examples");
    let folder = Path::new(env!("CARGO_TARGET_TMPDIR")).join("examples");
    fs::create_dir_all(&folder).unwrap();
    let ended = run_program(WRITE_EXAMPLES, &[folder.to_str().unwrap()], b"");
    assert_eq!((ended.status, ended.errors.as_str()), (0, ""));
    for example in all() {
        for ending in ["run", "listing"] {
            let name = format!("{}.{ending}", example.name);
            assert!(fs::read(folder.join(&name)).unwrap() == stored(example.name, ending), "{name}");
        }
    }
    assert_eq!(String::from_utf8(ended.output).unwrap().lines().count(), 2 * all().len());
    let nowhere = folder.join("nowhere").display().to_string();
    let failed = run_program(WRITE_EXAMPLES, &[&nowhere], b"");
    assert_eq!((failed.status, failed.output.len()), (1, 0));
    assert!(failed.errors.starts_with(&format!("cannot write {nowhere}/0-document.run: ")));
    assert_eq!(run_program(WRITE_EXAMPLES, &["one", "two"], b"").status, 2);
}

/// But for its comments, each text is in canonical form.
#[test]
fn texts_are_canonical() {
    for example in all() {
        let text = String::from_utf8(stored(example.name, "runtext")).unwrap();
        let lines: Vec<&str> = text.lines().filter(|line| !line.starts_with('#')).collect();
        let canonical = script(text.as_bytes()).unwrap().print();
        assert_eq!(format!("{}\n", lines.join("\n")), canonical, "{}", example.name);
    }
}

/// `tools/README.md` says how to write them again.
#[test]
fn pictures_are_of_the_run_files() {
    for example in all() {
        let run = from_file(&stored(example.name, "run")).unwrap();
        let picture = svg(&run.clone().into(), Window { from: 1, to: run.steps.len() });
        assert!(stored(example.name, "svg") == picture.as_bytes(), "{}.svg is an old picture", example.name);
    }
}

#[test]
fn no_example_is_left_over() {
    let names: Vec<&str> = all().iter().map(|example| example.name).collect();
    for entry in fs::read_dir(example_path("")).unwrap() {
        let name = entry.unwrap().file_name().into_string().unwrap();
        let (stem, ending) = name.split_once('.').unwrap_or((&name, ""));
        assert!(!["runtext", "svg"].contains(&ending) || names.contains(&stem), "{name}");
    }
}
