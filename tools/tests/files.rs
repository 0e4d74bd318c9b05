//! Files as arguments, `-o`, and odd arguments.

mod common;

use std::ffi::OsStr;
use std::fs;
use std::os::unix::ffi::OsStrExt;
use std::os::unix::fs::PermissionsExt;
use std::path::PathBuf;
use std::process::{Command, Stdio};

use common::{example, example_path, run_program};

const RUNTEXT: &str = env!("CARGO_BIN_EXE_runtext");
const EXPLAIN: &str = env!("CARGO_BIN_EXE_explain");
const COMPARE: &str = env!("CARGO_BIN_EXE_compare");

/// A folder of this test alone.
fn folder(name: &str) -> PathBuf {
    let folder = PathBuf::from(env!("CARGO_TARGET_TMPDIR")).join(name);
    let _ = fs::remove_dir_all(&folder);
    fs::create_dir_all(&folder).unwrap();
    folder
}

fn names(folder: &PathBuf) -> Vec<String> {
    let mut names: Vec<String> = fs::read_dir(folder)
        .unwrap()
        .map(|entry| entry.unwrap().file_name().into_string().unwrap())
        .collect();
    names.sort();
    names
}

fn path(name: &str) -> String {
    example_path(name).display().to_string()
}

#[test]
fn files_are_read_and_written() {
    let folder = folder("read_and_written");
    let out = folder.join("out.run").display().to_string();
    let ended = run_program(RUNTEXT, &["encode", &path("0-document.runtext"), "-o", &out], b"");
    assert_eq!((ended.status, ended.output.len()), (0, 0));
    assert_eq!(fs::read(&out).unwrap(), example("0-document.run"));
    // Over a file that is there, and the option first.
    let ended = run_program(RUNTEXT, &["-o", &out, "decode", &path("1-one-lease-alone.run")], b"");
    assert_eq!((ended.status, ended.errors.as_str()), (0, ""));
    assert!(fs::read(&out).unwrap().starts_with(b"note \"line 1 of the sheet\"\n"));
    assert_eq!(names(&folder), ["out.run"]);
    // As private as it was.
    fs::set_permissions(&out, fs::Permissions::from_mode(0o600)).unwrap();
    run_program(RUNTEXT, &["format", &path("0-document.runtext"), "-o", &out], b"");
    assert_eq!(fs::metadata(&out).unwrap().permissions().mode() & 0o777, 0o600);
    let dash = run_program(RUNTEXT, &["encode", "-"], &example("0-document.runtext"));
    assert_eq!(dash.output, example("0-document.run"));
}

/// What is there stays, and no part of the new is left.
#[test]
fn a_failure_leaves_the_file_as_it_was() {
    let folder = folder("left_as_it_was");
    let out = folder.join("out").display().to_string();
    fs::write(&out, "before").unwrap();
    let bad = run_program(RUNTEXT, &["encode", "-o", &out], b"clock\n");
    assert_eq!(bad.status, 1);
    assert_eq!((fs::read(&out).unwrap(), names(&folder)), (b"before".to_vec(), vec!["out".into()]));

    let inside = format!("{out}/inside");
    let unwritable = run_program(RUNTEXT, &["decode", &path("0-document.run"), "-o", &inside], b"");
    assert_eq!(unwritable.status, 1);
    assert!(unwritable.errors.starts_with(&format!("cannot write {inside}: ")), "{}", unwritable.errors);
    let name = folder.display().to_string();
    let ended = run_program(RUNTEXT, &["decode", &path("0-document.run"), "-o", &name], b"");
    assert_eq!((ended.status, ended.errors), (1, format!("cannot write {name}: it is a folder\n")));
    assert_eq!(names(&folder), ["out"]);
}

/// The room for a file ends in the midst of it.
#[test]
fn a_write_that_fails_leaves_the_file_as_it_was() {
    let folder = folder("no_room");
    let out = folder.join("out").display().to_string();
    fs::write(&out, "before").unwrap();
    let mut limited = Command::new("sh");
    limited.args([
        "-c",
        "trap '' XFSZ; ulimit -f 1; exec \"$@\"",
        "sh",
        EXPLAIN,
        &path("5-old-messages.run"),
        "-o",
        &out,
    ]);
    let ended = limited.output().unwrap();
    let errors = String::from_utf8(ended.stderr).unwrap();
    assert_eq!(ended.status.code(), Some(1), "{errors}");
    assert!(errors.starts_with(&format!("cannot write {out}: ")), "{errors}");
    assert_eq!((fs::read(&out).unwrap(), names(&folder)), (b"before".to_vec(), vec!["out".into()]));
}

#[test]
fn a_link_stays_and_a_device_is_written() {
    let folder = folder("link");
    fs::write(folder.join("real"), "before").unwrap();
    std::os::unix::fs::symlink("real", folder.join("link")).unwrap();
    let link = folder.join("link").display().to_string();
    assert_eq!(run_program(RUNTEXT, &["decode", &path("0-document.run"), "-o", &link], b"").status, 0);
    assert!(fs::symlink_metadata(&link).unwrap().is_symlink());
    assert!(fs::read(folder.join("real")).unwrap().starts_with(b"clients 1 "));
    let device = run_program(RUNTEXT, &["decode", &path("0-document.run"), "-o", "/dev/stdout"], b"");
    assert!(device.output.starts_with(b"clients 1 "));
}

/// A file's name stands before each line that is told of it.
#[test]
fn troubles_name_their_file() {
    let folder = folder("troubles");
    let bad = folder.join("bad.runtext").display().to_string();
    fs::write(&bad, "clock\nread\n").unwrap();
    let ended = run_program(RUNTEXT, &["encode", &bad], b"");
    let begins: Vec<bool> =
        ended.errors.lines().map(|line| line.starts_with(&format!("{bad}: line "))).collect();
    assert_eq!(begins, [true, true], "{}", ended.errors);
    let no_run = run_program(EXPLAIN, &[&path("README.md")], b"");
    assert_eq!(no_run.status, 1);
    assert!(
        no_run.errors.starts_with(&format!("{}: line 3: found `Run`", path("README.md"))),
        "{}",
        no_run.errors
    );
}

/// No argument and no input makes a program panic: it ends with 1 or 2 and
/// says why, and writes nothing.
#[test]
fn odd_arguments_and_inputs() {
    let folder = folder("odd").display().to_string();
    let empty = format!("{folder}/empty");
    fs::write(&empty, "").unwrap();
    let invalid = OsStr::from_bytes(b"\xff\xfe");
    let odd: [&OsStr; 12] = [
        invalid,
        OsStr::new(""),
        OsStr::new("-"),
        OsStr::new("--"),
        OsStr::new("-o"),
        OsStr::new("--tables"),
        OsStr::new("--listing"),
        OsStr::new("--expand"),
        OsStr::new("nowhere"),
        OsStr::new(&folder),
        OsStr::new(&empty),
        OsStr::new("99999999999999999999"),
    ];
    let mut calls: Vec<Vec<&OsStr>> = vec![vec![]];
    for first in odd {
        calls.push(vec![first]);
        calls.extend(odd.map(|second| vec![first, second]));
        for form in ["encode", "check", "format", "decode"] {
            calls.push(vec![OsStr::new(form), first]);
        }
    }
    for (program, call) in
        [RUNTEXT, EXPLAIN, COMPARE].iter().flat_map(|program| calls.iter().map(move |call| (program, call)))
    {
        let mut command = Command::new(program);
        let ended = command.args(call).current_dir(&folder).stdin(Stdio::null()).output().unwrap();
        let errors = String::from_utf8(ended.stderr).expect("messages are text");
        assert!([Some(1), Some(2)].contains(&ended.status.code()), "{program} {call:?}: {}", ended.status);
        assert!(
            ended.stdout.is_empty() && !errors.is_empty() && !errors.contains("panicked"),
            "{program} {call:?}: {errors}"
        );
    }
    assert_eq!(names(&PathBuf::from(folder)), ["empty"]);
}

#[test]
fn an_endless_input_is_told() {
    let ended = run_program(EXPLAIN, &["/dev/zero"], b"");
    assert_eq!(
        (ended.status, ended.errors.as_str()),
        (1, "cannot read /dev/zero: it is longer than 16777216 bytes\n")
    );
}

/// Nobody reads what is written or told.
#[test]
fn a_full_output_is_told_and_a_full_error_is_no_panic() {
    let full = || fs::OpenOptions::new().write(true).open("/dev/full").unwrap();
    let file = path("0-document.run");
    let ended = Command::new(EXPLAIN).arg(&file).stdout(full()).output().unwrap();
    assert_eq!(ended.status.code(), Some(1));
    assert!(String::from_utf8(ended.stderr).unwrap().starts_with("cannot write standard output: "));
    let ended = Command::new(EXPLAIN).arg(&file).stderr(full()).output().unwrap();
    assert_eq!(ended.status.code(), Some(0));
    assert!(ended.stdout.starts_with(b"1 (clock 0) read client 0 object 0: ask first"));
}
