//! File to text to file: the same bytes for every file that the reader accepts,
//! so the library writes what the model wrote. Text to file to text: the
//! canonical form stays.

use model::gen::rng::Rng;
use model::gen::{damage, runs, setups};
use model::runfile::read;
use model::step_record::Step;
use model::unchecked_writer::write;
use tools::text::{from_file, parse, print, script, to_file};

fn there_and_back(file: &[u8]) {
    let text = print(&from_file(file).expect("an accepted file"));
    let run = parse(text.as_bytes()).unwrap_or_else(|troubles| panic!("{}", troubles[0]));
    assert_eq!(to_file(&run), file);
    assert_eq!(print(&run), text);
}

#[test]
fn generated_runs() {
    for number in 0..300 {
        there_and_back(&runs::run(7, number).file());
    }
}

#[test]
fn damaged_files_that_are_still_accepted() {
    let accepted = (1..4).flat_map(damage::files).filter(|file| read(file).is_ok());
    assert!(accepted.inspect(|file| there_and_back(file)).count() > 150);
}

#[test]
fn any_kind_with_any_fields_after_any_note() {
    let mut rng = Rng::new(3);
    for kind in 0..=255 {
        let any = Step {
            kind,
            client: rng.draw() as u8,
            object: rng.draw() as u8,
            place: rng.draw() as u8,
            clock: rng.draw() as u32,
            value: rng.draw(),
        };
        let steps = [any.used_fields(), Step { kind, ..Step::default() }];
        let note: Vec<u8> = (0..rng.below(300)).map(|_| rng.draw() as u8).collect();
        there_and_back(&write(&note, &setups::any(&mut rng), &steps));
    }
}

/// Notes of characters, some of them difficult, rather than of bytes.
#[test]
fn notes_of_any_characters() {
    let mut rng = Rng::new(4);
    let hard = ['"', '\\', '\n', '\r', '\t', '#', '\'', ' ', '\u{301}', '\u{feff}', '\u{7f}', 'é', '🙂'];
    for _ in 0..300 {
        let note: String = (0..rng.below(250))
            .map(|_| if rng.percent(30) { rng.pick(&hard) } else { rng.range(32, 126) as u8 as char })
            .collect();
        there_and_back(&write(note.as_bytes(), &setups::sized(1, 1, 1), &[]));
    }
}

/// Random lines of words: whatever is read has one canonical form, and whatever
/// is written out is a run file of the same steps.
#[test]
fn lines_of_any_words() {
    const SETUP: &str =
        "dashes 2 regions 1 notices 2\nregion lease 10 notice lease 100 timeout 3\ndelay 1\nregion 0 notices 0 1\n";
    const WORDS: &str = "clock read ask write deliver lose double restart kind join client dash object notice value place \
        server GRANT RENEW INVALIDATE ACK OFFER DROPPED to from => done shown ask first completed refused 0 1 2 64 256 # second last 11th volume region =>done";
    const LINES: [&str; 11] = [
        "join dash 0 notice 1",
        "join client 1 object 1 # again",
        "read client 0 object 1 => shown 0",
        "ask client 1 object 0",
        "deliver RENEW from client 1 => done",
        "double 0 => refused 3",
        "write notice 1 value 2 => completed 1",
        "lose INVALIDATE to client 0",
        "deliver last RENEW from client 1 object 0",
        "double first RENEW from dash 1=>done",
        "restart client 0",
    ];
    let (mut rng, words) = (Rng::new(5), WORDS.split_whitespace().collect::<Vec<_>>());
    let (mut read, mut written) = (0, 0);
    for _ in 0..4_000 {
        let mut text = SETUP.to_string();
        for _ in 0..rng.range(1, 4) {
            let mut line: Vec<&str> = rng.pick(&LINES).split(' ').collect();
            if rng.percent(30) {
                let place = rng.below(line.len());
                line[place] = rng.pick(&words);
            }
            text += &(line.join(" ") + "\n");
        }
        let Ok(first) = script(text.as_bytes()) else {
            continue;
        };
        read += 1;
        let canonical = first.print();
        assert_eq!(script(canonical.as_bytes()).unwrap().print(), canonical, "{text}");
        if let Ok(steps) = first.written_out() {
            written += 1;
            assert_eq!(parse(first.expanded(&steps).as_bytes()).unwrap().steps, steps.run.steps, "{text}");
            there_and_back(&steps.run.file());
        }
    }
    assert!(read > 1_000 && written > 300, "{read} read, {written} written out");
}
