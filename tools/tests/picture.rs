//! Pictures of generated runs: well formed, and with what the model says.

mod common;

use common::{example, run_program, with_returns};
use model::gen::runs::{run, Run};
use model::message::{Kind, Message};
use tools::line::Lines;
use tools::picture::layout::Window;
use tools::text::from_file;
use tools::timeline::spans::Span;
use tools::timeline::tracks::Track;
use tools::timeline::Timeline;
use tools::trace::walk;

const PICTURE: &str = env!("CARGO_BIN_EXE_picture");

fn svg(run: &Run, window: Window) -> String {
    tools::picture::svg(&run.clone().into(), window)
}

fn page(run: &Run, window: Window) -> String {
    tools::picture::page(&run.clone().into(), window)
}

fn whole(run: &Run) -> Window {
    Window { from: 1, to: run.steps.len() }
}

/// Checks that tags nest and end, attributes are in quotes, and no `&` is bare.
fn assert_well_formed(xml: &str) {
    let mut open: Vec<&str> = Vec::new();
    for piece in xml.split('<').skip(1) {
        let (tag, text) = piece.split_once('>').expect("a tag ends");
        assert_eq!(tag.matches('"').count() % 2, 0, "{tag}");
        for entity in tag.split('&').skip(1).chain(text.split('&').skip(1)) {
            assert!(
                ["amp;", "lt;", "gt;", "quot;"].iter().any(|known| entity.starts_with(known)),
                "{entity}"
            );
        }
        assert!(text.chars().all(|c| c == '\n' || !c.is_control()), "{text:?}");
        match tag.strip_prefix('/') {
            Some(name) => assert_eq!(open.pop(), Some(name)),
            None if tag.ends_with('/') => (),
            None => open.push(tag.split_whitespace().next().expect("a tag's name")),
        }
    }
    assert!(open.is_empty(), "{open:?}");
}

/// Returns the words of each text element whose class begins like this.
fn texts<'a>(svg: &'a str, class: &'a str) -> impl Iterator<Item = &'a str> {
    let elements = svg.split("<text class=\"").skip(1).filter(move |element| element.starts_with(class));
    elements.map(|element| element.split_once('>').unwrap().1.split('<').next().unwrap())
}

fn count(svg: &str, class: &str) -> usize {
    svg.matches(&format!("class=\"{class}")).count()
}

#[test]
fn answers_are_the_models() {
    for number in 0..100 {
        let run = with_returns(run(21, number));
        let picture = svg(&run, whole(&run));
        assert_well_formed(&picture);
        let listing = String::from_utf8(model::listing::listing(&run.file())).unwrap();
        let mut answers = texts(&picture, "answer");
        for line in listing.lines().skip(1) {
            let numbers: Vec<&str> = line.split(' ').collect();
            let words = match (numbers[1], numbers[2]) {
                ("0", _) => "done".into(),
                ("1", value) => format!("shown {value}"),
                ("2", _) => "ask first".into(),
                ("3", "1") => "completed 1 write".into(),
                ("3", count) => format!("completed {count} writes"),
                (_, number) => format!("refused {number}"),
            };
            assert_eq!(answers.next(), Some(words.as_str()), "run {number}, {line}");
        }
        assert_eq!(answers.next(), None);
    }
}

/// One mark for each message, read and refusal; the legend has some, too.
#[test]
fn every_message_and_read_is_there() {
    for number in 2..50 {
        let run = with_returns(run(22, number));
        let (picture, timeline) = (svg(&run, whole(&run)), Timeline::new(&run));
        let answered =
            |answer: u8| timeline.steps.iter().filter(|view| view.answer.numbers().0 == answer).count();
        assert_eq!(count(&picture, "arrow "), timeline.flights.len() + 8, "run {number}");
        assert_eq!(count(&picture, "shown\""), answered(1) + 1);
        assert_eq!(count(&picture, "ask-first\""), answered(2) + 1);
        assert_eq!(count(&picture, "refused\""), 2 * (answered(4) + 1));
        let copies = timeline.flights.iter().filter(|flight| flight.copy_of.is_some()).count();
        assert_eq!(count(&picture, "doubled "), copies + 1);
    }
}

/// Returns the title of a BATCH or CLEARED, up to its end.
fn title_of_set(message: &Message) -> Option<(&'static str, String)> {
    let (kind, way, batch) = match message.kind {
        Kind::Batch(batch) => ("batch", "to", batch),
        Kind::Cleared(batch) => ("cleared", "from", batch),
        _ => return None,
    };
    let (name, number, client) = (kind.to_uppercase(), batch.number, message.client);
    let fields = format!("volume {}, epoch {}, {}", batch.volume, batch.epoch, objects(batch.set));
    Some((kind, format!("<title>{name} {number} {way} client {client} ({fields})\n")))
}

fn objects(set: u32) -> String {
    let numbers = (0..28).filter(|object| set >> object & 1 == 1);
    let numbers: Vec<String> = numbers.map(|object: u32| object.to_string()).collect();
    let ending = if numbers.len() == 1 { "" } else { "s" };
    format!("object{ending} {}", numbers.join(", "))
}

/// Both kinds have arrows of their own, also in the legend, and tell when pointed
/// at which objects they are about; where there is room, so do their labels.
#[test]
fn batches_name_their_objects() {
    let mut counts = [0; 3];
    for number in (2..150).filter(|number| number % 50 > 1) {
        let run = run(24, number);
        let (picture, timeline) = (svg(&run, whole(&run)), Timeline::new(&run));
        let sets = timeline.flights.iter().filter_map(|flight| title_of_set(&flight.message));
        let sets: Vec<_> = sets.collect();
        assert!(sets.iter().all(|(_, title)| picture.contains(title)), "run {number}: {sets:?}");
        let sent = ["batch", "cleared"].map(|kind| sets.iter().filter(|set| set.0 == kind).count());
        let drawn = ["arrow batch", "arrow cleared"].map(|class| count(&picture, class));
        assert_eq!(drawn, sent.map(|sent| sent + 1), "run {number}");
        let labels = ["message batch", "message cleared"].map(|class| texts(&picture, class));
        let named = labels.into_iter().flatten().filter(|label| label.contains(" object")).count();
        counts = [counts[0] + sent[0], counts[1] + sent[1], counts[2] + named];
    }
    assert!(counts.iter().all(|&count| count > 10), "{counts:?}");
}

/// Each span of notes is a bar that tells when pointed at whose notes they are
/// and of which objects; the legend has one, too.
#[test]
fn notes_name_their_objects() {
    let mut sizes = [0; 2];
    for number in (2..200).filter(|number| number % 50 > 1) {
        let run = run(25, number);
        let (picture, timeline) = (svg(&run, whole(&run)), Timeline::new(&run));
        let title = |span: &Span| match span.track {
            Track::Notes(client, volume) => Some(format!(
                "<title>server's notes for client {client} in volume {volume}: {}",
                objects(span.detail.value as u32)
            )),
            _ => None,
        };
        let titles: Vec<String> = timeline.spans.iter().filter_map(title).collect();
        assert!(titles.iter().all(|title| picture.contains(title)), "run {number}: {titles:?}");
        assert_eq!(picture.matches("<rect class=\"notes\"").count(), titles.len() + 1, "run {number}");
        let several = titles.iter().filter(|title| title.contains(": objects ")).count();
        sizes = [sizes[0] + several, sizes[1] + titles.len() - several];
    }
    assert!(sizes[0] > 5 && sizes[1] > 100, "{sizes:?}");
}

/// A write that waits for nobody has no bar: its value is at its step, and the
/// note of the parked client begins there.
#[test]
fn a_write_that_a_parked_client_does_not_hold_up_has_no_bar() {
    let run = from_file(&example("7-parked.run")).unwrap();
    let picture = svg(&run, whole(&run));
    let rows: Vec<&str> = texts(&picture, "row-name").collect();
    assert!(rows.contains(&"write, object 1") && !rows.contains(&"write, object 0"), "{rows:?}");
    assert!(texts(&picture, "value completed-text").eq(["7"]));
    let title = "<title>server's notes for client 0 in volume 0: object 0, to age at 110\nfrom step 18 ";
    assert!(picture.contains(title));
    let title = "<title>server's notes for client 0 in volume 0: object 0, sent in BATCH 4, to age at 110\n\
                 from step 24 ";
    let last = picture.split_once(title).unwrap().1.split_once("</title>").unwrap().0;
    assert!(last.lines().nth(1).unwrap().starts_with("to step 29 "), "{last}");
}

/// Returns the explained line of the step that opened a write: if a return put
/// it there again, of one before it on its line.
fn opened<'a>(timeline: &'a Timeline, lines: &Lines, write: &Span) -> &'a str {
    let Track::Write(object) = write.track else { panic!("{write:?}") };
    let opens = format!(" write object {object} value {}: done: stands, ", write.detail.value);
    let mut line = lines.back_from(write.from).map(|step| timeline.step(step).line.as_str());
    line.find(|line| line.contains(&opens)).expect("a step that opened it")
}

/// A write that is pointed at says the same about its latest end as the line of
/// the step that opened it.
#[test]
fn every_write_tells_what_fixes_its_end() {
    let (mut count, mut again) = (0, 0);
    for number in (2..50).chain(52..100) {
        let run = with_returns(run(23, number));
        let (picture, timeline) = (svg(&run, whole(&run)), Timeline::new(&run));
        let mut lines = Lines::default();
        walk(&run, |moment| lines.follow(&moment.step, moment.refused()));
        // Of the bars; their words say the same.
        let bar = |group: &&str| group.split("</g>").next().unwrap().contains("<rect class=\"write");
        let mut titles = picture.split("<title>write of object ").skip(1).filter(bar);
        for write in timeline.spans.iter().filter(|span| matches!(span.track, Track::Write(_))) {
            let title = titles.next().unwrap().lines().next().unwrap();
            let line = opened(&timeline, &lines, write);
            again += usize::from(timeline.step(write.from).restored.is_some());
            let end = line.split_once(": done: stands, ").unwrap().1.split(';').next().unwrap();
            assert!(end.contains(" by the ") && title.ends_with(&format!(", {end}")), "{title}\n{line}");
            count += 1;
        }
        assert!(titles.next().is_none());
    }
    assert!(count > 100 && again > 10, "{count} {again}");
}

#[test]
fn windows_show_their_steps() {
    let run = from_file(&example("5-old-messages.run")).unwrap();
    for from in 1..=run.steps.len() {
        for to in (from..=run.steps.len()).step_by(7) {
            let picture = svg(&run, Window { from, to });
            let numbers: Vec<usize> =
                texts(&picture, "number").map(|number| number.parse().unwrap()).collect();
            assert!(numbers.into_iter().eq(from..=to));
            assert_eq!(texts(&picture, "step").count(), to - from + 1);
        }
        assert_well_formed(&svg(&run, Window { from, to: run.steps.len() }));
    }
}

/// The longest runs and the largest setups are drawn, too.
#[test]
fn long_runs_do_not_fail() {
    for number in [0, 1, 50, 51, 100] {
        let run = run(1, number);
        assert_eq!(run.steps.len(), 4_000);
        assert_well_formed(&svg(&run, whole(&run)));
        let page = page(&run, whole(&run));
        assert_eq!(page.matches("<p data-step=").count(), 4_000);
    }
}

/// The page asks for nothing outside itself, whatever the note says.
#[test]
fn the_page_stands_alone() {
    let mut run = from_file(&example("5-old-messages.run")).unwrap();
    run.note = b"{listing} <script src=\"x\"> & {style}".to_vec();
    let page = page(&run, whole(&run));
    for outside in ["src=", "href=", "url(", "@import", "<link", "https:"] {
        assert_eq!(page.replace("src=&quot;", "").matches(outside).count(), 0, "{outside}");
    }
    assert_eq!(page.matches("http:").count(), page.matches("'http://www.w3.org/2000/svg'").count());
    assert_eq!(page.matches("<h1>{listing} &lt;script src=&quot;x&quot;&gt; &amp; {style}</h1>").count(), 1);
    assert_eq!(page.matches("<script>").count(), 1);
    for mark in [
        "{client}",
        "{object}",
        "{numbers}",
        "{verdict}",
        "{first}",
        "{column}",
        "{clients}",
        "{volumes}",
        "{signs}",
        "{corner}",
        "{header}",
        "{names}",
        "{lanes}",
        "{title}",
        "{subtitle}",
        "{page-style}",
        "{script}",
    ] {
        assert!(!page.contains(mark), "{mark}");
    }
}

#[test]
fn a_run_without_steps_has_a_picture() {
    let empty = Run { note: vec![0], setup: model::gen::setups::sized(1, 1, 1), steps: Vec::new() };
    assert_well_formed(&svg(&empty, whole(&empty)));
    assert!(page(&empty, whole(&empty)).contains("<h1>00</h1>"));
}

/// A picture alone is cut if it would be too wide, and says so.
#[test]
fn a_picture_alone_is_narrow_enough() {
    let run = run(1, 0);
    let file = run.file();
    for (options, from, to, cut) in [
        (&["svg"][..], 1, 300, true),
        (&["svg", "--from", "100", "--to", "4000"], 100, 399, true),
        (&["svg", "--from", "100", "--to", "399"], 100, 399, false),
        (&["svg", "--from", "3900"], 3_900, 4_000, false),
    ] {
        let ended = run_program(PICTURE, options, &file);
        let picture = svg(&run, Window { from, to });
        assert_eq!((ended.status, ended.output == picture.as_bytes()), (0, true), "{options:?}");
        let said = format!("picture: steps {from} to {to} alone, up to 4000 ");
        assert_eq!((ended.errors.starts_with(&said), ended.errors.is_empty()), (cut, !cut), "{options:?}");
    }
    let page = run_program(PICTURE, &["html"], &file);
    assert_eq!((page.output == crate::page(&run, whole(&run)).as_bytes(), page.errors.as_str()), (true, ""));
}

#[test]
fn the_program_draws_windows_and_turns_wrong_calls_away() {
    let file = example("0-document.run");
    let run = from_file(&file).unwrap();
    let status = |arguments: &[&str]| run_program(PICTURE, arguments, &file).status;
    let part = run_program(PICTURE, &["svg", "--from", "3", "--to", "9"], &file);
    assert_eq!((part.status, part.output), (0, svg(&run, Window { from: 3, to: 9 }).into_bytes()));
    let rest = run_program(PICTURE, &["html", "--from", "15", "--to", "99"], &file);
    assert_eq!((rest.status, rest.output), (0, page(&run, Window { from: 15, to: 15 }).into_bytes()));
    assert_eq!(
        (status(&["--help"]), status(&[]), status(&["png"]), status(&["svg", "--from"])),
        (0, 2, 2, 2)
    );
    assert_eq!((status(&["svg", "--at", "3"]), status(&["svg", "--to", "x"])), (2, 2));
    let none = run_program(PICTURE, &["svg", "--from", "16"], &file);
    assert_eq!((none.status, none.errors.as_str()), (1, "no steps from 16 to 15: the run has 15\n"));
    assert_eq!((status(&["svg", "--from", "0"]), status(&["svg", "--from", "5", "--to", "4"])), (1, 1));
}
