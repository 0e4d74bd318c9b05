//! Every text of a picture fits where it is, no two overlap, lines run behind
//! the grounds of labels, and every message names its receiver.

mod boxes;
mod common;

use std::fs;
use std::path::Path;

use boxes::style::Style;
use boxes::{number, parts, Part, Shape};
use common::{example, with_returns};
use model::answer::Answer;
use model::gen::runs::{run, Run};
use model::message::{Kind, Message};
use tools::latest_end::{Cause, Leases};
use tools::picture::drawn;
use tools::picture::layout::{Window, COLUMN};
use tools::scenario::Scenario;
use tools::text::{from_file, script, steps};
use tools::timeline::flights::{End, Flight};
use tools::timeline::Timeline;

fn svg(run: &Run, window: Window) -> String {
    tools::picture::svg(&run.clone().into(), window)
}

fn whole(timeline: &Timeline) -> Window {
    Window { from: 1, to: timeline.steps.len() }
}

fn examples() -> impl Iterator<Item = Run> {
    let file = |name: &str| from_file(&example(&format!("{name}.run"))).unwrap();
    model::examples::all().into_iter().map(move |example| file(example.name))
}

/// Returns scenes and random steps, with small and large setups, and half of
/// them with saved states.
fn generated() -> impl Iterator<Item = Run> {
    let returning = (2..50).map(|number| with_returns(run(37, number)));
    (2..50).map(|number| run(31, number)).chain(returning)
}

/// Returns scenes and random steps.
fn long() -> impl Iterator<Item = Run> {
    [run(32, 0), with_returns(run(33, 51))].into_iter()
}

/// Returns the timeline with the longest numbers. In 4,000 steps the numbers of
/// a run cannot grow that far.
fn with_longest_numbers(mut timeline: Timeline) -> Timeline {
    for flight in &mut timeline.flights {
        longest(&mut flight.message);
    }
    for span in &mut timeline.spans {
        (span.detail.until, span.detail.version, span.detail.value) = (u32::MAX, u32::MAX, u64::MAX);
    }
    for view in &mut timeline.steps {
        view.message.as_mut().map(longest);
        view.cause = view.cause.map(|_| Cause::Leases(Leases { volume: u16::MAX, object: 0 }));
        (view.step.value, view.step.clock) = (u64::MAX, u32::MAX);
        view.written = steps::line(&view.step);
        let moved = view.clock != view.clock_before;
        (view.clock_before, view.clock) = (u32::MAX - u32::from(moved), u32::MAX);
        if let Answer::Shown(value) = &mut view.answer {
            *value = u64::MAX;
        }
    }
    timeline
}

fn longest(message: &mut Message) {
    match &mut message.kind {
        Kind::Renew { number, epoch, version, .. } => {
            (*number, *epoch, *version) = (u32::MAX, u32::MAX, u32::MAX)
        }
        Kind::Offer { number, epoch, .. } | Kind::Dropped { number, epoch, .. } => {
            (*number, *epoch) = (u32::MAX, u32::MAX)
        }
        Kind::Batch(batch) | Kind::Cleared(batch) => {
            (batch.number, batch.epoch, batch.set) = (u32::MAX, u32::MAX, u32::MAX)
        }
        Kind::Invalidate { version, epoch, .. } | Kind::Ack { version, epoch, .. } => {
            (*version, *epoch) = (u32::MAX, u32::MAX)
        }
        Kind::Grant(grant) => {
            (grant.number, grant.version, grant.epoch) = (u32::MAX, u32::MAX, u32::MAX);
            grant.value = grant.value.map(|_| u64::MAX);
        }
    }
}

fn assert_readable(picture: &str, name: &str) {
    for part in parts(picture) {
        for text in &part.texts {
            assert!(text.within((0.0, 0.0), part.size), "{name}, {} cuts {text:?}", part.name);
        }
        if let Some((one, other)) = part.overlap() {
            panic!("{name}, {}: {one:?} meets {other:?}", part.name);
        }
        assert_eq!(crossing(&part), None, "{name}, {}", part.name);
        match part.name.as_str() {
            "header" => assert_in_columns(&part, name),
            "lanes" => {
                assert_in_bars(&part, name);
                assert_eq!(overlaid(&part), None, "{name}");
            }
            _ => (),
        }
    }
}

/// Checks that nothing in the header is shortened, and that each column keeps
/// to itself.
fn assert_in_columns(header: &Part, name: &str) {
    for text in &header.texts {
        assert!(!text.words.contains('…'), "{name}: {text:?}");
        let ((left, _), (right, _)) = text.bounds();
        let column = ((left + right) / 2.0 / COLUMN).floor() * COLUMN;
        assert!(text.within((column, 0.0), (column + COLUMN, header.size.1)), "{name}: {text:?}");
    }
}

/// Returns what crosses a label other than behind its ground, or a mark that a
/// ground hides.
fn crossing(part: &Part) -> Option<String> {
    part.near().into_iter().find_map(|(text, near)| {
        let grounds = || near.iter().filter(|ground| ground.is_ground_of(text));
        let bare = |shape: &Shape| !grounds().any(|ground| ground.place >= shape.place);
        let through = near.iter().find(|shape| shape.runs_through(text) && bare(shape));
        let hidden = near.iter().find(|mark| grounds().any(|ground| ground.hides(mark)));
        let crossed = through.map(|shape| format!("{shape:?} runs through {text:?}"));
        crossed.or(hidden.map(|mark| format!("{mark:?} is behind {text:?}")))
    })
}

/// Checks that the words of a bar are inside it, and those of a step inside its
/// column.
fn assert_in_bars(lanes: &Part, name: &str) {
    for (text, near) in lanes.near() {
        let ((left, top), (right, bottom)) = text.bounds();
        if text.class == "bar-text" {
            let ground = near.iter().find(|shape| shape.is_ground_of(text)).expect("a ground");
            let class = ground.class.strip_prefix("ground ").expect("a bar's colour");
            let mut bars = near.iter().filter(|shape| shape.class == class);
            assert!(bars.any(|bar| ground.within(bar)), "{name}: {text:?} outside its bar");
        } else if text.class.starts_with("value") || text.class.ends_with("receiver") {
            let column = ((left + right) / 2.0 / COLUMN).floor() * COLUMN;
            assert!(text.within((column, top), (column + COLUMN, bottom)), "{name}: {text:?}");
        }
    }
}

#[test]
fn every_text_fits_and_no_two_meet() {
    for (place, run) in examples().chain(generated()).chain(long()).enumerate() {
        let timeline = Timeline::new(&run);
        assert_readable(&svg(&run, whole(&timeline)), &format!("run {place}"));
    }
}

/// With words of the text, expectations, times and line numbers.
#[test]
fn pictures_of_texts_are_readable() {
    let names = model::examples::all().into_iter().map(|one| format!("{}.runtext", one.name));
    let own = Path::new(env!("CARGO_MANIFEST_DIR")).join("tests/page/text.runtext");
    for text in names.map(|name| example(&name)).chain([fs::read(own).unwrap()]) {
        let scenario = Scenario::from(script(&text).unwrap());
        let timeline = Timeline::of(&scenario);
        let picture = drawn(&scenario.run.note, &timeline, whole(&timeline));
        assert_readable(&picture, &String::from_utf8_lossy(&scenario.run.note));
    }
}

/// Returns two bars that overlap, if there are any: notes are in the row of the
/// volume's lease.
fn overlaid(lanes: &Part) -> Option<String> {
    let bars = ["notes", "volume-lease", "object-lease", "guard", "write", "write cut-off"];
    let mut bars: Vec<&Shape> =
        lanes.shapes.iter().filter(|shape| bars.contains(&shape.class.as_str())).collect();
    let top = |bar: &Shape| bar.bounds().0 .1;
    let left = |bar: &Shape| bar.bounds().0 .0;
    bars.sort_by(|one, other| top(one).total_cmp(&top(other)).then(left(one).total_cmp(&left(other))));
    let mut pairs = bars.windows(2).filter(|pair| top(pair[0]) == top(pair[1]));
    let met = pairs.find(|pair| pair[0].bounds().1 .0 > left(pair[1]) + 0.2);
    met.map(|pair| format!("{:?} lies over {:?}", pair[0], pair[1]))
}

/// A bar of notes that begins where the lease still lives would be found.
#[test]
fn notes_over_a_lease_are_found() {
    let run = examples().nth(7).unwrap();
    let picture = svg(&run, whole(&Timeline::new(&run)));
    assert_eq!(overlaid(&lanes(&picture)), None);
    let (before, notes) = picture.split_once("<rect class=\"notes\" x=\"").unwrap();
    let moved = format!("{before}<rect class=\"notes\" x=\"350{}", &notes[notes.find('"').unwrap()..]);
    assert!(overlaid(&lanes(&moved)).unwrap().contains("notes"));
}

/// The same pictures are found wrong if labels have no grounds, or if lines are
/// drawn after them.
#[test]
fn a_line_through_a_label_is_found() {
    for run in examples().skip(4).take(2) {
        let picture = svg(&run, whole(&Timeline::new(&run)));
        let bare: Vec<&str> = picture.lines().filter(|line| !line.contains("class=\"ground")).collect();
        assert!(crossing(&lanes(&bare.join("\n"))).unwrap().contains("runs through"));
        let (last, others): (Vec<&str>, Vec<&str>) =
            picture.lines().partition(|line| line.starts_with("<line class=\"arrow"));
        let end = others.iter().position(|line| line.starts_with("<svg class=\"signs\"")).unwrap() - 1;
        let after = [&others[..end], &last, &others[end..]].concat();
        assert!(crossing(&lanes(&after.join("\n"))).unwrap().contains("runs through"));
    }
}

#[test]
fn the_longest_numbers_fit_too() {
    for (place, run) in examples().chain(generated()).enumerate() {
        let timeline = with_longest_numbers(Timeline::new(&run));
        let picture = drawn(&[b'w'; 200], &timeline, whole(&timeline));
        assert_readable(&picture, &format!("run {place}"));
    }
}

#[test]
fn windows_are_readable() {
    for number in 2..20 {
        let run = with_returns(run(34, number));
        let timeline = Timeline::new(&run);
        for from in (1..=run.steps.len()).step_by(17) {
            let window = Window { from, to: (from + 20).min(run.steps.len()) };
            assert_readable(&drawn(&run.note, &timeline, window), &format!("run {number} from {from}"));
        }
    }
}

/// Whatever stands beside its steps.
#[test]
fn the_widest_picture_is_below_16_000_pixels() {
    for number in [0, 50, 100] {
        let timeline = with_longest_numbers(Timeline::new(&run(36, number)));
        let widest = (1..3_000).step_by(300).map(|from| Window { from, to: timeline.steps.len() }.narrowed());
        let sizes = widest.map(|window| parts(&drawn(b"", &timeline, window))[0].size);
        assert!(sizes.into_iter().all(|(width, height)| width < 16_000.0 && height < 16_000.0));
    }
}

/// Returns the words on the bars of a class.
fn on_bars<'a>(lanes: &'a Part, class: &str) -> Vec<&'a str> {
    let ground = format!("<rect class=\"ground {class}");
    let labelled = |group: &&Vec<String>| group.iter().any(|element| element.starts_with(&ground));
    let texts =
        lanes.groups.iter().filter(labelled).flatten().filter(|element| element.starts_with("<text "));
    texts.map(|element| element.split_once('>').unwrap().1.strip_suffix("</text>").unwrap()).collect()
}

/// In the examples there is room for it. A short bar shows it instead of the
/// value, which is in the header.
#[test]
fn writes_name_whose_lease_fixes_their_end() {
    let all: Vec<Part> = examples().map(|run| lanes(&svg(&run, whole(&Timeline::new(&run))))).collect();
    let told: Vec<Vec<&str>> = all.iter().map(|lanes| on_bars(lanes, "write")).collect();
    assert!(told.iter().all(|writes| !writes.is_empty()));
    assert!(told.iter().flatten().all(|words| words.contains(" by ")), "{told:?}");
    for (example, words) in [
        (0, "to 10 by client 0"),
        (2, "write 7, to 10 by the volume lease of client 0"),
        (4, "write 7, to 10 by clients 0, 1"),
        (5, "object 2: write 9, latest end 10 by the volume lease of client 2"),
        (6, "write 7, to 12 by the timeout"),
    ] {
        assert!(told[example].contains(&words), "{:?}", told[example]);
    }
}

#[test]
fn notes_name_their_objects_and_batch() {
    let run = examples().nth(7).unwrap();
    let lanes = lanes(&svg(&run, whole(&Timeline::new(&run))));
    let told = ["volume 0 notes: object 0", "batch 3: 0", "volume 0 notes: object 0, batch 4"];
    assert_eq!(on_bars(&lanes, "notes"), told);
}

/// Bars lie on columns, and bars of notes side by side, so that they need an
/// edge.
#[test]
fn bars_and_columns_differ_in_colour() {
    let run = examples().nth(7).unwrap();
    let style = Style::of(&svg(&run, whole(&Timeline::new(&run))));
    let part =
        |class: &str, place: usize| i32::from_str_radix(&style.value(class, "fill")[place..place + 2], 16);
    let classes = ["volume-lease", "object-lease", "notes", "guard", "write", "failure", "time"];
    for (place, one) in classes.iter().enumerate() {
        for other in &classes[..place] {
            let far = [1, 3, 5].map(|place| (part(one, place).unwrap() - part(other, place).unwrap()).abs());
            assert!(far.iter().sum::<i32>() > 50, "{one}, {other}: {far:?}");
        }
    }
    assert!(style.value("notes", "stroke").starts_with('#'));
}

fn receiver(message: &Message) -> String {
    let from_server = matches!(
        message.kind,
        Kind::Grant(_) | Kind::Invalidate { .. } | Kind::Offer { .. } | Kind::Batch(_)
    );
    if from_server {
        format!("client {}", message.client)
    } else {
        "server".into()
    }
}

fn lanes(picture: &str) -> Part {
    parts(picture).into_iter().find(|part| part.name == "lanes").unwrap()
}

/// Returns the elements of each message, in the order of the flights.
fn arrows(lanes: &Part) -> impl Iterator<Item = &Vec<String>> {
    lanes
        .groups
        .iter()
        .filter(|group| group.iter().any(|element| element.starts_with("<line class=\"arrow ")))
}

/// Except where a return leaves it behind, with any number of others.
#[test]
fn every_message_names_its_receiver() {
    for (place, run) in examples().chain(generated()).enumerate() {
        let timeline = Timeline::new(&run);
        let lanes = lanes(&svg(&run, whole(&timeline)));
        assert_eq!(arrows(&lanes).count(), timeline.flights.len());
        let goes_on = |flight: &Flight| !matches!(flight.end, End::Left(_));
        for (number, flight) in timeline.flights.iter().enumerate().filter(|(_, flight)| goes_on(flight)) {
            let named = format!("{}</text>", receiver(&flight.message));
            let opens = format!("<g data-flight=\"{number}\"");
            let said: Vec<&String> =
                lanes.groups.iter().filter(|group| group[0].starts_with(&opens)).flatten().collect();
            assert!(said.iter().any(|element| element.ends_with(&named)), "run {place}: {said:?}");
        }
    }
}

/// A lost message ends nearest to its receiver's line, short of it.
#[test]
fn lost_messages_end_at_their_receivers_lane() {
    let mut count = 0;
    for run in examples().chain(generated()) {
        let timeline = Timeline::new(&run);
        let lanes = lanes(&svg(&run, whole(&timeline)));
        let lines: Vec<f64> = lanes
            .groups
            .iter()
            .flatten()
            .filter(|line| line.starts_with("<line class=\"lane\""))
            .map(|line| number(line, "y1"))
            .collect();
        let lost = |flight: &Flight| matches!(flight.end, End::Lost(_) | End::QueueFull);
        for (group, flight) in arrows(&lanes).zip(&timeline.flights).filter(|(_, flight)| lost(flight)) {
            let arrow = group.iter().find(|element| element.starts_with("<line class=\"arrow ")).unwrap();
            let end = number(arrow, "y2");
            let far = |y: f64| (y - end).abs();
            let nearest = (0..lines.len()).min_by(|&a, &b| far(lines[a]).total_cmp(&far(lines[b]))).unwrap();
            let names: Vec<String> = std::iter::once("server".into())
                .chain((0..16).map(|client| format!("client {client}")))
                .collect();
            assert_eq!(names[nearest], receiver(&flight.message));
            assert!(far(lines[nearest]) > 5.0);
            count += 1;
        }
    }
    assert!(count > 100, "{count}");
}

/// Everything drawn in lanes has its sign in the legend.
#[test]
fn every_mark_is_in_the_legend() {
    let classes = |part: &Part, tag: &str| -> Vec<String> {
        let elements = part.groups.iter().flatten().filter(|element| element.starts_with(tag));
        elements.map(|element| boxes::attribute(element, "class").unwrap().to_string()).collect()
    };
    let first = |class: &String| class.split(' ').next().unwrap().to_string();
    let run = with_returns(run(35, 50));
    let picture = svg(&run, whole(&Timeline::new(&run)));
    let legend = picture.rsplit_once("<svg class=\"signs\"").unwrap().1;
    let lanes = lanes(&picture);
    let drawn: std::collections::BTreeSet<String> = ["<line", "<rect", "<circle", "<polygon"]
        .iter()
        .flat_map(|tag| classes(&lanes, tag))
        .map(|class| first(&class))
        .collect();
    assert!(drawn.len() > 15, "{drawn:?}");
    for class in
        drawn.iter().filter(|class| !["lane", "row", "column", "refusal", "ground"].contains(&class.as_str()))
    {
        assert!(legend.contains(&format!("class=\"{class}")), "{class}");
    }
    for class in ["latest-rest", "notes", "gap", "saved", "left-under-way", "under-way-again"] {
        assert!(drawn.contains(class), "{class}: {drawn:?}");
    }
}
