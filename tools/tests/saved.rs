//! Saved states (02, A7): in texts, explained, in tables and in pictures.

mod boxes;
mod common;

use std::collections::BTreeSet;

use boxes::{attribute, number, parts, Part};
use common::{run_program, with_returns, SETUP};
use model::gen::runs::{run, Run};
use model::message::Kind;
use tools::explain::{listing, told};
use tools::picture::layout::{Window, COLUMN};
use tools::picture::{drawn, page};
use tools::scenario::Scenario;
use tools::text::{from_file, parse, print, script, to_file};
use tools::timeline::flights::End;
use tools::timeline::tracks::Track;
use tools::timeline::Timeline;
use tools::trace::walk;

const EXPLAIN: &str = env!("CARGO_BIN_EXE_explain");

fn scenario(lines: &str) -> Scenario {
    script(format!("{SETUP}{lines}").as_bytes()).unwrap().into()
}

/// Returns the explained lines from this step on.
fn explained(lines: &str, from: usize) -> Vec<String> {
    listing(&scenario(lines).run).lines().skip(from - 1).map(String::from).collect()
}

#[test]
fn saves_and_returns_are_read_and_written() {
    for number in 0..60 {
        let run = with_returns(run(51, number));
        let again = parse(print(&run).as_bytes()).unwrap();
        assert_eq!(again.steps, run.steps);
        assert_eq!(from_file(&to_file(&run)).unwrap().steps, run.steps);
    }
}

/// Names of messages and joins go by what the return restored.
#[test]
fn names_go_by_the_restored_tables() {
    let lines = "ask client 0 object 0\nask client 1 object 0\nsave 0\ndeliver RENEW from client 0\n\
                 lose OFFER to client 0\nlose RENEW from client 1\nreturn 0\ndeliver RENEW from client 1\n\
                 return 0\njoin client 1 object 1\n";
    let steps: Vec<String> = print(&scenario(lines).run).lines().skip(5).map(String::from).collect();
    assert_eq!(steps[7], "deliver 1");
    // Behind the two that are under way again.
    assert_eq!(steps[9..12], ["ask client 1 object 1", "deliver 2", "deliver 2"]);
    let lost = format!("{SETUP}save 0\nask client 0 object 0\nreturn 0\nlose RENEW from client 0\n");
    assert_eq!(
        parse(lost.as_bytes()).unwrap_err()[0].to_string(),
        "line 8: found no RENEW from client 0 under way, expected one, but no message is under way"
    );
}

#[test]
fn a_save_tells_what_it_keeps_and_replaces() {
    let lines = "save 0\njoin client 0 object 0\njoin client 1 object 1\nwrite object 0 value 7\n\
                 write object 1 value 8\nclock 4\nsave 0\n";
    let told = explained(lines, 1);
    assert_eq!(told[0], "1 (clock 0) save 0: done: saves clock 0, nothing under way, no standing write");
    assert_eq!(
        told.last().unwrap(),
        "19 (clock 4) save 0: done: saves clock 4, 2 messages under way, standing writes of objects 0, 1; replaces \
         what step 1 saved"
    );
}

#[test]
fn a_return_tells_what_it_restores_and_leaves() {
    let lines =
        "ask client 0 object 0\nsave 1\nreturn 1\nclock 5\nreturn 1\nclock 7\nsave 2\nclock 9\nreturn 1\n\
                 return 2\n";
    assert_eq!(
        explained(lines, 3),
        [
            "3 (clock 0) return 1: done: restores what step 2 saved: clock 0, 1 message under way, no standing write; \
             nothing has changed since; under way again: 0 RENEW 1 from client 0 object 0",
            "4 (clock 5) clock 5: done",
            "5 (clock 0) return 1: done: restores what step 2 saved: clock 0 (was 5), 1 message under way, no standing \
             write; under way again: 0 RENEW 1 from client 0 object 0; leaves behind steps 3 to 4",
            "6 (clock 7) clock 7: done",
            "7 (clock 7) save 2: done: saves clock 7, 1 message under way, no standing write",
            "8 (clock 9) clock 9: done",
            "9 (clock 0) return 1: done: restores what step 2 saved: clock 0 (was 9), 1 message under way, no standing \
             write; under way again: 0 RENEW 1 from client 0 object 0; leaves behind steps 5 to 8",
            "10 (clock 7) return 2: done: restores what step 7 saved: clock 7 (was 0), 1 message under way, no standing \
             write; under way again: 0 RENEW 1 from client 0 object 0; leaves behind step 9; takes up steps 5 to 7 again",
        ]
    );
}

#[test]
fn a_name_that_is_not_there_is_told() {
    let lines =
        "return 0\nsave 4\nreturn 255\nsave 1\nreturn 0\nsave 3\nreturn 2\nrestart server\nreturn 1\n";
    let told = explained(lines, 1);
    let reason = |step: usize| told[step - 1].split_once(": refused 11: ").map(|(_, reason)| reason);
    assert_eq!(reason(1), Some("state 0 was never saved, nor was another"));
    assert_eq!(reason(2), Some("saved states have the names 0 to 3"));
    assert_eq!(reason(3), Some("saved states have the names 0 to 3"));
    assert_eq!(reason(5), Some("state 0 was never saved, only 1 was"));
    assert_eq!(reason(7), Some("state 2 was never saved, only 1, 3 were"));
    assert!(told[8].starts_with("9 (clock 0) return 1: done: restores what step 4 saved: "));
}

#[test]
fn tables_after_a_return_are_the_restored_ones() {
    let lines =
        "one tick is 1 s\nclock 3\nask client 0 object 0\nsave 2\ndeliver 0\nclock 8\nsave 0\nreturn 2\n";
    let text = format!("{SETUP}{lines}");
    let after = |step: &str| {
        let ended = run_program(EXPLAIN, &["--tables", step], text.as_bytes());
        String::from_utf8(ended.output).unwrap().split_once("\n\n").unwrap().1.to_string()
    };
    let saved = "\nsaved states\n  name  saved in step  clock\n";
    assert!(after("3").ends_with(&format!("{saved}  2     3              3 = 3 s\n")), "{}", after("3"));
    let both = "  0     6              8 = 8 s\n  2     3              3 = 3 s\n";
    let (then, now) = (after("3"), after("7"));
    assert_eq!(then.split_once(saved).unwrap().0, now.split_once(saved).unwrap().0);
    assert_eq!(now.split_once(saved).unwrap().1, both);
}

/// What holds on one side of a return may fail on the other.
#[test]
fn expectations_are_held_on_both_sides() {
    let scenario = scenario(
        "join client 0 object 0\nsave 0\nwrite object 0 value 7 => done\ndeliver INVALIDATE to client 0\n\
         read client 0 object 0 => ask first\nreturn 0 => done\nread client 0 object 0 => shown 0\n\
         read client 0 object 0 => shown 7\nreturn 3 => refused 11\n",
    );
    let told = told(&scenario);
    assert!(told
        .contains("read client 0 object 0: ask first, as expected: copy invalidated in step 10 (clock 0)"));
    assert!(told.contains("return 3: refused 11, as expected: state 3 was never saved, only 0 was\n"));
    assert!(told.contains("read client 0 object 0: FAILED: expected shown 7, found shown 0: version 1; "));
    assert_eq!(Timeline::of(&scenario).steps.iter().filter(|view| view.failed()).count(), 1);
}

fn whole(timeline: &Timeline) -> Window {
    Window { from: 1, to: timeline.steps.len() }
}

fn lanes(timeline: &Timeline) -> (String, Part) {
    let picture = drawn(b"", timeline, whole(timeline));
    let lanes = parts(&picture).into_iter().find(|part| part.name == "lanes").unwrap();
    (picture, lanes)
}

fn generated() -> impl Iterator<Item = Run> {
    (2..40).map(|number| with_returns(run(52, number)))
}

/// Returns the accepted returns of a run.
fn returns(timeline: &Timeline) -> Vec<usize> {
    (1..=timeline.steps.len()).filter(|&step| timeline.step(step).restored.is_some()).collect()
}

/// Spans and flights end at a return at the latest, and those after it are what
/// its tables hold.
#[test]
fn nothing_lasts_across_a_return() {
    let mut again = 0;
    for run in generated() {
        let timeline = Timeline::new(&run);
        for step in returns(&timeline) {
            let across = |from: usize, to: Option<usize>| from < step && to.is_none_or(|to| to > step);
            assert!(!timeline.spans.iter().any(|span| across(span.from, span.to)));
            let ended = |end: End| match end {
                End::Delivered(end) | End::Lost(end) | End::Left(end) => Some(end),
                End::QueueFull => Some(0),
                End::UnderWay => None,
            };
            assert!(!timeline.flights.iter().any(|flight| across(flight.sent, ended(flight.end))));
        }
        again += timeline.flights.iter().filter(|flight| flight.again).count();
    }
    assert!(again > 100, "{again}");
}

/// No bar, arrow or line of a write is on both sides of a gap.
#[test]
fn nothing_is_drawn_across_a_return() {
    let ruling = ["lane", "row", "column"];
    let mut gaps = 0;
    for run in generated() {
        let timeline = Timeline::new(&run);
        let (picture, lanes) = lanes(&timeline);
        assert!(!picture.contains("NaN") && !picture.contains("inf"));
        let middles: Vec<f64> = returns(&timeline).iter().map(|&step| (step as f64 - 0.5) * COLUMN).collect();
        let drawn = |class: &str| !ruling.contains(&class) && !class.starts_with("ground") && class != "gap";
        for shape in lanes.shapes.iter().filter(|shape| drawn(&shape.class)) {
            let ((left, _), (right, _)) = shape.bounds();
            let crossed = middles.iter().find(|&&middle| left < middle - 0.1 && right > middle + 0.1);
            assert_eq!(crossed, None, "{shape:?}");
        }
        assert_eq!(lanes.shapes.iter().filter(|shape| shape.class == "gap").count(), middles.len());
        gaps += middles.len();
    }
    assert!(gaps > 50, "{gaps}");
}

/// The header shades the steps that do not lead to the end of the run, and the
/// page's listing tells the same ones.
#[test]
fn steps_left_behind_are_shaded() {
    let mut count = 0;
    for run in generated() {
        let scenario = Scenario::from(run.clone());
        let timeline = Timeline::of(&scenario);
        let mut line = BTreeSet::new();
        walk(&run, |moment| line = moment.lines.back_from(moment.number).collect());
        let left: Vec<usize> = (1..=run.steps.len()).filter(|step| !line.contains(step)).collect();
        let picture = drawn(b"", &timeline, whole(&timeline));
        let header = picture.split("<svg class=\"names\"").next().unwrap();
        let shaded = header.lines().filter(|line| line.starts_with("<rect class=\"left-behind\""));
        let shaded: Vec<usize> = shaded.map(|line| (number(line, "x") / COLUMN) as usize + 1).collect();
        assert_eq!(shaded, left);
        let page = page(&scenario, whole(&timeline));
        let listed =
            page.lines().filter(|line| line.starts_with("<p data-step=") && line.contains(" data-left "));
        let listed = listed.map(|line| attribute(line, "data-step").unwrap().parse().unwrap());
        assert_eq!(listed.collect::<Vec<usize>>(), left);
        count += left.len();
    }
    assert!(count > 500, "{count}");
}

/// A write that a return puts there again has the end that it was accepted
/// with, and no mark of acceptance or completion at the return.
#[test]
fn a_restored_write_keeps_what_fixes_its_end() {
    let scenario = scenario(
        "join client 0 object 0\nclock 2\nwrite object 0 value 7\nsave 0\nclock 10\nsave 1\nreturn 0\n\
         lose INVALIDATE to client 0\nreturn 1\nclock 11\n",
    );
    let timeline = Timeline::of(&scenario);
    let writes: Vec<(usize, Option<usize>)> = timeline
        .spans
        .iter()
        .filter(|span| span.track == Track::Write(0))
        .map(|span| (span.from, span.to))
        .collect();
    assert_eq!(writes, [(9, Some(13)), (13, Some(15)), (15, Some(16))]);
    let (picture, lanes) = lanes(&timeline);
    let title =
        "<title>write of object 0: value 7, version 2, latest end 10 by the volume lease of client 0\n";
    assert!(picture.matches(title).count() >= 3);
    let count = |class: &str| lanes.shapes.iter().filter(|shape| shape.class == class).count();
    // The clock reaches the end before the first return, and state 1 was saved
    // then.
    assert_eq!((count("drop"), count("completed"), count("latest")), (1, 1, 2));
    let invalidates =
        timeline.flights.iter().filter(|flight| matches!(flight.message.kind, Kind::Invalidate { .. }));
    let ends: Vec<(bool, End)> = invalidates.map(|flight| (flight.again, flight.end)).collect();
    assert_eq!(ends, [(false, End::Left(13)), (true, End::Lost(14)), (true, End::UnderWay)]);
}

/// A return may go to a later time. None passes.
#[test]
fn no_time_passes_in_a_return() {
    let scenario = scenario("join client 0 object 0\nsave 0\nclock 9\nsave 1\nreturn 0\nreturn 1\n");
    let timeline = Timeline::of(&scenario);
    let last = timeline.steps.last().unwrap();
    assert_eq!((last.clock_before, last.clock, last.passes_time()), (0, 9, false));
    let picture = drawn(b"", &timeline, whole(&timeline));
    let times = picture.lines().filter(|line| line.starts_with("<rect class=\"time\""));
    // In the header, in the lanes and in the legend.
    assert_eq!(times.count(), 3);
    assert!(picture.contains(">saved in step 8</text>") && picture.contains(">saved in step 10</text>"));
}
