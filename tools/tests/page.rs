//! Pages and pictures of texts: what the text says about each step is beside
//! it.

mod common;

use std::fs;
use std::path::Path;

use common::{example, run_program};
use tools::picture::layout::Window;
use tools::picture::{page, svg};
use tools::scenario::Scenario;
use tools::text::script;

const PICTURE: &str = env!("CARGO_BIN_EXE_picture");

/// Returns the text that the browser's checks use: the paper's words, joins,
/// comments, expectations that hold and fail, and a line that cannot be met.
fn text() -> Vec<u8> {
    fs::read(Path::new(env!("CARGO_MANIFEST_DIR")).join("tests/page/text.runtext")).unwrap()
}

fn scenario(text: &[u8]) -> Scenario {
    script(text).unwrap().into()
}

fn whole(scenario: &Scenario) -> Window {
    Window { from: 1, to: scenario.run.steps.len() }
}

/// Returns all texts of the examples, and the one above.
fn texts() -> Vec<Vec<u8>> {
    let names = model::examples::all().into_iter().map(|one| format!("{}.runtext", one.name));
    names.map(|name| example(&name)).chain([text()]).collect()
}

/// Returns the lines of the listing, without what the page needs for itself.
fn listed(page: &str) -> Vec<String> {
    let listing = page.split_once("<div id=\"listing\">").unwrap().1.split_once("</div>").unwrap().0;
    listing.lines().map(bare).filter(|line| !line.is_empty()).collect()
}

/// Returns the text without tags, and with entities as plain characters.
fn bare(html: &str) -> String {
    let kept: String =
        html.split('<').map(|piece| piece.split_once('>').map_or(piece, |(_, text)| text)).collect();
    kept.replace("&quot;", "\"").replace("&lt;", "<").replace("&gt;", ">").replace("&amp;", "&")
}

/// Except for the entries of joins, the listing is explain's: lines, words
/// written, clock, answers, expectations, comments and why it stopped.
#[test]
fn the_listing_says_what_explain_says() {
    for text in texts() {
        let scenario = scenario(&text);
        let listed = listed(&page(&scenario, whole(&scenario)));
        let is_entry = |line: &&String| line.contains(" to ") && line.split(' ').nth(1) == Some("to");
        let told = tools::explain::told(&scenario);
        let told: Vec<&str> = told.lines().filter(|line| !line.starts_with("still under way")).collect();
        let mut behind_joins =
            listed.iter().filter(is_entry).map(|entry| entry.split_once(" # ").map(|it| it.1));
        let mut others = listed.iter().filter(|line| !is_entry(line));
        for line in told {
            let found = others.next().unwrap();
            if found != line {
                let comment = behind_joins.find(|behind| behind.is_some()).unwrap().unwrap();
                assert_eq!(format!("{found} # {comment}"), line);
            }
        }
        assert_eq!(others.next(), None);
    }
}

#[test]
fn a_join_is_one_entry() {
    for text in texts() {
        let scenario = scenario(&text);
        let page = page(&scenario, whole(&scenario));
        let joins: Vec<usize> = (1..=scenario.run.steps.len()).filter(|&step| scenario.joins(step)).collect();
        let entries: Vec<&str> = page.split("<details class=\"join\"").skip(1).collect();
        let mut inside = Vec::new();
        for entry in entries {
            let steps = entry.split_once("</details>").unwrap().0.matches("<p data-step=").count();
            let first = *joins.get(inside.len()).unwrap();
            assert_eq!(scenario.together(first), first..=first + steps - 1);
            assert!(entry.contains(&format!("<summary>{first} to {} (line ", first + steps - 1)));
            inside.extend(first..first + steps);
        }
        assert_eq!(inside, joins);
    }
}

/// Each expectation is marked beside its answer, in the listing and in the
/// header.
#[test]
fn expectations_are_marked() {
    for text in texts() {
        let scenario = scenario(&text);
        let page = page(&scenario, whole(&scenario));
        let (held, failed): (Vec<_>, Vec<_>) = scenario.expectations().partition(|(_, one)| one.holds());
        let listing = page.split_once("<div id=\"listing\">").unwrap().1;
        assert_eq!(listing.matches("<span class=\"held\">").count(), held.len());
        for (step, expectation) in &failed {
            let line =
                listing.lines().find(|line| line.starts_with(&format!("<p data-step=\"{step}\""))).unwrap();
            assert!(line.contains(" data-expected=\"failed\""), "{line}");
            assert!(
                line.contains(&format!("<span class=\"failed\">{}</span>", expectation.words())),
                "{line}"
            );
        }
        let red = page.matches("<text class=\"answer failed-text\"").count();
        let jump = page.matches("data-seek=\"failed\"").count();
        assert_eq!((red, jump), (failed.len(), usize::from(!failed.is_empty())));
        // Once in the header, once in the lanes, and once in the legend.
        assert_eq!(page.matches("<rect class=\"failure\"").count(), 2 * failed.len() + 1);
        let verdict = tools::check::verdict(&scenario).words;
        let class = if failed.is_empty() { "held" } else { "failed" };
        assert!(page.contains(&format!("<span class=\"{class}\">{verdict}</span>")), "{verdict}");
    }
}

/// A run file has no text, so nothing is said about one.
#[test]
fn a_run_file_has_no_expectations() {
    let run = tools::text::from_file(&example("4-client-switched-off.run")).unwrap();
    let scenario = Scenario::from(run);
    let page = page(&scenario, whole(&scenario));
    assert!(!page.contains("class=\"verdict\"") && !page.contains("data-seek=\"failed\""));
    assert_eq!(page.matches("<text class=\"text-line\"").count(), 0);
}

/// The paper's words if the text has them, in a picture alone, too.
#[test]
fn the_words_are_the_texts_own() {
    let scenario = scenario(&text());
    let word = |said: &str, word: &str| said.split(|c: char| !c.is_ascii_alphabetic()).any(|one| one == word);
    for drawn in [page(&scenario, whole(&scenario)), svg(&scenario, whole(&scenario))] {
        let drawn = drawn.split("<script>").next().unwrap();
        let body = bare(drawn.rsplit_once("</style>").unwrap().1);
        for ours in ["client", "clients", "volume", "volumes", "object", "objects"] {
            assert!(!word(&body, ours), "{ours}");
        }
        for theirs in ["dash", "dashes", "region", "notice"] {
            assert!(word(&body, theirs), "{theirs}");
        }
    }
}

/// Ticks have the time beside them if the text says how long one is.
#[test]
fn times_stand_beside_the_ticks() {
    let text = String::from_utf8(text()).unwrap();
    let with = page(&scenario(text.as_bytes()), Window { from: 1, to: 23 });
    let without = text.lines().filter(|line| !line.starts_with("one tick")).collect::<Vec<_>>().join("\n");
    let without = page(&scenario(without.as_bytes()), Window { from: 1, to: 23 });
    for words in
        ["region 0 lease to 10 = 2.5 s, epoch 1", ">2.5 s</text>", "one tick is 250 ms", ">time</text>"]
    {
        assert!(with.contains(words), "{words}");
        assert!(!without.contains(words), "{words}");
    }
    assert!(without.contains("region 0 lease to 10, epoch 1"));
}

/// A text that stops halfway is shown up to there, with the reason at the end.
#[test]
fn a_text_that_stops_is_shown_up_to_there() {
    let ended = run_program(PICTURE, &["html"], &text());
    let page = String::from_utf8(ended.output).unwrap();
    assert_eq!(ended.status, 1);
    let reason = "line 24, deliver GRANT to dash 1: found no GRANT to dash 1 under way";
    assert!(listed(&page).last().unwrap().starts_with(&format!("stopped at {reason}")));
    assert_eq!(page.matches("<p data-step=").count(), 23);
    assert!(
        ended.errors.contains("3 of 8 expectations failed")
            && ended.errors.contains("line 24: found no GRANT")
    );
    let picture = run_program(PICTURE, &["svg"], &text());
    let picture_words = bare(&String::from_utf8(picture.output).unwrap());
    assert_eq!(picture.status, 1);
    assert!(
        picture_words.contains("3 of 8 expectations failed") && picture_words.contains("stopped at line 24,")
    );
}

/// For a part of the run, only what is said about its steps.
#[test]
fn a_window_has_its_own_lines() {
    let scenario = scenario(&text());
    let part = listed(&page(&scenario, Window { from: 5, to: 9 }));
    assert!(part[0].starts_with("# Both drive in.") && part[1].starts_with("5 to 7 (line 11, "), "{part:?}");
    assert!(part.iter().any(|line| line.starts_with("8 to 9 (line 12, ")));
    assert!(!part.iter().any(|line| line.contains("stopped at") || line.contains("Made for the page")));
}

/// Notes and batches are about a client and a volume, so that the page can leave
/// them out with the others.
#[test]
fn notes_and_batches_can_be_left_out() {
    let scenario = scenario(&example("7-parked.runtext"));
    let page = page(&scenario, whole(&scenario));
    let about = |inside: &str| -> Vec<&str> {
        let groups =
            page.split("<g").skip(1).filter(|group| group.split("</g>").next().unwrap().contains(inside));
        groups.map(|group| group.split('>').next().unwrap()).collect()
    };
    assert_eq!(about("<rect class=\"notes\""), [" data-client=\"0\" data-volume=\"0\""; 3]);
    for (class, count) in [("<line class=\"arrow batch", 2), ("<line class=\"arrow cleared", 1)] {
        let about = about(class);
        assert!(about.iter().all(|it| it.ends_with(" data-client=\"0\" data-volume=\"0\"")), "{about:?}");
        assert_eq!(about.len(), count);
    }
    let steps = ["26", "29", "31"].map(|step| {
        format!("<p data-step=\"{step}\" data-client=\"0\" data-volume=\"0\" data-answer=\"done\"")
    });
    assert!(steps.iter().all(|step| page.contains(step)));
}
