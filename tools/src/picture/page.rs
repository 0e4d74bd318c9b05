//! A page that holds the picture, with the explained listing below. It needs
//! nothing outside itself.

use super::layout::{Window, COLUMN};
use super::listing::listing;
use super::svg::{escaped, n, Svg};
use super::{header, legend, number_names, titles, verdicts, Parts, NAMES, STYLE};
use crate::scenario::Scenario;
use crate::timeline::Timeline;
use crate::voice::Voice;

const PAGE: &str = include_str!("page.html");
const PAGE_STYLE: &str = include_str!("page.css");
const SCRIPTS: [&str; 8] = [
    include_str!("parts.js"),
    include_str!("fold.js"),
    include_str!("zoom.js"),
    include_str!("steps.js"),
    include_str!("told.js"),
    include_str!("strip-words.js"),
    include_str!("print.js"),
    include_str!("page.js"),
];

pub fn page(scenario: &Scenario, window: Window) -> String {
    let (timeline, run) = (Timeline::of(scenario), &scenario.run);
    let parts = Parts::new(&timeline, window);
    let (width, height) = (parts.width(), parts.layout.height);
    let (title, subtitle) = titles(&run.note, &timeline, window);
    let mut corner = Svg::default();
    number_names(&timeline, parts.header_height, &mut corner);
    let filled = [
        ("{style}", STYLE.to_string()),
        ("{page-style}", PAGE_STYLE.to_string()),
        ("{script}", SCRIPTS.concat()),
        ("{first}", window.from.to_string()),
        ("{column}", n(COLUMN)),
        ("{clients}", run.setup.clients.to_string()),
        ("{volumes}", format!("{:?}", &run.setup.volume_of[..usize::from(run.setup.objects)])),
        ("{client}", scenario.voice.said("client")),
        ("{object}", scenario.voice.said("object")),
        ("{numbers}", n(header::numbers(&timeline))),
        ("{verdict}", verdict(&timeline)),
        ("{signs}", signs(&scenario.voice)),
        ("{corner}", part("corner", NAMES, parts.header_height, &corner.0)),
        ("{header}", part("header", width, parts.header_height, &parts.header)),
        ("{names}", part("names", NAMES, height, &parts.names)),
        ("{lanes}", part("lanes", width, height, &parts.lanes)),
        ("{title}", escaped(&title)),
        ("{subtitle}", escaped(&subtitle.join("; "))),
        ("{listing}", listing(scenario, &timeline, &parts.layout)),
    ];
    fill(&filled)
}

/// Fills each mark of the page once, from left to right, so that nothing filled
/// in is taken for a mark.
fn fill(filled: &[(&str, String)]) -> String {
    let mut page = String::new();
    let mut rest = PAGE;
    while let Some((place, (mark, words))) = filled
        .iter()
        .filter_map(|pair| rest.find(pair.0).map(|place| (place, pair)))
        .min_by_key(|(place, _)| *place)
    {
        page.push_str(&rest[..place]);
        page.push_str(words);
        rest = &rest[place + mark.len()..];
    }
    page + rest
}

/// Returns a part of the picture, which the page may make narrower without
/// changing its height.
fn part(class: &str, width: f64, height: f64, inside: &str) -> String {
    let (width, height) = (n(width), n(height));
    format!(
        "<svg class=\"{class}\" data-width=\"{width}\" data-height=\"{height}\" width=\"{width}\" \
         height=\"{height}\" viewBox=\"0 0 {width} {height}\" preserveAspectRatio=\"none\">\n{inside}</svg>"
    )
}

/// Returns each sign with its words, so that the signs wrap at the edge of the
/// screen.
fn signs(voice: &Voice) -> String {
    let sign = |(words, drawn): (String, String)| {
        let (width, height) = (n(legend::SIGN), n(legend::ROW));
        let size = format!("width=\"{width}\" height=\"{height}\" viewBox=\"0 0 {width} {height}\"");
        format!("<span class=\"sign\"><svg {size}>\n{drawn}</svg>{words}</span>\n")
    };
    legend::signs(voice).map(sign).collect()
}

/// Returns how many expectations hold, with a link to those that fail, and why
/// the run stopped.
fn verdict(timeline: &Timeline) -> String {
    let failed = timeline.steps.iter().any(|view| view.failed());
    let told = verdicts(timeline).enumerate().map(|(place, (words, bad))| {
        let class = if bad { "failed" } else { "held" };
        let jump = match place == 0 && failed {
            true => {
                "<span class=\"jump\">; next <button data-seek=\"failed\" data-key=\"f\">failed</button></span>"
            }
            false => "",
        };
        format!("<p class=\"verdict\"><span class=\"{class}\">{}</span>{jump}</p>\n", escaped(words))
    });
    told.collect()
}
