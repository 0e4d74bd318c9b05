//! Tells the first difference between somebody else's listing of a run file and
//! ours.

use model::runfile::Fault;

use crate::listed::line;
use crate::scenario::Scenario;
use crate::text::words::quoted;
use crate::{explain, refused_file};

/// Returns the first difference in words, or nothing if the bytes are equal.
/// `run` explains our answer, or is the fault for which the file is refused.
pub fn first(run: &Result<Scenario, Fault>, ours: &[u8], theirs: &[u8]) -> Option<String> {
    let Some(number) = lines(theirs).position(|line| line.ends_with(CR_LF)) else {
        return first_but_for_line_ends(run, ours, theirs);
    };
    let plain: Vec<u8> = lines(theirs).flat_map(with_lf).copied().collect();
    let rest = first_but_for_line_ends(run, ours, &plain).unwrap_or("no difference".into());
    let number = number + 1;
    Some(format!(
        "line {number} of their listing ends in CR LF, where ours has LF\nbut for such line ends: {rest}"
    ))
}

const CR_LF: &[u8] = b"\r\n";

/// Returns the line, with LF if it ends in CR LF.
fn with_lf(line: &[u8]) -> impl Iterator<Item = &u8> {
    let (text, end) = line.strip_suffix(CR_LF).map_or((line, &b""[..]), |text| (text, b"\n"));
    text.iter().chain(end)
}

fn first_but_for_line_ends(run: &Result<Scenario, Fault>, ours: &[u8], theirs: &[u8]) -> Option<String> {
    let (mut our_lines, mut their_lines) = (lines(ours), lines(theirs));
    let mut number = 0;
    loop {
        match (our_lines.next(), their_lines.next()) {
            (None, None) => return None,
            (ours, theirs) if ours == theirs => number += 1,
            (ours, theirs) => return Some(told(run, number, ours, theirs)),
        }
    }
}

/// Returns the lines with their line ends, so that a missing one is a
/// difference.
fn lines(listing: &[u8]) -> impl Iterator<Item = &[u8]> {
    listing.split_inclusive(|&byte| byte == b'\n')
}

/// Returns the difference at a step in words. Step 0 is the header.
fn told(run: &Result<Scenario, Fault>, step: usize, ours: Option<&[u8]>, theirs: Option<&[u8]>) -> String {
    let theirs = match theirs {
        None => "the listing ends".into(),
        Some(theirs) => answer(step, &String::from_utf8_lossy(theirs)),
    };
    let ours = match (ours, run) {
        (None, _) => "the listing ends".into(),
        (Some(header), _) if step == 0 => quoted(&String::from_utf8_lossy(header)),
        (_, Ok(run)) => explain::line_at(run, step).unwrap_or_default(),
        (_, Err(fault)) => refused_file::told(fault),
    };
    format!("first difference at line {} of the listing\ntheirs: {theirs}\nours:   {ours}", step + 1)
}

/// Returns a line of this step in words, or says that it is none.
fn answer(step: usize, text: &str) -> String {
    match line(text.strip_suffix('\n').unwrap_or("")) {
        Some((0, listed)) if step == 1 && listed.refusal() == Some(9) => "the file is refused (9)".into(),
        Some((number, listed)) if number == step => format!("{step} {}", listed.words()),
        _ => format!("{}, which is no line of step {step}", quoted(text)),
    }
}
