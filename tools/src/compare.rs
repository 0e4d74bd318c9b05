//! Compares a program's listings with the model's, byte for byte, on generated
//! runs and damaged files.

use std::io;

use model::gen::{damage, runs};
use model::listing::{listing, listing_trusting, listing_with};
use model::mistakes::Mistakes;
use model::shrink::shrink;

use crate::scenario::Scenario;
use crate::{difference, text};

/// How a comparison ended.
pub enum Ended {
    Same(String),
    Different(String),
}

/// Compares what `printed` returns for each file of the seed with the model's
/// listing.
pub fn compare(
    seed: u64,
    count: usize,
    mut printed: impl FnMut(&[u8]) -> io::Result<Vec<u8>>,
) -> io::Result<Ended> {
    let mut found = vec![false; Mistakes::IN_RUNS.len()];
    let damaged = damage::files(seed);
    for number in 0..count {
        let file = text::to_file(&runs::run(seed, number));
        look_for_mistakes(&file, &mut found);
        if let Some(difference) = difference(&file, &mut printed)? {
            return Ok(Ended::Different(format!("seed {seed}, run {number} differs; {difference}")));
        }
    }
    for (number, file) in damaged.iter().enumerate() {
        if let Some(difference) = difference(file, &mut printed)? {
            return Ok(Ended::Different(format!("seed {seed}, damaged file {number} differs; {difference}")));
        }
    }
    if let Some(((name, _), _)) = Mistakes::IN_RUNS.iter().zip(&found).find(|(_, found)| !**found) {
        return Ok(Ended::Different(format!("seed {seed}: no run finds the mistake {name}")));
    }
    let (damaged, mistakes) = (damaged.len(), found.len());
    let files = format!("{count} runs, {damaged} damaged files");
    Ok(Ended::Same(format!("seed {seed}: {files}, {mistakes} mistakes found, 0 differences")))
}

/// Notes which mistakes would have changed this file's listing. A comparison
/// that finds none of them would prove nothing.
fn look_for_mistakes(file: &[u8], found: &mut [bool]) {
    let honest = listing_trusting(file);
    for ((_, mistakes), found) in Mistakes::IN_RUNS.iter().zip(found) {
        *found = *found || listing_with(*mistakes, file) != honest;
    }
}

/// Returns the smallest file found for which the listings differ, in words, or
/// nothing if they agree.
fn difference(
    file: &[u8],
    printed: &mut impl FnMut(&[u8]) -> io::Result<Vec<u8>>,
) -> io::Result<Option<String>> {
    if printed(file)? == listing(file) {
        return Ok(None);
    }
    let small = shrink(file, |file| printed(file).is_ok_and(|lines| lines != listing(file)));
    let theirs = printed(&small)?;
    Ok(Some(told(&small, &theirs)))
}

/// Returns the first difference, below the run as text. A file that is no run
/// is shown as bytes.
fn told(small: &[u8], theirs: &[u8]) -> String {
    let run = text::from_file(small).map(Scenario::from);
    let first = difference::first(&run, &listing(small), theirs).unwrap_or_default();
    match run {
        Ok(scenario) => format!("the smallest such run:\n\n{}\n{first}", text::print(&scenario.run)),
        Err(_) => {
            let hex: String = small.iter().map(|byte| format!("{byte:02x}")).collect();
            format!("the smallest such file, in hex:\n\n{hex}\n\n{first}")
        }
    }
}
