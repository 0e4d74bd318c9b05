//! What is measured: making a file's listing, by the library and by two models,
//! and telling why its last step was answered "ask first".

use std::io;

use gevtsomi::LISTING_BYTES;
use model::limits::STEPS;
use model::listing::{listing, listing_trusting};
use model::why::why;

pub type Subject<'a> = &'a dyn Fn(&[u8]) -> usize;

pub fn proved(file: &[u8]) -> usize {
    let mut output = [0; LISTING_BYTES];
    gevtsomi::list(file, &mut output).expect("room for any listing")
}

/// Lists with the model that asks question 1 before each step.
pub fn asking(file: &[u8]) -> usize {
    listing(file).len()
}

/// Lists with the model that does not ask it. The proved run does not either.
pub fn trusting(file: &[u8]) -> usize {
    listing_trusting(file).len()
}

/// Returns the event of the last of the most steps, a read answered "ask first".
pub fn proved_why(file: &[u8]) -> usize {
    let why = gevtsomi::why(file, STEPS as u32).expect("a run file");
    why.expect("a read answered \"ask first\"").event as usize
}

/// Does the same with the model, which does not ask question 1 here either.
pub fn model_why(file: &[u8]) -> usize {
    why(file, STEPS as u32).expect("a run file").event as usize
}

/// Returns the subject with this name, which a process that the program starts
/// gets as an argument.
pub fn named(word: &str) -> io::Result<Subject<'static>> {
    match word {
        "nothing" => Ok(&|_| 0),
        "proved" => Ok(&proved),
        "asking" => Ok(&asking),
        "trusting" => Ok(&trusting),
        "proved-why" => Ok(&proved_why),
        "model-why" => Ok(&model_why),
        _ => Err(io::Error::other(format!("nothing is measured by the name {word}"))),
    }
}

/// Checks that all subjects do the same work.
pub fn same(file: &[u8]) {
    let mut output = [0; LISTING_BYTES];
    let len = gevtsomi::list(file, &mut output).expect("room for any listing");
    assert_eq!(output[..len], listing(file)[..]);
    assert_eq!(output[..len], listing_trusting(file)[..]);
}

/// Checks that both answer the same about the last step.
pub fn same_why(file: &[u8]) {
    let (library, model) = (gevtsomi::why(file, STEPS as u32), why(file, STEPS as u32));
    let library = library.expect("a run file").expect("a read answered \"ask first\"");
    let model = model.expect("a run file");
    assert_eq!((library.reason as u8, library.event), (model.reason, model.event));
}

#[cfg(test)]
mod tests {
    use super::*;
    use crate::files::{asked_last, runs};

    #[test]
    fn each_name_lists_the_whole_file() {
        let file = &runs()[0].file;
        for word in ["proved", "asking", "trusting"] {
            assert_eq!(named(word).unwrap()(file), listing(file).len(), "{word}");
        }
        assert!(named("proven").is_err());
    }

    /// The event is among the last steps, so that nearly the whole run has to be
    /// followed to find it.
    #[test]
    fn each_name_finds_the_last_reason() {
        let file = asked_last();
        same_why(&file);
        for word in ["proved-why", "model-why"] {
            let event = named(word).unwrap()(&file);
            assert!((STEPS - 40..STEPS).contains(&event), "{word}: {event}");
        }
    }
}
