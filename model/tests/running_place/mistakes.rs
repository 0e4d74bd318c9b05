//! Every mistake of a running place changes the listing of a file used here.

use model::gen::runs::{run, Run};
use model::listing::listing_trusting;
use model::step_record::Step;

use crate::reader::Reader;
use crate::refused::scene;

/// Returns the run with a field in the last record that should be 0. That file
/// is refused, so a check that does not get there is noticed, too.
fn odd_at_its_end(mut run: Run) -> Run {
    if let Some(last) = run.steps.last_mut() {
        *last = Step { place: 1, ..Step::clock(0) };
    }
    run
}

/// Returns the wrong readers, each with the number of files that it lists
/// differently.
fn noticed(runs: impl Iterator<Item = Run>) -> Vec<(Reader, usize)> {
    let mut noticed: Vec<_> = Reader::wrong().into_iter().map(|reader| (reader, 0)).collect();
    for run in runs {
        let file = run.file();
        let right = listing_trusting(&file);
        assert_eq!(Reader::RIGHT.listing(&run.setup, &file), right);
        for (reader, files) in &mut noticed {
            *files += usize::from(reader.listing(&run.setup, &file) != right);
        }
    }
    noticed
}

fn assert_all_noticed(runs: impl Iterator<Item = Run>) {
    let noticed = noticed(runs);
    println!("{noticed:#?}");
    let missed: Vec<_> = noticed.iter().filter(|(_, files)| *files == 0).collect();
    assert!(missed.is_empty(), "not noticed: {missed:?}");
}

#[test]
fn generated_files_notice_every_mistake() {
    assert_all_noticed((0..200).flat_map(|number| [run(1, number), odd_at_its_end(run(1, number))]));
}

#[test]
fn the_scene_of_refused_steps_notices_every_mistake() {
    assert_all_noticed([scene(), odd_at_its_end(scene())].into_iter());
}
