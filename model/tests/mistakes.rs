//! For every mistake that a run can show, the runs of the fixed seed have one
//! whose listing it changes; the others change none.

use model::gen::runs::run;
use model::listing::{listing_trusting, listing_with};
use model::mistakes::Mistakes;

#[test]
fn every_mistake_is_found() {
    let mut found = vec![0; Mistakes::IN_RUNS.len()];
    for number in 0..1_000 {
        let file = run(1, number).file();
        let honest = listing_trusting(&file);
        for (place, (_, mistakes)) in Mistakes::IN_RUNS.iter().enumerate() {
            found[place] += usize::from(listing_with(*mistakes, &file) != honest);
        }
        for (name, mistakes) in Mistakes::NOT_IN_RUNS {
            assert_eq!(listing_with(*mistakes, &file), honest, "{name}");
        }
    }
    let named: Vec<_> = Mistakes::IN_RUNS.iter().map(|(name, _)| *name).zip(found).collect();
    println!("{named:#?}");
    let missed: Vec<_> = named.iter().filter(|(_, runs)| *runs == 0).collect();
    assert!(missed.is_empty(), "not found: {missed:?}");
}
