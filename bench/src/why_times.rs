//! Measures the time to tell why the last step of a run was answered "ask
//! first", beside the time to list the run, and the stack that it takes.

use std::io;

use model::limits::STEPS;

use crate::files::asked_last;
use crate::memory;
use crate::subjects::{model_why, proved, proved_why, same, same_why, trusting};
use crate::timing::{medians, Effort};

pub fn reasons(effort: Effort) {
    let file = asked_last();
    same(&file);
    same_why(&file);
    println!("why the last of {STEPS} steps was answered \"ask first\", in the second run with a read there");
    let times = medians(effort, &file, &[&proved_why, &proved, &model_why, &trusting]);
    let [library, listing, model, model_listing] = times[..] else { unreachable!() };
    for (name, why, listing) in [("proved library", library, listing), ("model", model, model_listing)] {
        let (why, listing, ratio) = (why / 1000.0, listing / 1000.0, why / listing);
        println!("  {name:14} {why:6.1} us, its listing {listing:6.1} us, ratio {ratio:.2}");
    }
}

/// Returns the stack in KiB.
pub fn stack_of_a_reason() -> io::Result<u64> {
    let file = asked_last();
    memory::stack(|| {
        proved_why(&file);
    })
}
