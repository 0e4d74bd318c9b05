//! The table entry that shows why a step was refused. The model says which
//! question was answered "no".

use model::limits::{
    BAD_TIME, CLOCK_MAX, NO_NUMBER_LEFT, NO_SUCH_ITEM, NO_SUCH_NAME, UNKNOWN_KIND, WRITE_STANDS,
};
use model::step_record::*;

use super::saved;
use crate::names::clients;
use crate::trace::Moment;

pub fn reasons(moment: &Moment, number: u8) -> Vec<String> {
    match number {
        UNKNOWN_KIND => vec![format!("kind {} is not one of 1 to 11", moment.step.kind)],
        NO_SUCH_ITEM => items(moment),
        BAD_TIME => {
            let (least, most) = (moment.before.tables.clock, CLOCK_MAX);
            let (least, most) = (moment.voice.ticks(least), moment.voice.ticks(most));
            vec![format!("the time must be from {least} to {most}")]
        }
        WRITE_STANDS => vec![standing(moment)],
        NO_SUCH_NAME => vec![saved::missing(moment)],
        NO_NUMBER_LEFT => vec!["a number that must grow is at its end".into()],
        _ => vec!["setup or tables are not sound".into()],
    }
}

/// Returns how many there are of each item that the step names.
fn items(moment: &Moment) -> Vec<String> {
    let (step, setup) = (&moment.step, moment.setup);
    let clients = || format!("client {} of {}", step.client, setup.clients);
    let objects = || format!("object {} of {}", step.object, setup.objects);
    let named = match step.kind {
        READ | ASK => [clients(), objects()].join(", "),
        WRITE => objects(),
        RESTART_CLIENT => clients(),
        _ => format!("place {} of {}", step.place, moment.before.tables.queue.len),
    };
    vec![format!("no such item: {named}, counted from 0")]
}

fn standing(moment: &Moment) -> String {
    let write = &moment.server_before().write[usize::from(moment.step.object)];
    let (waiting, end) = (clients(write.waiting), moment.voice.ticks(write.latest_end));
    format!("a write of value {} stands, latest end {end}, waiting for {waiting}", write.value)
}
