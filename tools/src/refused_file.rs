//! Says what is wrong with a refused run file, or with a workload that has
//! none.

use gevtsomi::Refused;
use model::limits::{BAD_FILE, FILE_BYTES, OBJECTS, STEPS};
use model::runfile::{distance, Fault};
use model::setup::{Field, OutOfRange};
use model::step_record::Step;

use crate::text::steps::line;

/// The most objects of a file from before delayed invalidations, whose last
/// four volume bytes were not the delay.
const OBJECTS_BEFORE: u32 = 32;

pub fn told(fault: &Fault) -> String {
    format!("run file refused ({BAD_FILE}): {}", reason(fault))
}

/// Returns why a workload has no file. Its setup is in range, so two reasons
/// are left.
pub fn no_workload(refused: Refused, note_len: usize, count: u32) -> String {
    let count = count as usize;
    let reason = if count > STEPS {
        format!("found {count} steps, expected at most {STEPS}")
    } else {
        let room = FILE_BYTES - distance(count);
        format!("found a note of {note_len} bytes, expected at most {room} with {count} steps")
    };
    format!("workload refused ({}): {reason}", refused.number)
}

fn reason(fault: &Fault) -> String {
    match *fault {
        Fault::TooLong(len) => format!("found {len} bytes, expected at most {FILE_BYTES}"),
        Fault::TooShort(len) => {
            format!("found {len} bytes, expected at least {}, setup and trailer", distance(0))
        }
        Fault::Count(count) => format!("trailer: found {count} steps, expected at most {STEPS}"),
        Fault::Distance { count, found } => format!(
            "trailer: found distance {found} back to the setup, expected {} with {count} steps",
            distance(count)
        ),
        Fault::Missing { count, len } => format!(
            "trailer: found {count} steps, for which the file needs {} bytes, expected at most the {len} it has",
            distance(count)
        ),
        Fault::Spare(byte) => format!("setup, byte 3: found {byte}, expected 0"),
        Fault::Setup(out) => format!("setup, {}", out_of_range(&out)),
        Fault::Unused { number, step } => format!("step {number}, {}", unused(&step)),
    }
}

fn out_of_range(out: &OutOfRange) -> String {
    let OutOfRange { field, found, least, most } = *out;
    let field = match field {
        Field::Clients => "number of clients".into(),
        Field::Volumes => "number of volumes".into(),
        Field::Objects => "number of objects".into(),
        Field::VolumeLease => "ticks of a volume lease".into(),
        Field::ObjectLease => "ticks of an object lease".into(),
        Field::Timeout => "ticks of the timeout".into(),
        Field::Delay => "ticks of the delay".into(),
        Field::VolumeOf(object) => format!("volume of object {object}"),
    };
    if (out.field, found) == (Field::Delay, 0) {
        return "delay is 0: a file from before delayed invalidations; `runtext upgrade --delay D OLD -o NEW` rewrites it".into();
    }
    if out.field == Field::Objects && has_too_many_objects(found) {
        return format!(
            "{field}: found {found}, expected 1 to {most}; more were allowed before delayed invalidations"
        );
    }
    match (least, most) {
        (0, 0) => format!("{field}: found {found}, expected 0"),
        _ => format!("{field}: found {found}, expected {least} to {most}"),
    }
}

/// Returns whether a file from before delayed invalidations may have so many
/// objects, and a file of today may not.
pub fn has_too_many_objects(found: u32) -> bool {
    (OBJECTS as u32 + 1..=OBJECTS_BEFORE).contains(&found)
}

/// Returns the first nonzero field that the step's kind does not use.
fn unused(step: &Step) -> String {
    let used = step.used_fields();
    let fields = [
        ("client", step.client.into(), used.client.into()),
        ("object", step.object.into(), used.object.into()),
        ("place", step.place.into(), used.place.into()),
        ("clock", step.clock.into(), used.clock.into()),
        ("value", step.value, used.value),
    ];
    let unlike = fields.iter().find(|(_, found, used): &&(&str, u64, u64)| found != used);
    let (name, found, _) = unlike.expect("a fault has one");
    format!("{name}: found {found}, expected 0, as `{}` has none", line(step))
}
