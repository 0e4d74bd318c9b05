//! Reasons for a save and a return: what is saved or restored, and which steps a
//! return leaves behind (02, A7).

use model::state::State;

use crate::names::{objects, placed, steps};
use crate::trace::Moment;

pub fn save(moment: &Moment) -> Vec<String> {
    let clock = format!("clock {}", moment.voice.ticks(moment.clock()));
    let mut reasons = vec![format!("saves {clock}, {}", held(moment))];
    if let Some(step) = moment.lines.saved_before(moment.number, moment.step.place) {
        reasons.push(format!("replaces what step {step} saved"));
    }
    reasons
}

pub fn restore(moment: &Moment) -> Vec<String> {
    let (before, after) = (moment.before.tables.clock, moment.clock());
    let was = match before == after {
        true => String::new(),
        false => format!(" (was {})", moment.voice.ticks(before)),
    };
    let clock = format!("clock {}{was}", moment.voice.ticks(after));
    let saved = moment.lines.before(moment.number);
    let mut reasons = vec![format!("restores what step {saved} saved: {clock}, {}", held(moment))];
    reasons.extend(changed(moment));
    reasons.extend(under_way(moment.after).map(|messages| format!("under way again: {messages}")));
    let (left, taken_up) = (moment.lines.left_behind(moment.number), moment.lines.taken_up(moment.number));
    if !left.is_empty() {
        reasons.push(format!("leaves behind {}", steps(&left)));
    }
    if !taken_up.is_empty() {
        reasons.push(format!("takes up {} again", steps(&taken_up)));
    }
    reasons
}

/// Returns what the state after the step holds: how many messages, and which
/// standing writes.
fn held(moment: &Moment) -> String {
    let messages = match moment.after.tables.queue.len {
        0 => "nothing under way".into(),
        1 => "1 message under way".into(),
        count => format!("{count} messages under way"),
    };
    let server = moment.server();
    let standing = moment.objects().filter(|&object| server.stands(object));
    let writes = match standing.fold(0, |set, object| set | 1 << object) {
        0u32 => "no standing write".into(),
        set if set.count_ones() == 1 => format!("a standing write of {}", objects(set)),
        set => format!("standing writes of {}", objects(set)),
    };
    format!("{messages}, {writes}")
}

/// Returns the objects that have another version again, and how many copies of
/// the clients are other ones.
fn changed(moment: &Moment) -> Vec<String> {
    if moment.before == moment.after {
        return vec!["nothing has changed since".into()];
    }
    let (before, after) = (moment.server_before(), moment.server());
    let other = |&object: &usize| before.version[object] != after.version[object];
    let object = |object: usize| {
        format!("object {object} is {} again, version {}", after.value[object], after.version[object])
    };
    let mut changed: Vec<String> = moment.objects().filter(other).map(object).collect();
    let copies = moment.before.copies(moment.setup).iter().zip(moment.after.copies(moment.setup));
    match copies.filter(|(before, after)| before != after).count() {
        0 => (),
        1 => changed.push("1 copy changes".into()),
        count => changed.push(format!("{count} copies change")),
    }
    changed
}

/// Returns the messages under way with their places, if there are any.
pub fn under_way(state: &State) -> Option<String> {
    let messages = state.tables.queue.messages().iter().enumerate();
    let messages: Vec<String> = messages.map(|(place, message)| placed(place, message)).collect();
    (!messages.is_empty()).then(|| messages.join(", "))
}

/// Returns why the state that the step names is not there.
pub fn missing(moment: &Moment) -> String {
    let name = moment.step.place;
    let most = moment.saved.len() - 1;
    if usize::from(name) > most {
        return format!("saved states have the names 0 to {most}");
    }
    let saved = moment.saved.iter().enumerate().filter(|(_, state)| state.is_some());
    let saved: Vec<String> = saved.map(|(name, _)| name.to_string()).collect();
    match &saved[..] {
        [] => format!("state {name} was never saved, nor was another"),
        [one] => format!("state {name} was never saved, only {one} was"),
        _ => format!("state {name} was never saved, only {} were", saved.join(", ")),
    }
}
