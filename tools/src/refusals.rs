//! Counts a run's refused steps, so that a scenario that tests nothing stands
//! out.

use std::collections::BTreeMap;

use model::limits::{BAD_TIME, NO_NUMBER_LEFT, NO_SUCH_ITEM, NO_SUCH_NAME, UNKNOWN_KIND, WRITE_STANDS};

use crate::listed::Listed;

/// Returns one line: how many steps there were, and how many were refused with
/// which number. Nothing if no step was taken.
pub fn counted(answers: impl IntoIterator<Item = Listed>) -> Option<String> {
    let (mut steps, mut refused) = (0, BTreeMap::new());
    for answer in answers {
        steps += 1;
        if let Some(number) = answer.refusal() {
            *refused.entry(number).or_insert(0) += 1;
        }
    }
    let steps = match steps {
        0 => return None,
        1 => "1 step".into(),
        _ => format!("{steps} steps"),
    };
    if refused.is_empty() {
        return Some(format!("{steps}, none refused"));
    }
    let total: usize = refused.values().sum();
    let each = refused.iter().map(|(number, count)| format!("{count} with {number} ({})", what(*number)));
    Some(format!("{steps}, {total} refused: {}", each.collect::<Vec<_>>().join(", ")))
}

fn what(number: u64) -> &'static str {
    match number as u8 {
        UNKNOWN_KIND => "unknown kind",
        NO_SUCH_ITEM => "no such client, object or place",
        BAD_TIME => "a time out of range",
        WRITE_STANDS => "a write stands",
        NO_NUMBER_LEFT => "no number left",
        NO_SUCH_NAME => "no such saved state",
        _ => "unsound tables",
    }
}

#[cfg(test)]
mod tests {
    use super::*;

    #[test]
    fn refused_steps_are_counted_by_their_numbers() {
        let refused = Listed::refused;
        assert_eq!(counted([]), None);
        assert_eq!(counted([Listed::DONE]).unwrap(), "1 step, none refused");
        assert_eq!(
            counted([refused(5), Listed::ASK_FIRST, refused(2), refused(5), Listed::shown(4)]).unwrap(),
            "5 steps, 3 refused: 1 with 2 (unknown kind), 2 with 5 (a write stands)"
        );
        assert_eq!(
            counted([refused(11), refused(11)]).unwrap(),
            "2 steps, 2 refused: 2 with 11 (no such saved state)"
        );
    }
}
