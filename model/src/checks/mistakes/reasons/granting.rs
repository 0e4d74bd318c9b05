//! Mistakes about what a granting event is.

use crate::events::{Cause, Taken};
use crate::message::Kind;
use crate::rules::Papers;

mistakes_about! { ReasonRules:
    /// A GRANT of any object counts for all of the client's copies.
    event_grant_of_any_object {
        fn message_cause(&self, taken: &Taken, client: usize, object: usize, kind: &Kind) -> Option<Cause> {
            let object = granted(kind).unwrap_or(object);
            Papers.message_cause(taken, client, object, kind)
        }
    }

    /// A GRANT counts for every copy of its volume, since it renews that lease.
    event_grant_in_volume {
        fn message_cause(&self, taken: &Taken, client: usize, object: usize, kind: &Kind) -> Option<Cause> {
            let setup = taken.world.setup;
            let granted = granted(kind).filter(|&granted| setup.volume(granted) == setup.volume(object));
            Papers.message_cause(taken, client, granted.unwrap_or(object), kind)
        }
    }

    /// A GRANT counts, too, when its number does not stand.
    event_grant_any_number {
        fn grants(&self, _: &Taken, _: usize, _: u32) -> bool {
            true
        }
    }

    /// A GRANT without a value does not count.
    event_grant_with_value {
        fn message_cause(&self, taken: &Taken, client: usize, object: usize, kind: &Kind) -> Option<Cause> {
            let bare = matches!(kind, Kind::Grant(grant) if grant.value.is_none());
            if bare { None } else { Papers.message_cause(taken, client, object, kind) }
        }
    }

    /// A GRANT that leaves the copy as it was does not count.
    event_grant_with_change {
        fn event(&self, taken: &Taken, client: usize, object: usize) -> Option<Cause> {
            let (before, after) = taken.copy(client, object);
            Papers.event(taken, client, object).filter(|_| before != after)
        }
    }

    /// A GRANT that renews a copy does not count: granting is taken for the
    /// opposite of erasing, version or expiry goes from 0 to another number.
    event_grant_from_nothing {
        fn event(&self, taken: &Taken, client: usize, object: usize) -> Option<Cause> {
            let (before, _) = taken.copy(client, object);
            let whole = before.version != 0 && before.expiry != 0;
            Papers.event(taken, client, object).filter(|&cause| cause != Cause::Grant || !whole)
        }
    }
}

/// Returns the object that the message grants, if it is a GRANT.
fn granted(kind: &Kind) -> Option<usize> {
    match kind {
        Kind::Grant(grant) => Some(grant.object.into()),
        _ => None,
    }
}
