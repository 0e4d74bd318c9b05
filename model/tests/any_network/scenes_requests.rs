//! What a client may take for the answer to its request.

use model::gen::builder::GRANT;
use model::message::Kind;

use crate::scenes::{acknowledged_write, long_copies, Cast, Scene};
use crate::stage::Stage;

pub const SCENES: &[Scene] = &[
    Scene { mistake: "grant_any_number", ticks: long_copies, play: old_grant_again },
    Scene { mistake: "invalidate_keeps_request", ticks: long_copies, play: grant_behind_the_invalidate },
    Scene { mistake: "client_restart_resets_number", ticks: long_copies, play: old_grant_with_a_new_number },
];

/// A GRANT that was taken comes again after the write, with a request standing
/// or without.
fn old_grant_again(s: &mut Stage, Cast { client, object, .. }: Cast) -> Option<()> {
    s.hold(client, object)?;
    let grant = s.newest(client, GRANT)?;
    acknowledged_write(s, client, object)?;
    if s.rng.percent(50) {
        s.ask(client, object);
    }
    s.arrive(grant);
    Some(())
}

/// The INVALIDATE overtakes the GRANT that answers the standing request. With
/// a copy held the GRANT has no value, without one it has the old one.
fn grant_behind_the_invalidate(s: &mut Stage, Cast { client, object, other }: Cast) -> Option<()> {
    let held = if s.rng.percent(50) { object } else { other };
    s.hold(client, held)?;
    let renew = s.ask(client, object);
    s.arrive(renew);
    let grant = s.newest(client, GRANT)?;
    acknowledged_write(s, client, object)?;
    s.arrive(grant);
    Some(())
}

/// A client that counts from 1 again takes an old GRANT for the answer to a
/// new request.
fn old_grant_with_a_new_number(s: &mut Stage, Cast { client, object, .. }: Cast) -> Option<()> {
    s.hold(client, object)?;
    let place = s.newest(client, GRANT)?;
    let Kind::Grant(grant) = s.sent()[place].kind else {
        return None;
    };
    acknowledged_write(s, client, object)?;
    s.restart_client(client);
    for _ in 0..grant.number {
        s.ask(client, object);
        if s.request(client).waits_for(grant.number) {
            break;
        }
    }
    s.arrive(place);
    Some(())
}
