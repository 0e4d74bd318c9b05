//! What the server may take for a client's answer.

use model::gen::builder::{ACK, DROPPED, INVALIDATE};

use crate::scenes::{long_copies, marked_with_a_live_volume, short_copies, Cast, Scene};
use crate::stage::Stage;

pub const SCENES: &[Scene] = &[
    Scene { mistake: "ack_before_guard", ticks: long_copies, play: ack_before_the_guard },
    Scene { mistake: "dropped_any_number", ticks: short_copies, play: dropped_of_an_old_offer },
];

/// After a restart the only client that the server knows of acknowledges; the
/// one that it forgot still shows its copy.
fn ack_before_the_guard(s: &mut Stage, Cast { client, object, .. }: Cast) -> Option<()> {
    let known = (client + 1) % s.setup().clients;
    s.hold(client, object)?;
    s.restart_server();
    s.hold(known, object)?;
    s.write(object);
    s.arrive_newest(known, INVALIDATE)?;
    s.arrive_newest(known, ACK)?;
    Some(())
}

/// A client that is marked unreachable asks, and an old DROPPED comes in place
/// of the one that answers the OFFER.
fn dropped_of_an_old_offer(s: &mut Stage, cast: Cast) -> Option<()> {
    s.restart_client(cast.client);
    marked_with_a_live_volume(s, cast)?;
    let old = s.newest(cast.client, DROPPED)?;
    let renew = s.ask(cast.client, cast.other);
    s.arrive(renew);
    s.arrive(old);
    s.write(cast.other);
    Some(())
}
