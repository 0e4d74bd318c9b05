//! The four traps at the end of 01's Edges.

use model::gen::builder::{ACK, DROPPED, INVALIDATE, OFFER};

use crate::scenes::{long_copies, marked_with_a_live_volume, short_copies, Cast, Scene};
use crate::stage::Stage;

pub const SCENES: &[Scene] = &[
    Scene { mistake: "renew_while_waiting", ticks: long_copies, play: renewed_while_waited_for },
    Scene { mistake: "skip_unreachable", ticks: short_copies, play: unreachable_with_a_live_volume },
    Scene { mistake: "ack_any_epoch", ticks: long_copies, play: ack_of_the_write_cut_off },
    Scene { mistake: "old_renew_offers", ticks: long_copies, play: old_renew_and_old_dropped },
];

/// The client is waited for on one object, and asks for another: its volume
/// must not be renewed, or the old copy outlives the write.
fn renewed_while_waited_for(s: &mut Stage, Cast { client, object, other }: Cast) -> Option<()> {
    s.hold(client, object)?;
    s.write(object);
    let ticks = s.rng.range(2, 6);
    s.advance(ticks);
    s.exchange(client, other);
    s.clock(s.latest_end(object) + 1);
    Some(())
}

/// The next write has to wait for a client that is marked unreachable.
fn unreachable_with_a_live_volume(s: &mut Stage, cast: Cast) -> Option<()> {
    marked_with_a_live_volume(s, cast)?;
    s.write(cast.other);
    Some(())
}

/// After a restart a write has the version of the one cut off, and that one's
/// ACK comes.
fn ack_of_the_write_cut_off(s: &mut Stage, Cast { client, object, .. }: Cast) -> Option<()> {
    s.hold(client, object)?;
    s.write(object);
    s.arrive_newest(client, INVALIDATE)?;
    let ack = s.newest(client, ACK)?;
    s.restart_server();
    s.clock(s.guard(object));
    s.hold(client, object)?;
    s.write(object);
    s.arrive(ack);
    Some(())
}

/// The RENEW that was made an offer comes again, and the DROPPED of that
/// offer: it must not clear the leases given since.
fn old_renew_and_old_dropped(s: &mut Stage, Cast { client, object, .. }: Cast) -> Option<()> {
    forget(s, client, object);
    let renew = s.ask(client, object);
    s.arrive(renew);
    s.arrive_newest(client, OFFER)?;
    let dropped = s.arrive_newest(client, DROPPED)?;
    s.hold(client, object)?;
    s.arrive(renew);
    s.arrive(dropped);
    s.write(object);
    Some(())
}

/// Makes the server answer the client's next RENEW with an OFFER.
fn forget(s: &mut Stage, client: u8, object: u8) {
    if s.rng.percent(50) {
        return s.restart_client(client);
    }
    s.restart_server();
    s.clock(s.guard(object));
}
