//! Clients that are parked while an object is written (02, A6).

use model::gen::builder::{BATCH, CLEARED, OFFER};

use crate::scenes::{long_copies, Cast, Scene};
use crate::stage::Stage;

pub const SCENES: &[Scene] = &[
    Scene { mistake: "notes_nobody", ticks: long_copies, play: back_by_another_object },
    Scene { mistake: "batch_only_for_noted", ticks: long_copies, play: back_by_another_object },
    Scene { mistake: "batch_erases_nothing", ticks: long_copies, play: back_by_another_object },
    Scene { mistake: "batch_only_once", ticks: long_copies, play: batch_on_its_way },
    Scene { mistake: "batch_drops_notes", ticks: long_copies, play: batch_on_its_way },
    Scene { mistake: "cleared_without_batch", ticks: long_copies, play: old_cleared_again },
    Scene { mistake: "cleared_keeps_batch", ticks: long_copies, play: old_cleared_again },
    Scene { mistake: "cleared_any_number", ticks: long_copies, play: old_cleared_of_another_batch },
    Scene { mistake: "offer_keeps_batch", ticks: long_copies, play: cleared_after_the_offer },
];

/// Lets the client's volume lease run out.
fn park(s: &mut Stage, Cast { client, object, .. }: Cast) {
    let volume = s.setup().volume(object.into());
    s.clock(s.server().volume_expiry[volume][usize::from(client)]);
}

/// Leaves the client with a note of the object.
fn noted(s: &mut Stage, cast: Cast) -> Option<()> {
    s.hold(cast.client, cast.object)?;
    park(s, cast);
    s.write(cast.object);
    Some(())
}

/// Leaves it with the CLEARED of that note, which it returns.
fn obeyed(s: &mut Stage, cast: Cast) -> Option<usize> {
    noted(s, cast)?;
    let renew = s.ask(cast.client, cast.object);
    s.arrive(renew);
    s.arrive_newest(cast.client, BATCH)?;
    s.newest(cast.client, CLEARED)
}

/// The client renews the volume by another object: the old copy must be gone.
fn back_by_another_object(s: &mut Stage, cast: Cast) -> Option<()> {
    noted(s, cast)?;
    s.hold(cast.client, cast.other)
}

/// It asks again before it has got the BATCH.
fn batch_on_its_way(s: &mut Stage, cast: Cast) -> Option<()> {
    noted(s, cast)?;
    let renew = s.ask(cast.client, cast.other);
    s.arrive(renew);
    s.exchange(cast.client, cast.other);
    Some(())
}

/// A CLEARED that counted comes again: it must not end the lease given since.
fn old_cleared_again(s: &mut Stage, cast: Cast) -> Option<()> {
    let cleared = obeyed(s, cast)?;
    s.arrive(cleared);
    s.hold(cast.client, cast.object)?;
    s.arrive(cleared);
    s.write(cast.object);
    Some(())
}

/// The same, while a batch about another object is out.
fn old_cleared_of_another_batch(s: &mut Stage, cast: Cast) -> Option<()> {
    let Cast { client, object, other } = cast;
    let cleared = obeyed(s, cast)?;
    s.arrive(cleared);
    s.hold(client, other)?;
    s.hold(client, object)?;
    park(s, cast);
    s.write(other);
    let renew = s.ask(client, other);
    s.arrive(renew);
    s.arrive(cleared);
    s.hold(client, other)?;
    s.write(object);
    Some(())
}

/// An OFFER marks the client before its CLEARED comes.
fn cleared_after_the_offer(s: &mut Stage, cast: Cast) -> Option<()> {
    let cleared = obeyed(s, cast)?;
    s.restart_client(cast.client);
    s.hold(cast.client, cast.object)?;
    s.newest(cast.client, OFFER)?;
    s.arrive(cleared);
    s.write(cast.object);
    Some(())
}
