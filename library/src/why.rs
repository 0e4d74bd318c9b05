//! Tells why a read was answered "ask first".

use crate::{exports, Refused};

/// The most stack that [`why`] needs.
pub const WHY_STACK_BYTES: usize = 106_496;

/// Why a read was answered "ask first": what happened last to the client's copy
/// of the object or, after a grant, which of the two leases ran out first.
/// Document 02, A8 numbers the reasons.
#[derive(Clone, Copy, Debug, PartialEq, Eq)]
pub enum Reason {
    /// The client was never granted the object.
    NeverGranted = 1,
    /// An INVALIDATE erased the copy.
    CopyInvalidated,
    /// The client dropped its leases on an OFFER, or erased the copy on a BATCH.
    LeasesDropped,
    /// The client restarted.
    ClientRestarted,
    /// The object was granted, and the volume lease ran out, before the object
    /// lease or at the same time.
    VolumeLeaseRanOut,
    /// The object was granted, and the object lease ran out first.
    ObjectLeaseRanOut,
}

/// The reason, and the event that it comes from.
#[derive(Clone, Copy, Debug, PartialEq, Eq)]
pub struct Why {
    /// Why the client had to ask.
    pub reason: Reason,
    /// The step of the event, as the listing numbers it: the one that erased the
    /// copy or dropped its lease or, after a grant, the object's last GRANT. 0
    /// if the client was never granted the object.
    pub event: u32,
}

/// Returns why a step of a run file was answered "ask first". Steps count from
/// 1, as in the listing. Only events on the line of steps that led to the read
/// count, not those that a return has left behind.
///
/// `None` if the step is not a read answered "ask first", or not in the run.
///
/// # Errors
///
/// 9 if `file` is not a run file; also if it is one from before version 0.6.0,
/// whose delay is 0.
pub fn why(file: &[u8], step: u32) -> Result<Option<Why>, Refused> {
    let (number, event) = exports::why(file, step)?;
    Ok(reason(number).map(|reason| Why { reason, event }))
}

fn reason(number: u8) -> Option<Reason> {
    match number {
        1 => Some(Reason::NeverGranted),
        2 => Some(Reason::CopyInvalidated),
        3 => Some(Reason::LeasesDropped),
        4 => Some(Reason::ClientRestarted),
        5 => Some(Reason::VolumeLeaseRanOut),
        6 => Some(Reason::ObjectLeaseRanOut),
        _ => None,
    }
}
