//! Messages: a client and one kind with that kind's fields.

/// A message. It names its client in either direction (01, Messages received).
#[derive(Clone, Copy, Debug, PartialEq, Eq)]
pub struct Message {
    pub client: u8,
    pub kind: Kind,
}

/// The eight kinds, in the order of their frame numbers.
#[derive(Clone, Copy, Debug, PartialEq, Eq)]
pub enum Kind {
    /// Client to server; epoch is the known one, version the held one.
    Renew { object: u8, number: u32, epoch: u32, version: u32 },
    /// Server to client. The value is there or not: two cases, so that a grant
    /// without a value cannot carry one.
    Grant(Grant),
    /// Server to client; version is the one after the write.
    Invalidate { object: u8, epoch: u32, version: u32 },
    /// Client to server; repeats the epoch and version of the INVALIDATE.
    Ack { object: u8, epoch: u32, version: u32 },
    /// Server to client.
    Offer { volume: u8, number: u32, epoch: u32 },
    /// Client to server.
    Dropped { volume: u8, number: u32, epoch: u32 },
    /// Server to client (02, A6).
    Batch(Batch),
    /// Client to server; repeats the fields of the BATCH.
    Cleared(Batch),
}

/// What a BATCH and its CLEARED hold: "number, epoch and the noted set, bit k
/// for object k", and the volume.
#[derive(Clone, Copy, Debug, PartialEq, Eq)]
pub struct Batch {
    pub volume: u8,
    pub number: u32,
    pub epoch: u32,
    pub set: u32,
}

#[derive(Clone, Copy, Debug, PartialEq, Eq)]
pub struct Grant {
    pub object: u8,
    pub number: u32,
    pub volume_expiry: u32,
    pub epoch: u32,
    pub version: u32,
    pub object_expiry: u32,
    pub value: Option<u64>,
}

impl Kind {
    /// Returns the kind's number in a frame, 1 to 8.
    pub fn code(&self) -> u8 {
        match self {
            Kind::Renew { .. } => 1,
            Kind::Grant(_) => 2,
            Kind::Invalidate { .. } => 3,
            Kind::Ack { .. } => 4,
            Kind::Offer { .. } => 5,
            Kind::Dropped { .. } => 6,
            Kind::Batch(_) => 7,
            Kind::Cleared(_) => 8,
        }
    }
}
