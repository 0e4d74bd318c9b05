//! Messages between server and clients, and a frame's ten fields.

/// A message between the server and one client, with the fields of its kind.
#[derive(Clone, Copy, Debug, PartialEq, Eq)]
pub struct Message {
    /// The client that sends or receives it.
    pub client: u8,
    /// Its kind and that kind's fields.
    pub kind: Kind,
}

/// The eight kinds, in the order of their numbers in a frame. Documents 01
/// and 02 define the fields.
#[allow(missing_docs)]
#[derive(Clone, Copy, Debug, PartialEq, Eq)]
pub enum Kind {
    /// A client asks for an object; it knows this epoch and holds this version.
    Renew { object: u8, number: u32, epoch: u32, version: u32 },
    /// The server grants both leases, with the value unless the client holds it.
    Grant {
        object: u8,
        number: u32,
        volume_expiry: u32,
        epoch: u32,
        version: u32,
        object_expiry: u32,
        value: Option<u64>,
    },
    /// The server is about to change an object; `version` is its next version.
    Invalidate { object: u8, epoch: u32, version: u32 },
    /// A client erased its copy.
    Ack { object: u8, epoch: u32, version: u32 },
    /// The server asks a client to drop its leases of a volume.
    Offer { volume: u8, number: u32, epoch: u32 },
    /// The client dropped its leases of the volume.
    Dropped { volume: u8, number: u32, epoch: u32 },
    /// The server asks a client to erase the copies of a set of objects, bit k
    /// for object k, that were written while it had no lease of the volume.
    Batch { volume: u8, number: u32, epoch: u32, objects: u32 },
    /// The client erased the copies of the set; number, epoch and objects repeat
    /// the BATCH's.
    Cleared { volume: u8, number: u32, epoch: u32, objects: u32 },
}

/// A frame's fields, in its order; those that the kind lacks are 0.
#[derive(Clone, Copy, Debug, Default)]
pub(crate) struct Fields {
    pub kind: u8,
    pub client: u8,
    pub item: u8,
    pub present: u8,
    pub number: u32,
    pub volume_expiry: u32,
    pub epoch: u32,
    pub version: u32,
    pub object_expiry: u32,
    pub value: u64,
}

impl Fields {
    pub fn of(message: &Message) -> Fields {
        let none = Fields { client: message.client, ..Fields::default() };
        match message.kind {
            Kind::Renew { object, number, epoch, version } => {
                Fields { kind: 1, item: object, number, epoch, version, ..none }
            }
            Kind::Grant { object, number, volume_expiry, epoch, version, object_expiry, value } => Fields {
                kind: 2,
                item: object,
                present: value.is_some().into(),
                number,
                volume_expiry,
                epoch,
                version,
                object_expiry,
                value: value.unwrap_or(0),
                ..none
            },
            Kind::Invalidate { object, epoch, version } => {
                Fields { kind: 3, item: object, epoch, version, ..none }
            }
            Kind::Ack { object, epoch, version } => Fields { kind: 4, item: object, epoch, version, ..none },
            Kind::Offer { volume, number, epoch } => Fields { kind: 5, item: volume, number, epoch, ..none },
            Kind::Dropped { volume, number, epoch } => {
                Fields { kind: 6, item: volume, number, epoch, ..none }
            }
            Kind::Batch { volume, number, epoch, objects } => {
                Fields { kind: 7, item: volume, number, epoch, version: objects, ..none }
            }
            Kind::Cleared { volume, number, epoch, objects } => {
                Fields { kind: 8, item: volume, number, epoch, version: objects, ..none }
            }
        }
    }

    /// Returns the message. The kind must be one of the eight.
    pub fn message(&self) -> Message {
        let Fields { item, number, epoch, version, .. } = *self;
        let kind = match self.kind {
            1 => Kind::Renew { object: item, number, epoch, version },
            2 => Kind::Grant {
                object: item,
                number,
                volume_expiry: self.volume_expiry,
                epoch,
                version,
                object_expiry: self.object_expiry,
                value: (self.present != 0).then_some(self.value),
            },
            3 => Kind::Invalidate { object: item, epoch, version },
            4 => Kind::Ack { object: item, epoch, version },
            5 => Kind::Offer { volume: item, number, epoch },
            6 => Kind::Dropped { volume: item, number, epoch },
            7 => Kind::Batch { volume: item, number, epoch, objects: version },
            _ => Kind::Cleared { volume: item, number, epoch, objects: version },
        };
        Message { client: self.client, kind }
    }
}
