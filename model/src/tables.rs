//! The tables of the server and the clients (01, Tables). They are fixed
//! arrays, with rows by volume or object first, so that what a write scans is
//! contiguous.

use crate::limits::{CLIENTS, OBJECTS, VOLUMES};
use crate::queue::Queue;

#[derive(Clone, Copy, Debug, PartialEq, Eq)]
pub struct Tables {
    pub clock: u32,
    pub server: Server,
    pub clients: ClientVolumes,
    pub queue: Queue,
}

#[derive(Clone, Copy, Debug, PartialEq, Eq)]
pub struct Server {
    /// Per volume.
    pub epoch: [u32; VOLUMES],
    /// VE: the largest volume expiry given out.
    pub volume_latest: [u32; VOLUMES],
    /// Until then, leases given before a restart may still be alive.
    pub guard: [u32; VOLUMES],
    /// Per client: the highest request number seen.
    pub seen: [u32; CLIENTS],
    /// Per volume and client.
    pub volume_expiry: [[u32; CLIENTS]; VOLUMES],
    pub offer: [[u32; CLIENTS]; VOLUMES],
    /// Per volume, a set of clients.
    pub unreachable: [u16; VOLUMES],
    /// Per volume and client: the set of objects noted for it, and the number
    /// of the batch last sent, 0 if there is none (02, A6).
    pub notes: [[u32; CLIENTS]; VOLUMES],
    pub batch: [[u32; CLIENTS]; VOLUMES],
    /// Per object.
    pub value: [u64; OBJECTS],
    pub version: [u32; OBJECTS],
    /// OE: the largest object expiry given out. No rule reads it since A3.
    pub object_latest: [u32; OBJECTS],
    /// The set of objects with a standing write.
    pub standing: u32,
    /// Per object, the standing write; free if none stands.
    pub write: [Write; OBJECTS],
    /// Per object and client.
    pub object_expiry: [[u32; CLIENTS]; OBJECTS],
}

#[derive(Clone, Copy, Debug, PartialEq, Eq)]
pub struct Write {
    pub value: u64,
    pub latest_end: u32,
    /// The set of clients waited for.
    pub waiting: u16,
}

/// Per client and volume: what the client knows.
#[derive(Clone, Copy, Debug, PartialEq, Eq)]
pub struct ClientVolumes {
    pub epoch: [[u32; VOLUMES]; CLIENTS],
    pub expiry: [[u32; VOLUMES]; CLIENTS],
}

impl Tables {
    pub const fn fresh() -> Tables {
        Tables {
            clock: 0,
            server: Server::fresh(),
            clients: ClientVolumes { epoch: [[0; VOLUMES]; CLIENTS], expiry: [[0; VOLUMES]; CLIENTS] },
            queue: Queue::fresh(),
        }
    }
}

impl Server {
    /// Returns fresh tables: epochs and versions begin at 1, all else at 0,
    /// none or no.
    pub const fn fresh() -> Server {
        Server {
            epoch: [1; VOLUMES],
            volume_latest: [0; VOLUMES],
            guard: [0; VOLUMES],
            seen: [0; CLIENTS],
            volume_expiry: [[0; CLIENTS]; VOLUMES],
            offer: [[0; CLIENTS]; VOLUMES],
            unreachable: [0; VOLUMES],
            notes: [[0; CLIENTS]; VOLUMES],
            batch: [[0; CLIENTS]; VOLUMES],
            value: [0; OBJECTS],
            version: [1; OBJECTS],
            object_latest: [0; OBJECTS],
            standing: 0,
            write: [Write::NONE; OBJECTS],
            object_expiry: [[0; CLIENTS]; OBJECTS],
        }
    }

    #[inline]
    pub fn stands(&self, object: usize) -> bool {
        self.standing >> object & 1 == 1
    }
}

impl Write {
    pub const NONE: Write = Write { value: 0, latest_end: 0, waiting: 0 };
}

/// Returns whether a lease is alive: its expiry is greater than the clock.
#[inline]
pub fn alive(expiry: u32, clock: u32) -> bool {
    expiry > clock
}
