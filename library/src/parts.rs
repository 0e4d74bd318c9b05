//! The parts of a run file, and their bytes.

/// The length of a setup in a run file.
pub const SETUP_BYTES: usize = 48;

/// The most objects that a setup has.
pub const OBJECTS: usize = 28;

/// The length of a step in a run file.
pub const STEP_BYTES: usize = 16;

/// The setup of a run.
#[derive(Clone, Copy, Debug, PartialEq, Eq)]
pub struct Setup {
    /// The number of clients, 1 to 16.
    pub clients: u8,
    /// The number of volumes, 1 to 8.
    pub volumes: u8,
    /// The number of objects, 1 to 28.
    pub objects: u8,
    /// How many ticks a volume lease lasts, 1 to 3,600.
    pub volume_lease: u32,
    /// How many ticks an object lease lasts, 1 to 1,000,000.
    pub object_lease: u32,
    /// How many ticks a write waits for messages at least, 1 to 60.
    pub timeout: u32,
    /// How many ticks after the end of a client's volume lease the server keeps
    /// notes for it before it marks it unreachable, 1 to 65,535.
    pub delay: u32,
    /// Each object's volume; 0 past the object count.
    pub volume_of: [u8; OBJECTS],
}

impl Setup {
    /// Returns the bytes that [`write`](crate::write) and
    /// [`workload`](crate::workload) take, whether the setup is in range or
    /// not.
    pub fn bytes(&self) -> [u8; SETUP_BYTES] {
        let mut bytes = [0; SETUP_BYTES];
        bytes[..3].copy_from_slice(&[self.clients, self.volumes, self.objects]);
        bytes[4..8].copy_from_slice(&self.volume_lease.to_le_bytes());
        bytes[8..12].copy_from_slice(&self.object_lease.to_le_bytes());
        bytes[12..16].copy_from_slice(&self.timeout.to_le_bytes());
        bytes[16..44].copy_from_slice(&self.volume_of);
        bytes[44..].copy_from_slice(&self.delay.to_le_bytes());
        bytes
    }
}

/// A step of a run. Fields that its kind does not use are 0; a step of an
/// unknown kind may have anything in its fields.
#[derive(Clone, Copy, Debug, Default, PartialEq, Eq)]
pub struct Step {
    /// 1 clock, 2 read, 3 ask, 4 write, 5 deliver, 6 lose, 7 double, 8 restart
    /// of the server, 9 restart of a client, 10 save, 11 return to what was
    /// saved. Any other is unknown.
    pub kind: u8,
    /// The client of a read, an ask or a client's restart.
    pub client: u8,
    /// The object of a read, an ask or a write.
    pub object: u8,
    /// The place in the message list of the message that is delivered, lost or
    /// doubled; the name of the state that is saved or returned to, 0 to 3.
    pub place: u8,
    /// The time that the clock is set to.
    pub clock: u32,
    /// The value that is written.
    pub value: u64,
}

impl Step {
    /// Returns the record that [`write`](crate::write) takes.
    pub fn record(&self) -> [u8; STEP_BYTES] {
        let mut record = [0; STEP_BYTES];
        record[..4].copy_from_slice(&[self.kind, self.client, self.object, self.place]);
        record[4..8].copy_from_slice(&self.clock.to_le_bytes());
        record[8..].copy_from_slice(&self.value.to_le_bytes());
        record
    }
}
