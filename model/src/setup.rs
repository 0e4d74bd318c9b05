//! The setup of a run (01, Tables; 02, A6).

use crate::bits::below;
use crate::limits::{BAD_SETUP, CLIENTS, DELAY, OBJECTS, OBJECT_LEASE, TIMEOUT, VOLUMES, VOLUME_LEASE};

#[derive(Clone, Copy, Debug, PartialEq, Eq)]
pub struct Setup {
    pub clients: u8,
    pub volumes: u8,
    pub objects: u8,
    /// tv: how many ticks a volume lease lives.
    pub volume_lease: u32,
    /// t: how many ticks an object lease lives.
    pub object_lease: u32,
    /// m: how many ticks a write waits for messages, at least.
    pub timeout: u32,
    /// d: how many ticks after its volume lease a client with notes is marked.
    pub delay: u32,
    /// Each object's volume, 0 past the object count.
    pub volume_of: [u8; OBJECTS],
}

#[derive(Clone, Copy, Debug, PartialEq, Eq)]
pub enum Field {
    Clients,
    Volumes,
    Objects,
    VolumeLease,
    ObjectLease,
    Timeout,
    Delay,
    /// The volume of this object.
    VolumeOf(usize),
}

/// A field, with its value and the values that it may have.
#[derive(Clone, Copy, Debug, PartialEq, Eq)]
pub struct OutOfRange {
    pub field: Field,
    pub found: u32,
    pub least: u32,
    pub most: u32,
}

impl Setup {
    /// Returns the refusal of every call except step and run file: 7.
    pub fn check(&self) -> Result<(), u8> {
        if self.in_range() {
            Ok(())
        } else {
            Err(BAD_SETUP)
        }
    }

    pub fn in_range(&self) -> bool {
        self.out_of_range().is_none()
    }

    /// Returns the first field that is out of range.
    pub fn out_of_range(&self) -> Option<OutOfRange> {
        let fields = [
            (Field::Clients, self.clients.into(), CLIENTS as u32),
            (Field::Volumes, self.volumes.into(), VOLUMES as u32),
            (Field::Objects, self.objects.into(), OBJECTS as u32),
            (Field::VolumeLease, self.volume_lease, VOLUME_LEASE),
            (Field::ObjectLease, self.object_lease, OBJECT_LEASE),
            (Field::Timeout, self.timeout, TIMEOUT),
            (Field::Delay, self.delay, DELAY),
        ];
        let out = fields.into_iter().find(|(_, found, most)| !(1..=*most).contains(found));
        match out {
            Some((field, found, most)) => Some(OutOfRange { field, found, least: 1, most }),
            None => self.volume_out_of_range(),
        }
    }

    /// Returns an object's volume that does not exist, or a volume past the
    /// object count. The counts must be in range.
    fn volume_out_of_range(&self) -> Option<OutOfRange> {
        let last = |object| if object < usize::from(self.objects) { self.volumes - 1 } else { 0 };
        let object = (0..OBJECTS).find(|&object| self.volume_of[object] > last(object))?;
        let (found, most) = (self.volume_of[object].into(), last(object).into());
        Some(OutOfRange { field: Field::VolumeOf(object), found, least: 0, most })
    }

    #[inline]
    pub fn volume(&self, object: usize) -> usize {
        self.volume_of[object] as usize
    }

    /// Returns the set of clients that exist. Slots past the count are free, so
    /// every set of clients is cut down to this one before it is used.
    #[inline]
    pub fn all_clients(&self) -> u16 {
        below(self.clients) as u16
    }

    #[inline]
    pub fn all_objects(&self) -> u32 {
        below(self.objects)
    }

    /// Returns the set of each volume's objects.
    pub fn objects_by_volume(&self) -> [u32; VOLUMES] {
        let mut sets = [0; VOLUMES];
        for object in 0..usize::from(self.objects) {
            sets[self.volume(object)] |= 1 << object;
        }
        sets
    }

    /// Returns the place of a copy in the lent list: client by client, in
    /// object order (01, Tables).
    #[inline]
    pub fn copy_place(&self, client: usize, object: usize) -> usize {
        client * self.objects as usize + object
    }

    #[inline]
    pub fn copy_count(&self) -> usize {
        self.clients as usize * self.objects as usize
    }
}

#[cfg(test)]
mod tests {
    use super::*;

    const SMALLEST: Setup = Setup {
        clients: 1,
        volumes: 1,
        objects: 1,
        volume_lease: 1,
        object_lease: 1,
        timeout: 1,
        delay: 1,
        volume_of: [0; OBJECTS],
    };

    fn check(change: impl Fn(&mut Setup)) -> Result<(), u8> {
        let mut setup = SMALLEST;
        change(&mut setup);
        setup.check()
    }

    #[test]
    fn both_ends_of_each_range() {
        assert_eq!(check(|_| ()), Ok(()));
        let largest = |s: &mut Setup| {
            (s.clients, s.volumes, s.objects) = (16, 8, 28);
            (s.volume_lease, s.object_lease) = (3_600, 1_000_000);
            (s.timeout, s.delay) = (60, 65_535);
            s.volume_of = [7; OBJECTS];
        };
        assert_eq!(check(largest), Ok(()));
    }

    #[test]
    fn one_past_each_end_is_refused() {
        let changes: [fn(&mut Setup); 17] = [
            |s| s.clients = 0,
            |s| s.clients = 17,
            |s| s.volumes = 0,
            |s| s.volumes = 9,
            |s| s.objects = 0,
            |s| s.objects = 29,
            |s| s.volume_lease = 0,
            |s| s.volume_lease = 3_601,
            |s| s.object_lease = 0,
            |s| s.object_lease = 1_000_001,
            |s| s.timeout = 0,
            |s| s.timeout = 61,
            |s| s.delay = 0,
            |s| s.delay = 65_536,
            |s| s.delay = u32::MAX,
            |s| s.volume_of[0] = 1,
            |s| (s.volumes, s.volume_of[1]) = (2, 1),
        ];
        for (place, change) in changes.iter().enumerate() {
            assert_eq!(check(change), Err(7), "change {place}");
        }
    }
}
