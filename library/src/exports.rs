//! Calls the proved functions in the archive. A slice is two arguments, its
//! address and its length. Each function returns 0 or the refusal's number, and
//! reads and writes only what it is lent, and only during the call.

use crate::message::Fields;
use crate::Refused;

/// The number of fields in a frame.
const FIELDS: usize = 10;

mod ffi {
    extern "C" {
        pub fn gevtsomi_list(
            file: *const u8,
            file_len: usize,
            output: *mut u8,
            output_len: usize,
            written: *mut usize,
        ) -> u8;

        pub fn gevtsomi_why(
            file: *const u8,
            file_len: usize,
            step: u32,
            reason: *mut u8,
            event: *mut u32,
        ) -> u8;

        pub fn gevtsomi_encode(
            head: *const [u8; 4],
            numbers: *const [u32; 5],
            value: u64,
            output: *mut u8,
            output_len: usize,
        ) -> u8;

        pub fn gevtsomi_decode(frame: *const u8, frame_len: usize, fields: *mut u64, fields_len: usize)
            -> u8;

        pub fn gevtsomi_write(
            note: *const u8,
            note_len: usize,
            setup: *const u8,
            setup_len: usize,
            records: *const u8,
            records_len: usize,
            output: *mut u8,
            output_len: usize,
            written: *mut usize,
        ) -> u8;

        pub fn gevtsomi_workload(
            seed: u32,
            note: *const u8,
            note_len: usize,
            setup: *const u8,
            setup_len: usize,
            count: u32,
            output: *mut u8,
            output_len: usize,
            written: *mut usize,
        ) -> u8;
    }
}

/// Returns a refusal unless the number is 0.
fn accepted(number: u8) -> Result<(), Refused> {
    match number {
        0 => Ok(()),
        number => Err(Refused { number }),
    }
}

pub fn list(file: &[u8], output: &mut [u8]) -> Result<usize, Refused> {
    let mut written = 0;
    // SAFETY: both slices are valid for the lengths given with them, and for
    // as long as the call lasts; `written` is a local.
    let number = unsafe {
        ffi::gevtsomi_list(file.as_ptr(), file.len(), output.as_mut_ptr(), output.len(), &mut written)
    };
    accepted(number).map(|()| written)
}

/// Returns the numbers of the reason and of the event's step.
pub fn why(file: &[u8], step: u32) -> Result<(u8, u32), Refused> {
    let (mut reason, mut event) = (0, 0);
    // SAFETY: the slice is valid for its length while the call lasts; `reason`
    // and `event` are locals.
    let number = unsafe { ffi::gevtsomi_why(file.as_ptr(), file.len(), step, &mut reason, &mut event) };
    accepted(number).map(|()| (reason, event))
}

pub fn encode(fields: &Fields, output: &mut [u8]) -> Result<(), Refused> {
    let head = [fields.kind, fields.client, fields.item, fields.present];
    let numbers = [fields.number, fields.volume_expiry, fields.epoch, fields.version, fields.object_expiry];
    // SAFETY: the slice is valid for its length while the call lasts; the
    // two arrays are locals.
    accepted(unsafe {
        ffi::gevtsomi_encode(&head, &numbers, fields.value, output.as_mut_ptr(), output.len())
    })
}

pub fn decode(frame: &[u8]) -> Result<Fields, Refused> {
    let mut fields = [0; FIELDS];
    // SAFETY: both slices are valid for the lengths given with them, and for
    // as long as the call lasts.
    accepted(unsafe {
        ffi::gevtsomi_decode(frame.as_ptr(), frame.len(), fields.as_mut_ptr(), fields.len())
    })?;
    let [kind, client, item, present, number, volume_expiry, epoch, version, object_expiry, value] = fields;
    // Each number comes from a field of this width, so nothing is cut off.
    Ok(Fields {
        kind: kind as u8,
        client: client as u8,
        item: item as u8,
        present: present as u8,
        number: number as u32,
        volume_expiry: volume_expiry as u32,
        epoch: epoch as u32,
        version: version as u32,
        object_expiry: object_expiry as u32,
        value,
    })
}

pub fn write(note: &[u8], setup: &[u8], records: &[u8], output: &mut [u8]) -> Result<usize, Refused> {
    let mut written = 0;
    // SAFETY: the slices are valid for the lengths given with them, and for
    // as long as the call lasts; `written` is a local.
    let number = unsafe {
        ffi::gevtsomi_write(
            note.as_ptr(),
            note.len(),
            setup.as_ptr(),
            setup.len(),
            records.as_ptr(),
            records.len(),
            output.as_mut_ptr(),
            output.len(),
            &mut written,
        )
    };
    accepted(number).map(|()| written)
}

pub fn workload(
    seed: u32,
    note: &[u8],
    setup: &[u8],
    count: u32,
    output: &mut [u8],
) -> Result<usize, Refused> {
    let mut written = 0;
    // SAFETY: as in `write`.
    let number = unsafe {
        ffi::gevtsomi_workload(
            seed,
            note.as_ptr(),
            note.len(),
            setup.as_ptr(),
            setup.len(),
            count,
            output.as_mut_ptr(),
            output.len(),
            &mut written,
        )
    };
    accepted(number).map(|()| written)
}
