//! Frames: the bytes of each kind, and refusals.

use gevtsomi::{decode, encode, Kind, Message, Refused, FRAME_BYTES};

const REFUSED: Refused = Refused { number: 8 };

const GRANT: Kind = Kind::Grant {
    object: 5,
    number: 7,
    volume_expiry: 110,
    epoch: 1,
    version: 3,
    object_expiry: 400,
    value: Some(u64::MAX - 1),
};

const KINDS: [Kind; 8] = [
    Kind::Renew { object: 5, number: u32::MAX, epoch: 1, version: 3 },
    GRANT,
    Kind::Invalidate { object: 5, epoch: 1, version: 4 },
    Kind::Ack { object: 5, epoch: 1, version: 4 },
    Kind::Offer { volume: 6, number: 7, epoch: 1 },
    Kind::Dropped { volume: 6, number: 7, epoch: 1 },
    Kind::Batch { volume: 6, number: 7, epoch: 1, objects: 1 << 27 | 1 << 5 },
    Kind::Cleared { volume: 6, number: 7, epoch: 1, objects: 1 << 27 | 1 << 5 },
];

/// The same eight messages in document 01's layout: four bytes, five numbers of
/// 4 bytes and the value in 8. A set is where the version is (02, A6).
#[rustfmt::skip]
const FIELDS: [([u8; 4], [u32; 5], u64); 8] = [
    ([1, 2, 5, 0], [u32::MAX, 0, 1, 3, 0], 0),
    ([2, 2, 5, 1], [7, 110, 1, 3, 400], u64::MAX - 1),
    ([3, 2, 5, 0], [0, 0, 1, 4, 0], 0),
    ([4, 2, 5, 0], [0, 0, 1, 4, 0], 0),
    ([5, 2, 6, 0], [7, 0, 1, 0, 0], 0),
    ([6, 2, 6, 0], [7, 0, 1, 0, 0], 0),
    ([7, 2, 6, 0], [7, 0, 1, 0x0800_0020, 0], 0),
    ([8, 2, 6, 0], [7, 0, 1, 0x0800_0020, 0], 0),
];

fn messages() -> impl Iterator<Item = Message> {
    KINDS.into_iter().map(|kind| Message { client: 2, kind })
}

fn frames() -> impl Iterator<Item = [u8; FRAME_BYTES]> {
    FIELDS.into_iter().map(|(head, numbers, value)| {
        let numbers = numbers.into_iter().flat_map(u32::to_le_bytes);
        let bytes: Vec<u8> = head.into_iter().chain(numbers).chain(value.to_le_bytes()).collect();
        bytes.try_into().expect("32 bytes")
    })
}

#[test]
fn each_kind_there_and_back() {
    for (message, frame) in messages().zip(frames()) {
        let mut output = [0xaa; FRAME_BYTES + 4];
        assert_eq!(encode(&message, &mut output), Ok(()));
        assert_eq!(output[..FRAME_BYTES], frame, "{message:?}");
        assert_eq!(output[FRAME_BYTES..], [0xaa; 4], "bytes past the frame stay");
        assert_eq!(decode(&frame), Ok(message));
    }
}

#[test]
fn a_grant_without_value_there_and_back() {
    let Kind::Grant { object, number, volume_expiry, epoch, version, object_expiry, .. } = GRANT else {
        unreachable!()
    };
    let kind = Kind::Grant { object, number, volume_expiry, epoch, version, object_expiry, value: None };
    let message = Message { client: 2, kind };
    let mut output = [0xaa; FRAME_BYTES];
    assert_eq!(encode(&message, &mut output), Ok(()));
    assert_eq!(output[3], 0);
    assert_eq!(output[24..], [0; 8]);
    assert_eq!(decode(&output), Ok(message));
}

/// A frame may hold a bit that is no object of any setup, and an empty set.
#[test]
fn any_32_bits_are_a_set() {
    for objects in (0..32).map(|bit| 1 << bit).chain([0, u32::MAX]) {
        let (volume, number, epoch) = (6, 7, 1);
        let batch = Kind::Batch { volume, number, epoch, objects };
        let cleared = Kind::Cleared { volume, number, epoch, objects };
        for kind in [batch, cleared] {
            let message = Message { client: 2, kind };
            let mut output = [0xaa; FRAME_BYTES];
            assert_eq!(encode(&message, &mut output), Ok(()));
            assert_eq!(output[16..20], objects.to_le_bytes());
            assert_eq!(decode(&output), Ok(message));
        }
    }
}

#[test]
fn an_output_too_short_stays_as_it_was() {
    for message in messages() {
        for short in 0..FRAME_BYTES {
            let mut output = vec![0xaa; short];
            assert_eq!(encode(&message, &mut output), Err(REFUSED));
            assert!(output.iter().all(|&byte| byte == 0xaa));
        }
    }
}

#[test]
fn another_length_is_refused() {
    for frame in frames() {
        let longer = [&frame[..], &[0]].concat();
        for len in (0..FRAME_BYTES).chain([FRAME_BYTES + 1]) {
            assert_eq!(decode(&longer[..len]), Err(REFUSED), "{len} bytes");
        }
    }
}

#[test]
fn what_is_no_message_is_refused() {
    for frame in frames() {
        for (place, byte) in [(0, 0), (0, 9), (3, 2)] {
            let mut wrong = frame;
            wrong[place] = byte;
            assert_eq!(decode(&wrong), Err(REFUSED), "byte {place} is {byte}");
        }
    }
}

/// Each kind refuses each field that it lacks. A GRANT, the second, has all.
#[test]
fn a_field_that_the_kind_lacks_is_0() {
    let lacking = [&[8, 20, 24][..], &[], &[4, 8, 20, 24], &[4, 8, 20, 24], &[8, 16, 20, 24]];
    let lacking = lacking.into_iter().chain([&[8, 16, 20, 24][..], &[8, 20, 24], &[8, 20, 24]]);
    for (frame, places) in frames().zip(lacking) {
        for &place in places {
            let mut wrong = frame;
            wrong[place] = 1;
            assert_eq!(decode(&wrong), Err(REFUSED), "kind {}, byte {place}", frame[0]);
        }
    }
}
