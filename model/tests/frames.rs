//! Frames worked out by hand from 01's field list, and every refusal 8.

use model::frame::{decode, encode};
use model::message::{Batch, Grant, Kind, Message};

type Frame = [u8; 32];

#[rustfmt::skip]
fn vectors() -> Vec<(Message, Frame)> {
    let of = |client, kind| Message { client, kind };
    let grant = |value| Kind::Grant(Grant {
        object: 31, number: 128, volume_expiry: 2_148_483_647, epoch: 1,
        version: u32::MAX, object_expiry: 256, value,
    });
    vec![
        (of(3, Kind::Renew { object: 5, number: 0x0102_0304, epoch: 7, version: 9 }),
         [1, 3, 5, 0, 4, 3, 2, 1, 0, 0, 0, 0, 7, 0, 0, 0, 9, 0, 0, 0, 0, 0, 0, 0, 0, 0, 0, 0, 0, 0, 0, 0]),
        (of(0, grant(Some(0x1122_3344_5566_7788))),
         [2, 0, 31, 1, 128, 0, 0, 0, 0x3f, 0x42, 0x0f, 0x80, 1, 0, 0, 0, 255, 255, 255, 255,
          0, 1, 0, 0, 0x88, 0x77, 0x66, 0x55, 0x44, 0x33, 0x22, 0x11]),
        (of(0, grant(Some(0))),
         [2, 0, 31, 1, 128, 0, 0, 0, 0x3f, 0x42, 0x0f, 0x80, 1, 0, 0, 0, 255, 255, 255, 255,
          0, 1, 0, 0, 0, 0, 0, 0, 0, 0, 0, 0]),
        (of(0, grant(None)),
         [2, 0, 31, 0, 128, 0, 0, 0, 0x3f, 0x42, 0x0f, 0x80, 1, 0, 0, 0, 255, 255, 255, 255,
          0, 1, 0, 0, 0, 0, 0, 0, 0, 0, 0, 0]),
        (of(255, Kind::Invalidate { object: 255, epoch: 0x0a0b_0c0d, version: 2 }),
         [3, 255, 255, 0, 0, 0, 0, 0, 0, 0, 0, 0, 13, 12, 11, 10, 2, 0, 0, 0, 0, 0, 0, 0, 0, 0, 0, 0, 0, 0, 0, 0]),
        (of(15, Kind::Ack { object: 0, epoch: 1, version: 0x0001_0000 }),
         [4, 15, 0, 0, 0, 0, 0, 0, 0, 0, 0, 0, 1, 0, 0, 0, 0, 0, 1, 0, 0, 0, 0, 0, 0, 0, 0, 0, 0, 0, 0, 0]),
        (of(1, Kind::Offer { volume: 7, number: 258, epoch: 3 }),
         [5, 1, 7, 0, 2, 1, 0, 0, 0, 0, 0, 0, 3, 0, 0, 0, 0, 0, 0, 0, 0, 0, 0, 0, 0, 0, 0, 0, 0, 0, 0, 0]),
        (of(2, Kind::Dropped { volume: 8, number: 1, epoch: u32::MAX }),
         [6, 2, 8, 0, 1, 0, 0, 0, 0, 0, 0, 0, 255, 255, 255, 255, 0, 0, 0, 0, 0, 0, 0, 0, 0, 0, 0, 0, 0, 0, 0, 0]),
        (of(4, Kind::Batch(Batch { volume: 7, number: 259, epoch: 2, set: 0x0800_0003 })),
         [7, 4, 7, 0, 3, 1, 0, 0, 0, 0, 0, 0, 2, 0, 0, 0, 3, 0, 0, 8, 0, 0, 0, 0, 0, 0, 0, 0, 0, 0, 0, 0]),
        (of(255, Kind::Cleared(Batch { volume: 255, number: 1, epoch: u32::MAX, set: u32::MAX })),
         [8, 255, 255, 0, 1, 0, 0, 0, 0, 0, 0, 0, 255, 255, 255, 255, 255, 255, 255, 255,
          0, 0, 0, 0, 0, 0, 0, 0, 0, 0, 0, 0]),
    ]
}

#[test]
fn vectors_go_both_ways() {
    for (message, frame) in vectors() {
        let mut output = [0xaa; 40];
        assert_eq!(encode(&message, &mut output), Ok(()));
        assert_eq!(output[..32], frame);
        assert_eq!(output[32..], [0xaa; 8], "bytes past the frame stay");
        assert_eq!(decode(&frame), Ok(message));
    }
}

#[test]
fn an_output_too_short_stays_as_it_was() {
    for (message, _) in vectors() {
        let mut output = [0xaa; 31];
        assert_eq!(encode(&message, &mut output), Err(8));
        assert_eq!(output, [0xaa; 31]);
        assert_eq!(encode(&message, &mut []), Err(8));
    }
}

#[test]
fn another_length_is_refused() {
    for (_, frame) in vectors() {
        assert_eq!(decode(&frame[..31]), Err(8));
        assert_eq!(decode(&[&frame[..], &[0]].concat()), Err(8));
    }
    assert_eq!(decode(&[]), Err(8));
}

#[test]
fn another_kind_is_refused() {
    for (_, frame) in vectors() {
        for kind in (0..=255).filter(|kind| !(1..=8).contains(kind)) {
            let mut frame = frame;
            frame[0] = kind;
            assert_eq!(decode(&frame), Err(8), "kind {kind}");
        }
    }
}

/// Returns whether a kind has this byte of a frame, from 01's list and A6.
fn has(kind: u8, place: usize) -> bool {
    match place {
        0..=2 => true,
        3 | 8..=11 | 20..=31 => kind == 2,
        4..=7 => [1, 2, 5, 6, 7, 8].contains(&kind),
        12..=15 => true,
        16..=19 => [1, 2, 3, 4, 7, 8].contains(&kind),
        _ => unreachable!(),
    }
}

#[test]
fn every_byte_that_a_kind_lacks_must_be_0() {
    for (_, frame) in vectors() {
        for place in (0..32).filter(|&place| !has(frame[0], place)) {
            let mut frame = frame;
            frame[place] = 1;
            assert_eq!(decode(&frame), Err(8), "kind {} byte {place}", frame[0]);
        }
    }
}

#[test]
fn every_byte_that_a_kind_has_may_be_anything() {
    for (_, frame) in vectors() {
        for place in (1..32).filter(|&place| place != 3 && has(frame[0], place)) {
            let mut frame = frame;
            let value_of_none = frame[0] == 2 && frame[3] == 0 && place >= 24;
            for byte in 0..=255 {
                frame[place] = byte;
                let fits = !value_of_none || byte == 0;
                assert_eq!(decode(&frame).is_ok(), fits, "kind {} byte {place} {byte}", frame[0]);
            }
        }
    }
}

#[test]
fn value_present_is_0_or_1() {
    let (_, mut frame) = vectors()[1];
    for present in 2..=255 {
        frame[3] = present;
        assert_eq!(decode(&frame), Err(8), "present {present}");
    }
    frame[3] = 0;
    assert_eq!(decode(&frame), Err(8), "a value that is not present");
}
