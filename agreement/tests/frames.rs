//! Compares frames with the model's in one process: the same bytes and
//! messages.

use gevtsomi::{decode, encode, Kind, Message, Refused, FRAME_BYTES};
use model::frame as model_frame;
use model::gen::rng::Rng;
use model::message as model_message;

const MESSAGES: usize = 20_000;

/// Returns the model's message with the same fields.
fn of_model(message: &Message) -> model_message::Message {
    let kind = match message.kind {
        Kind::Renew { object, number, epoch, version } => {
            model_message::Kind::Renew { object, number, epoch, version }
        }
        Kind::Grant { object, number, volume_expiry, epoch, version, object_expiry, value } => {
            model_message::Kind::Grant(model_message::Grant {
                object,
                number,
                volume_expiry,
                epoch,
                version,
                object_expiry,
                value,
            })
        }
        Kind::Invalidate { object, epoch, version } => {
            model_message::Kind::Invalidate { object, epoch, version }
        }
        Kind::Ack { object, epoch, version } => model_message::Kind::Ack { object, epoch, version },
        Kind::Offer { volume, number, epoch } => model_message::Kind::Offer { volume, number, epoch },
        Kind::Dropped { volume, number, epoch } => model_message::Kind::Dropped { volume, number, epoch },
        Kind::Batch { volume, number, epoch, objects } => {
            model_message::Kind::Batch(model_message::Batch { volume, number, epoch, set: objects })
        }
        Kind::Cleared { volume, number, epoch, objects } => {
            model_message::Kind::Cleared(model_message::Batch { volume, number, epoch, set: objects })
        }
    };
    model_message::Message { client: message.client, kind }
}

/// Draws a number of any size, often at an end of its range.
fn word(rng: &mut Rng) -> u32 {
    match rng.below(6) {
        0 => 0,
        1 => u32::MAX,
        2 => rng.draw() as u8 as u32,
        _ => rng.draw() as u32,
    }
}

fn message(rng: &mut Rng) -> Message {
    let item = rng.draw() as u8;
    let [number, epoch, version, volume_expiry, object_expiry] = [(); 5].map(|()| word(rng));
    let value = rng.percent(50).then(|| rng.draw() >> rng.pick(&[0, 8, 63]));
    let kind = match rng.below(8) {
        0 => Kind::Renew { object: item, number, epoch, version },
        1 => Kind::Grant { object: item, number, volume_expiry, epoch, version, object_expiry, value },
        2 => Kind::Invalidate { object: item, epoch, version },
        3 => Kind::Ack { object: item, epoch, version },
        4 => Kind::Offer { volume: item, number, epoch },
        5 => Kind::Dropped { volume: item, number, epoch },
        6 => Kind::Batch { volume: item, number, epoch, objects: version },
        _ => Kind::Cleared { volume: item, number, epoch, objects: version },
    };
    Message { client: rng.draw() as u8, kind }
}

#[test]
fn there_and_back() {
    let mut rng = Rng::new(1);
    for _ in 0..MESSAGES {
        let message = message(&mut rng);
        let mut output = [0xaa; FRAME_BYTES + 4];
        assert_eq!(encode(&message, &mut output), Ok(()));
        let mut expected = [0xaa; FRAME_BYTES + 4];
        model_frame::encode(&of_model(&message), &mut expected).expect("room for a frame");
        assert_eq!(output, expected, "{message:?}");
        assert_eq!(decode(&output[..FRAME_BYTES]), Ok(message));
    }
}

#[test]
fn any_bytes_are_read_as_the_model_reads_them() {
    let mut rng = Rng::new(3);
    for _ in 0..MESSAGES {
        let mut frame = [0; FRAME_BYTES];
        encode(&message(&mut rng), &mut frame).expect("room for a frame");
        for _ in 0..rng.below(3) {
            frame[rng.below(FRAME_BYTES)] = rng.pick(&[0, 1, 2, 7, 8, 9, 255]);
        }
        let read = decode(&frame);
        let expected = model_frame::decode(&frame);
        assert_eq!(read.map(|message| of_model(&message)), expected.map_err(|number| Refused { number }));
    }
}
