//! Damaged run files: one thing is wrong with each, or only just right.

use crate::gen::rng::Rng;
use crate::gen::runs::{run, Run};
use crate::limits::{FILE_BYTES, SETUP_BYTES, TRAILER_BYTES};
use crate::runfile::distance;
use crate::step_record::Step;
use crate::unchecked_writer::write;

pub fn files(seed: u64) -> Vec<Vec<u8>> {
    let mut rng = Rng::new(!seed);
    let base = base(seed, &mut rng);
    let mut files = Vec::new();
    flipped(&mut rng, &base, &mut files);
    cut_and_longer(&mut rng, &base, &mut files);
    sizes(&base, &mut files);
    unused_fields(&base, &mut files);
    names(&base, &mut files);
    trailers(&mut rng, &base, &mut files);
    noise(&mut rng, &mut files);
    files
}

/// Returns a short run with a note, to be damaged.
fn base(seed: u64, rng: &mut Rng) -> Run {
    let mut run = run(seed, 10);
    run.steps.truncate(6);
    run.note = (0..rng.range(3, 40)).map(|_| rng.draw() as u8).collect();
    run
}

/// Changes each byte of setup and trailer, by one bit and at random.
fn flipped(rng: &mut Rng, base: &Run, files: &mut Vec<Vec<u8>>) {
    let file = base.file();
    let setup = base.note.len()..base.note.len() + SETUP_BYTES;
    let trailer = file.len() - TRAILER_BYTES..file.len();
    for place in setup.chain(trailer) {
        for flip in [1, 1 << rng.below(8), rng.range(1, 255) as u8] {
            let mut file = file.clone();
            file[place] ^= flip;
            files.push(file);
        }
    }
}

fn cut_and_longer(rng: &mut Rng, base: &Run, files: &mut Vec<Vec<u8>>) {
    let file = base.file();
    for _ in 0..30 {
        files.push(file[..rng.below(file.len())].to_vec());
        files.push(file[rng.below(file.len())..].to_vec());
    }
    for cut in [1, 2, 4, 8, 16, 48, 56] {
        files.push(file[..file.len() - cut].to_vec());
    }
    for cut in [base.note.len(), base.note.len() + 1, base.note.len() + 16] {
        files.push(file[cut..].to_vec());
    }
    for more in [1, 2, 8, 16, 33] {
        files.push([&file[..], &vec![0; more]].concat());
        files.push([&vec![7; more][..], &file].concat());
    }
}

/// Makes files at the limits: the most bytes, the most steps, and one more of
/// each.
fn sizes(base: &Run, files: &mut Vec<Vec<u8>>) {
    let room = FILE_BYTES - distance(base.steps.len());
    for len in [room, room - 1, room + 1, room + 16, 2 * FILE_BYTES, 300_000] {
        files.push(write(&vec![b'n'; len], &base.setup, &base.steps));
    }
    for len in 0..20 {
        files.push(write(&vec![len as u8; len], &base.setup, &base.steps));
    }
    for count in [3_999, 4_000, 4_001, 4_080] {
        files.push(write(&[], &base.setup, &vec![Step::read(0, 0); count]));
    }
    let room = FILE_BYTES - distance(4_000);
    for len in [room, room + 1] {
        files.push(write(&vec![0; len], &base.setup, &vec![Step::ask(0, 0); 4_000]));
    }
}

/// Makes each field of each kind, used or not, the only one that is not 0.
fn unused_fields(base: &Run, files: &mut Vec<Vec<u8>>) {
    for kind in 0..=12 {
        let zero = Step { kind, ..Step::default() };
        for step in [
            Step { client: 1, ..zero },
            Step { object: 1, ..zero },
            Step { place: 1, ..zero },
            Step { clock: 1 << 24, ..zero },
            Step { value: 1 << 56, ..zero },
        ] {
            let steps = [&base.steps[..1], &[step]].concat();
            files.push(write(b"odd", &base.setup, &steps));
        }
    }
}

/// Makes saves and returns with every sort of name: none of them is a fault of
/// the file. With another field that is not 0 they are.
fn names(base: &Run, files: &mut Vec<Vec<u8>>) {
    for name in [0, 3, 4, 5, 127, 128, 255] {
        for step in [Step::save(name), Step::return_to(name)] {
            let odd =
                [Step { object: 128, ..step }, Step { clock: 1, ..step }, Step { value: 1 << 32, ..step }];
            for last in [step].into_iter().chain(odd) {
                files.push(write(b"named", &base.setup, &[Step::save(1), Step::clock(2), last]));
            }
        }
    }
}

/// Makes counts and distances that do not agree, or reach past the file.
fn trailers(rng: &mut Rng, base: &Run, files: &mut Vec<Vec<u8>>) {
    let file = base.file();
    let body = &file[..file.len() - TRAILER_BYTES];
    let count = base.steps.len() as u32;
    let right = |count: u32| count.wrapping_mul(16).wrapping_add(56);
    let high = [count + 1_000, 4_001, 0x1000_0000, 0x0fff_ffff, u32::MAX, 0x8000_0000];
    for count in high.into_iter().chain(0..8) {
        files.push([body, &count.to_le_bytes(), &right(count).to_le_bytes()].concat());
    }
    for _ in 0..8 {
        let (count, distance) = (rng.draw() as u32, rng.draw() as u32);
        files.push([body, &count.to_le_bytes(), &right(count).to_le_bytes()].concat());
        files.push([body, &(count % 10).to_le_bytes(), &(distance % 200).to_le_bytes()].concat());
    }
}

fn noise(rng: &mut Rng, files: &mut Vec<Vec<u8>>) {
    files.push(Vec::new());
    for _ in 0..30 {
        let len = rng.below(400);
        files.push((0..len).map(|_| rng.draw() as u8).collect());
    }
    for len in [1, 7, 8, 48, 55, 56, 57, 64] {
        files.push(vec![0; len]);
    }
}
