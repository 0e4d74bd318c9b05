//! Run files: 01's example from its parts, the first steps of a workload worked
//! out by hand, and refusals.

use std::thread;

use gevtsomi::{
    workload, write, Refused, Setup, Step, FILE_BYTES, OBJECTS, STEPS, STEP_BYTES, WRITE_STACK_BYTES,
};

const DOCUMENT: &[u8] = include_bytes!("data/document.run");

const NONE: Step = Step { kind: 0, client: 0, object: 0, place: 0, clock: 0, value: 0 };

fn setup(clients: u8, volumes: u8, objects: u8) -> Setup {
    let (volume_lease, object_lease, timeout, delay) = (10, 100, 3, 1);
    let volume_of = [0; OBJECTS];
    Setup { clients, volumes, objects, volume_lease, object_lease, timeout, delay, volume_of }
}

fn records(steps: &[Step]) -> Vec<u8> {
    steps.iter().flat_map(Step::record).collect()
}

/// Returns the records of the steps whose listing document 01 shows.
fn document() -> Vec<u8> {
    let kinds = [2, 3, 5, 5, 5, 3, 5, 5, 2].map(|kind| Step { kind, ..NONE });
    let clock = |clock| Step { kind: 1, clock, ..NONE };
    let write = Step { kind: 4, value: 7, ..NONE };
    let (lose, read) = (Step { kind: 6, ..NONE }, Step { kind: 2, ..NONE });
    records(&[&kinds[..], &[write, lose, clock(10), read, clock(11), clock(4)]].concat())
}

/// Returns the records of the steps for 3 clients and 4 objects. The 50 draws
/// were worked out apart from any code of this repository; the first are
/// 1,013,904,223 and 1,196,435,762.
fn ten_steps_of_seed_0() -> Vec<u8> {
    let step = |[kind, client, object, place, clock, value]: [u8; 6]| Step {
        kind,
        client,
        object,
        place,
        clock: clock.into(),
        value: value.into(),
    };
    let fields = [
        [8, 0, 0, 0, 0, 0],
        [4, 0, 0, 0, 0, 4],
        [3, 1, 3, 0, 0, 0],
        [5, 0, 0, 57, 0, 0],
        [8, 0, 0, 0, 0, 0],
        [9, 1, 0, 0, 0, 0],
        [4, 0, 3, 0, 0, 4],
        [1, 0, 0, 0, 3, 0],
        [9, 1, 0, 0, 0, 0],
        [4, 0, 0, 0, 0, 0],
    ];
    records(&fields.map(step))
}

/// Returns what a call writes to an output of `room` bytes. Checks that it
/// writes nothing past the file.
fn written(room: usize, call: impl FnOnce(&mut [u8]) -> Result<usize, Refused>) -> Vec<u8> {
    let mut output = vec![0xaa; room];
    let len = call(&mut output).expect("a file");
    assert!(output[len..].iter().all(|&byte| byte == 0xaa), "bytes past the file stay");
    output.truncate(len);
    output
}

/// Checks that a call is refused with this number and leaves the output as it
/// was.
fn refused(number: u8, room: usize, call: impl FnOnce(&mut [u8]) -> Result<usize, Refused>) {
    let mut output = vec![0xaa; room];
    assert_eq!(call(&mut output), Err(Refused { number }), "{room} bytes of output");
    assert!(output.iter().all(|&byte| byte == 0xaa), "{room} bytes of output");
}

#[test]
fn the_parts_of_the_documents_file_make_it() {
    let setup = setup(1, 1, 1).bytes();
    for room in [DOCUMENT.len(), DOCUMENT.len() + 1, FILE_BYTES] {
        assert_eq!(written(room, |output| write(&[], &setup, &document(), output)), DOCUMENT);
    }
    let noted = written(FILE_BYTES, |output| write(b"a note", &setup, &document(), output));
    assert_eq!(noted, [b"a note", DOCUMENT].concat());
}

#[test]
fn a_workload_is_the_file_of_its_steps() {
    let setup = setup(3, 2, 4).bytes();
    for count in 0..=10 {
        let file = written(FILE_BYTES, |output| workload(0, b"load", &setup, count, output));
        let records = &ten_steps_of_seed_0()[..STEP_BYTES * count as usize];
        assert_eq!(file, written(file.len(), |output| write(b"load", &setup, records, output)));
        assert_eq!(written(file.len(), |output| workload(0, b"load", &setup, count, output)), file);
    }
}

/// The setup is checked first, even where there are reasons for 10.
#[test]
fn what_is_no_setup_is_7() {
    let good = setup(1, 1, 1);
    let mut spare = good.bytes();
    spare[3] = 1;
    let volume_past_the_count = Setup { volume_of: [1; OBJECTS], ..setup(1, 2, 27) }.bytes();
    let out_of_range = [
        spare,
        setup(17, 1, 1).bytes(),
        setup(1, 1, 29).bytes(),
        Setup { delay: 0, ..good }.bytes(),
        Setup { delay: 65_536, ..good }.bytes(),
        volume_past_the_count,
    ];
    let longer = [&good.bytes()[..], &[0]].concat();
    let lengths = [&[], &good.bytes()[..47], &longer];
    for bad in lengths.into_iter().chain(out_of_range.iter().map(|bytes| &bytes[..])) {
        for room in [0, FILE_BYTES] {
            refused(7, room, |output| write(&[], bad, &document(), output));
            refused(7, room, |output| write(&[], bad, &[0], output));
            refused(7, room, |output| workload(1, &[], bad, 1, output));
            refused(7, room, |output| workload(1, &[], bad, u32::MAX, output));
        }
    }
}

/// The delay takes the last four bytes of the setup, lowest first.
#[test]
fn both_ends_of_the_delay_are_written() {
    for (delay, bytes) in [(1, [1, 0, 0, 0]), (65_535, [255, 255, 0, 0])] {
        let setup = Setup { delay, ..setup(1, 1, 1) }.bytes();
        let file = written(FILE_BYTES, |output| write(&[], &setup, &[], output));
        assert_eq!(file[44..48], bytes);
    }
}

#[test]
fn what_has_no_file_is_10() {
    let setup = setup(1, 1, 1).bytes();
    let largest = vec![0; STEPS * STEP_BYTES];
    let too_many = vec![0; (STEPS + 1) * STEP_BYTES];
    let unused = Step { kind: 2, place: 1, ..NONE }.record();
    for records in [&document()[1..], &document()[..1], &too_many, &unused] {
        refused(10, FILE_BYTES, |output| write(&[], &setup, records, output));
    }
    for count in [STEPS as u32 + 1, u32::MAX] {
        refused(10, FILE_BYTES, |output| workload(1, &[], &setup, count, output));
    }
    // A note may fill a file up to the limit, but no further.
    let note = vec![b'n'; FILE_BYTES + 1 - 56 - largest.len()];
    refused(10, FILE_BYTES + 1, |output| write(&note, &setup, &largest, output));
    refused(10, FILE_BYTES + 1, |output| workload(1, &note, &setup, STEPS as u32, output));
    let file = written(FILE_BYTES + 1, |output| write(&note[1..], &setup, &largest, output));
    let load = written(FILE_BYTES + 1, |output| workload(1, &note[1..], &setup, STEPS as u32, output));
    assert_eq!((file.len(), load.len()), (FILE_BYTES, FILE_BYTES));
}

#[test]
fn an_output_too_short_stays_as_it_was() {
    let setup = setup(1, 1, 1).bytes();
    for short in [0, 1, 55, DOCUMENT.len() - 1] {
        refused(10, short, |output| write(&[], &setup, &document(), output));
        refused(10, short, |output| workload(1, &[], &setup, 15, output));
    }
}

/// The fields of an unknown kind may hold anything.
#[test]
fn steps_of_an_unknown_kind_are_written_as_they_are() {
    let setup = setup(1, 1, 1).bytes();
    for kind in [0, 12, 255] {
        let step =
            Step { kind, client: 1, object: 2, place: 3, clock: 0x0706_0504, value: 0x0f0e_0d0c_0b0a_0908 };
        let file = written(FILE_BYTES, |output| write(&[], &setup, &step.record(), output));
        assert_eq!(file[48], kind);
        assert!(file[49..64].iter().copied().eq(1..16));
    }
}

/// A save and a return use the place, for the name, and nothing else.
#[test]
fn saves_and_returns_have_a_name_alone() {
    let setup = setup(1, 1, 1).bytes();
    for kind in [10, 11] {
        let step = Step { kind, place: 255, ..Step::default() };
        let file = written(FILE_BYTES, |output| write(&[], &setup, &step.record(), output));
        assert_eq!(file[48..64], step.record());
        let others = [
            Step { client: 1, ..step },
            Step { object: 1, ..step },
            Step { clock: 1, ..step },
            Step { value: 1, ..step },
        ];
        for other in others {
            refused(10, FILE_BYTES, |output| write(&[], &setup, &other.record(), output));
        }
    }
}

/// Calls on a thread with just that much stack, some of which the thread needs
/// for itself.
#[test]
fn the_stack_that_is_named_is_enough() {
    let setup = setup(16, 8, 28).bytes();
    let records = vec![0; STEPS * STEP_BYTES];
    let from_parts = |output: &mut [u8]| write(&[], &setup, &records, output);
    let from_seed = |output: &mut [u8]| workload(1, &[], &setup, STEPS as u32, output);
    assert_eq!(on_a_thread(WRITE_STACK_BYTES, from_parts), Ok(64_056));
    assert_eq!(on_a_thread(WRITE_STACK_BYTES, from_seed), Ok(64_056));
}

fn on_a_thread(
    stack: usize,
    call: impl FnOnce(&mut [u8]) -> Result<usize, Refused> + Send,
) -> Result<usize, Refused> {
    let mut output = vec![0; FILE_BYTES];
    thread::scope(|scope| {
        let thread = thread::Builder::new().stack_size(stack);
        let ended = thread.spawn_scoped(scope, || call(&mut output)).expect("a thread");
        ended.join().expect("no panic")
    })
}
