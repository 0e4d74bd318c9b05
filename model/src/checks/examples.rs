//! The runs in the repository's examples folder: 01's own, one for each line of
//! the customer's test sheet, the notice desk's of 02, A3, the parked client's of
//! A6, and a branch left behind, of A7.

use crate::gen::runs::Run;
use crate::gen::setups::sized;
use crate::step_record::Step;

pub struct Example {
    /// The name of the files, without the extension.
    pub name: &'static str,
    pub run: Run,
}

pub fn all() -> Vec<Example> {
    vec![
        example("0-document", "", (1, 1, 1), document()),
        one_lease_alone(),
        example("2-renew-while-waiting", "line 2 of the sheet", (1, 1, 2), renew_while_waiting()),
        example("3-restart-inside-write", "line 3 of the sheet", (1, 1, 1), restart_inside_write()),
        example("4-client-switched-off", "line 4 of the sheet", (2, 1, 1), client_switched_off()),
        example("5-old-messages", "line 5 of the sheet", (4, 1, 4), old_messages()),
        example("6-never-held", "request A3, the notice desk", (2, 1, 2), never_held()),
        parked(),
        example("8-left-behind", "request A7, a branch left behind", (2, 1, 1), left_behind()),
    ]
}

fn example(
    name: &'static str,
    note: &str,
    (clients, volumes, objects): (u8, u8, u8),
    steps: Vec<Step>,
) -> Example {
    let setup = sized(clients, volumes, objects);
    Example { name, run: Run { note: note.into(), setup, steps } }
}

/// Asks and delivers at this place until the client holds the object: twice,
/// since a client that knows no epoch gets an offer first.
fn hold(client: u8, object: u8, place: u8) -> Vec<Step> {
    let (ask, deliver) = (Step::ask(client, object), Step::deliver(place));
    vec![ask, deliver, deliver, deliver, ask, deliver, deliver]
}

fn document() -> Vec<Step> {
    let read = Step::read(0, 0);
    let change =
        [read, Step::write(0, 7), Step::lose(0), Step::clock(10), read, Step::clock(11), Step::clock(4)];
    [&[read][..], &hold(0, 0, 0), &change].concat()
}

/// A client is away from 10 to 130, and an object is written meanwhile. The
/// volume lease lasts one minute, the object lease five. Afterwards the volume
/// is renewed through another object.
fn one_lease_alone() -> Example {
    let read = Step::read(0, 0);
    let away = [Step::clock(10), Step::write(0, 7), Step::lose(0), Step::clock(61), Step::clock(130), read];
    let renewed = [Step::ask(0, 0), Step::deliver(0), Step::deliver(0), read];
    let steps =
        [&hold(0, 0, 0)[..], &[read], &away, &hold(0, 1, 0), &[read, Step::read(0, 1)], &renewed].concat();
    let mut example = example("1-one-lease-alone", "line 1 of the sheet", (1, 1, 2), steps);
    let setup = &mut example.run.setup;
    (setup.volume_lease, setup.object_lease, setup.timeout) = (60, 300, 5);
    example
}

/// Object 0 is written at 2 and its INVALIDATE is lost; object 1 is renewed at
/// 8.
fn renew_while_waiting() -> Vec<Step> {
    let both = [&hold(0, 0, 0)[..], &[Step::ask(0, 1), Step::deliver(0), Step::deliver(0), Step::read(0, 0)]]
        .concat();
    let lost = [Step::clock(2), Step::write(0, 7), Step::lose(0), Step::clock(8)];
    let late = [Step::ask(0, 1), Step::deliver(0), Step::deliver(0), Step::clock(11), Step::read(0, 0)];
    [&both[..], &lost, &late].concat()
}

/// The ACK of the write that the restart cuts off stays at place 0 until the
/// next write, which has the same new version.
fn restart_inside_write() -> Vec<Step> {
    let read = Step::read(0, 0);
    let cut_off = [Step::write(0, 7), Step::deliver(0), Step::restart_server(), Step::clock(10)];
    let again = [read, Step::write(0, 8), Step::deliver(0), read];
    [&hold(0, 0, 0)[..], &cut_off, &hold(0, 0, 1), &again].concat()
}

/// Client 0 acknowledges, client 1 is silent from then on.
fn client_switched_off() -> Vec<Step> {
    let write = [Step::write(0, 7), Step::deliver(0), Step::lose(0), Step::deliver(0)];
    let end = [Step::clock(10), Step::clock(11), Step::read(0, 0)];
    [&hold(0, 0, 0)[..], &hold(1, 0, 0), &write, &end].concat()
}

/// Client 3 leaves a second OFFER under way, client 1 a second RENEW and
/// DROPPED, client 0 a second GRANT, client 2 a second ACK. Then they come.
fn old_messages() -> Vec<Step> {
    let d = Step::deliver;
    let offer = [Step::ask(3, 3), d(0), Step::double(0), d(0), d(1), Step::ask(3, 3), d(1), d(1)];
    let dropped = [Step::ask(1, 1), Step::double(1), d(1), d(2), Step::double(2), d(2)];
    let granted = [Step::ask(1, 1), d(3), d(3)];
    let grant = [Step::ask(0, 0), d(3), d(3), d(3), Step::ask(0, 0), d(3), Step::double(3), d(3)];
    let erased = [Step::read(0, 0), Step::write(0, 7), d(4), d(4)];
    let ack = [Step::write(2, 8), d(4), Step::double(4), d(4), Step::ask(2, 2), d(5), d(5)];
    let late = [
        Step::clock(5),
        d(3),
        Step::read(0, 0),
        Step::write(2, 9),
        d(3),
        Step::read(2, 2),
        d(1),
        d(1),
        Step::write(1, 5),
        Step::read(1, 1),
        d(0),
        Step::read(3, 3),
    ];
    [&offer[..], &dropped, &granted, &grant, &erased, &hold(2, 2, 4), &ack, &late].concat()
}

/// Client 1 never held object 0, so the write does not wait until 19 for its
/// lease on the volume: it ends with clock + m, since the lease of client 0
/// ends before.
fn never_held() -> Vec<Step> {
    let late = [Step::read(0, 0), Step::clock(9)];
    let write = [Step::write(0, 7), Step::lose(0), Step::clock(10), Step::read(0, 0), Step::clock(12)];
    let end = [Step::clock(13), Step::read(0, 0), Step::read(1, 1)];
    [&hold(0, 0, 0)[..], &late, &hold(1, 1, 0), &write, &end].concat()
}

/// Client 0 is parked, and its lease on object 0 lives. Object 0 is written and
/// noted for it; then it comes back and asks twice. The write of object 1 waits
/// for client 1, which is awake. The delay is long enough for the note to last.
/// By the rule before A6 the write of object 0 waits for client 0, and the
/// places of the messages are such that an ACK ends it where the ACK of client 1
/// ends the other one now.
fn parked() -> Example {
    let (read, ask, d) = (Step::read(0, 0), Step::ask(0, 0), Step::deliver);
    let park = [read, Step::clock(60), read];
    let back = [Step::write(0, 7), ask, ask, Step::write(1, 8)];
    let batch = [d(0), d(1), d(0), d(1), d(1), read];
    let again = [ask, d(1), d(1), d(0), d(0), read];
    let steps = [&hold(0, 0, 0)[..], &park, &hold(1, 1, 0), &back, &batch, &again].concat();
    let mut example = example("7-parked", "request A6, a parked dash", (2, 1, 2), steps);
    example.run.setup.delay = 100;
    example
}

/// The RENEW of client 1 is under way when the state is saved. On the branch it
/// arrives, an object is written and the clock goes on; after the return it is
/// under way again, and lost. There each read, clock step and loss shows one
/// part that is restored.
fn left_behind() -> Vec<Step> {
    let d = Step::deliver;
    let saved = [Step::clock(4), Step::ask(1, 0), Step::save(0), d(0), d(0)];
    let write = |value| [Step::write(0, value), d(0), d(0), d(0), d(0)];
    let granted = |client| [Step::ask(client, 0), d(0), d(0), Step::read(client, 0)];
    let back = [Step::clock(9), Step::return_to(0), Step::read(0, 0), Step::clock(4), Step::lose(0)];
    let branch = [&saved[..], &write(7), &granted(0), &back].concat();
    [&hold(0, 0, 0)[..], &hold(1, 0, 0), &branch, &write(9), &granted(1), &[Step::return_to(1)]].concat()
}
