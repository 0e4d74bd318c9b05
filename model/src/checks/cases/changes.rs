//! Applies one change, by the number of its field. Places are numbered as in
//! the product's tables: client * 8 + volume, client * 32 + object.

use std::rc::Rc;

use crate::cases::rows::VALUE;
use crate::cases::state::CaseState;
use crate::cases::tables::CaseTables;
use crate::requests::{Request, Standing};
use crate::setup::Setup;
use crate::tables::Server;

impl CaseTables {
    pub fn change(&mut self, field: u64, place: usize, value: u64) {
        match field {
            1..=8 => {
                change_setup(&mut self.setup, field, place, value);
                self.lend_all();
            }
            63 => self.copies_lent = value as usize,
            74 => self.requests_lent = value as usize,
            100.. => self.change_saved(field / 100 - 1, field % 100, place, value),
            _ => self.present.change(field, place, value),
        }
    }

    /// Changes a saved state: whether it is there, all of it at once, or a
    /// field.
    fn change_saved(&mut self, name: u64, field: u64, place: usize, value: u64) {
        let name = name as usize;
        match field {
            80 => self.saved.there[name] = value != 0,
            81 => {
                self.saved.there[name] = true;
                self.saved.states[name] = Rc::new(self.present.clone());
            }
            _ => Rc::make_mut(&mut self.saved.states[name]).change(field, place, value),
        }
    }
}

impl CaseState {
    fn change(&mut self, field: u64, place: usize, value: u64) {
        match field {
            10 => self.tables.clock = word(value),
            11..=19 => change_volumes(&mut self.tables.server, field, place, value),
            20..=27 => change_objects(&mut self.tables.server, field, place, value),
            30 => self.tables.clients.epoch[place / 8][place % 8] = word(value),
            31 => self.tables.clients.expiry[place / 8][place % 8] = word(value),
            40 => self.tables.queue.len = value as usize,
            41..=49 => self.rows[place].fields[field as usize - 41] = word(value).into(),
            50 => self.rows[place].fields[VALUE] = value,
            60 => self.copies[place].version = word(value),
            61 => self.copies[place].value = value,
            62 => self.copies[place].expiry = word(value),
            70..=73 => change_request(&mut self.requests[place], &mut self.asked[place], field, value),
            _ => panic!("field {field}"),
        }
    }
}

fn word(value: u64) -> u32 {
    value.try_into().expect("32 bits")
}

fn byte(value: u64) -> u8 {
    value.try_into().expect("a byte")
}

fn change_setup(setup: &mut Setup, field: u64, place: usize, value: u64) {
    match field {
        1 => setup.clients = byte(value),
        2 => setup.volumes = byte(value),
        3 => setup.objects = byte(value),
        4 => setup.volume_lease = word(value),
        5 => setup.object_lease = word(value),
        6 => setup.timeout = word(value),
        7 => setup.volume_of[place] = byte(value),
        _ => setup.delay = word(value),
    }
}

fn change_volumes(server: &mut Server, field: u64, place: usize, value: u64) {
    let (client, volume) = (place / 8, place % 8);
    match field {
        11 => server.epoch[place] = word(value),
        12 => server.volume_latest[place] = word(value),
        13 => server.guard[place] = word(value),
        14 => server.seen[place] = word(value),
        15 => server.volume_expiry[volume][client] = word(value),
        16 => server.unreachable[volume] = with_bit(server.unreachable[volume].into(), client, value) as u16,
        17 => server.offer[volume][client] = word(value),
        18 => server.notes[volume][client] = word(value),
        _ => server.batch[volume][client] = word(value),
    }
}

fn change_objects(server: &mut Server, field: u64, place: usize, value: u64) {
    let (client, object) = (place / 32, place % 32);
    match field {
        20 => server.value[place] = value,
        21 => server.version[place] = word(value),
        22 => server.object_latest[place] = word(value),
        23 => server.standing = with_bit(server.standing, place, value),
        24 => server.write[place].value = value,
        25 => server.write[place].latest_end = word(value),
        26 => server.object_expiry[object][client] = word(value),
        _ => {
            let waiting = &mut server.write[object].waiting;
            *waiting = with_bit((*waiting).into(), client, value) as u16;
        }
    }
}

fn with_bit(set: u32, place: usize, value: u64) -> u32 {
    set & !(1 << place) | u32::from(value != 0) << place
}

fn change_request(request: &mut Request, asked: &mut Standing, field: u64, value: u64) {
    let mut stands = request.standing.is_some();
    match field {
        70 => request.next = word(value),
        71 => stands = value != 0,
        72 => asked.number = word(value),
        _ => asked.object = byte(value),
    }
    request.standing = stands.then_some(*asked);
}
