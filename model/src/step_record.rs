//! A step as a run file holds it (01, Steps; Frame, run file and listing; 02,
//! A7).

pub const CLOCK: u8 = 1;
pub const READ: u8 = 2;
pub const ASK: u8 = 3;
pub const WRITE: u8 = 4;
pub const DELIVER: u8 = 5;
pub const LOSE: u8 = 6;
pub const DOUBLE: u8 = 7;
pub const RESTART_SERVER: u8 = 8;
pub const RESTART_CLIENT: u8 = 9;
pub const SAVE: u8 = 10;
pub const RETURN: u8 = 11;

/// A step. The kind is any byte; an unknown one is refused when the step is
/// taken.
#[derive(Clone, Copy, Debug, Default, PartialEq, Eq)]
pub struct Step {
    pub kind: u8,
    pub client: u8,
    pub object: u8,
    pub place: u8,
    pub clock: u32,
    pub value: u64,
}

impl Step {
    pub fn clock(time: u32) -> Step {
        Step { kind: CLOCK, clock: time, ..Step::default() }
    }

    pub fn read(client: u8, object: u8) -> Step {
        Step { kind: READ, client, object, ..Step::default() }
    }

    pub fn ask(client: u8, object: u8) -> Step {
        Step { kind: ASK, client, object, ..Step::default() }
    }

    pub fn write(object: u8, value: u64) -> Step {
        Step { kind: WRITE, object, value, ..Step::default() }
    }

    pub fn deliver(place: u8) -> Step {
        Step { kind: DELIVER, place, ..Step::default() }
    }

    pub fn lose(place: u8) -> Step {
        Step { kind: LOSE, place, ..Step::default() }
    }

    pub fn double(place: u8) -> Step {
        Step { kind: DOUBLE, place, ..Step::default() }
    }

    pub fn restart_server() -> Step {
        Step { kind: RESTART_SERVER, ..Step::default() }
    }

    pub fn restart_client(client: u8) -> Step {
        Step { kind: RESTART_CLIENT, client, ..Step::default() }
    }

    /// Returns a save, "with the name in the place field" (02, A7).
    pub fn save(name: u8) -> Step {
        Step { kind: SAVE, place: name, ..Step::default() }
    }

    pub fn return_to(name: u8) -> Step {
        Step { kind: RETURN, place: name, ..Step::default() }
    }

    /// Returns the step with every field that its kind does not use set to 0;
    /// an unknown kind keeps all its fields.
    pub fn used_fields(&self) -> Step {
        match self.kind {
            CLOCK => Step::clock(self.clock),
            READ => Step::read(self.client, self.object),
            ASK => Step::ask(self.client, self.object),
            WRITE => Step::write(self.object, self.value),
            DELIVER => Step::deliver(self.place),
            LOSE => Step::lose(self.place),
            DOUBLE => Step::double(self.place),
            RESTART_SERVER => Step::restart_server(),
            RESTART_CLIENT => Step::restart_client(self.client),
            SAVE => Step::save(self.place),
            RETURN => Step::return_to(self.place),
            _ => *self,
        }
    }
}
