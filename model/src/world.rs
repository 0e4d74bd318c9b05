//! Everything a step works on.

use crate::copies::ObjectCopy;
use crate::requests::Request;
use crate::setup::Setup;
use crate::state::{Saved, State};
use crate::tables::{Tables, Write};

/// Sound tables, lent records and saved states, borrowed for one step.
pub struct World<'a> {
    pub setup: &'a Setup,
    pub tables: &'a mut Tables,
    pub copies: &'a mut [ObjectCopy],
    pub requests: &'a mut [Request],
    pub saved: &'a mut Saved,
}

impl<'a> World<'a> {
    pub fn new(setup: &'a Setup, state: &'a mut State, saved: &'a mut Saved) -> World<'a> {
        let (tables, copies, requests) = state.parts(setup);
        World { setup, tables, copies, requests, saved }
    }
}

impl World<'_> {
    #[inline]
    pub fn copy(&self, client: usize, object: usize) -> &ObjectCopy {
        &self.copies[self.setup.copy_place(client, object)]
    }

    #[inline]
    pub fn copy_mut(&mut self, client: usize, object: usize) -> &mut ObjectCopy {
        &mut self.copies[self.setup.copy_place(client, object)]
    }

    /// Returns the set of objects with a standing write.
    #[inline]
    pub fn standing(&self) -> u32 {
        self.tables.server.standing & self.setup.all_objects()
    }

    /// Returns the set of clients that the object's standing write waits for.
    #[inline]
    pub fn waiting(&self, object: usize) -> u16 {
        self.tables.server.write[object].waiting & self.setup.all_clients()
    }

    /// Opens a write. Whom it waits for is stored as a whole, so that members
    /// past the client count go.
    #[inline]
    pub fn open_write(&mut self, object: usize, write: Write) {
        self.tables.server.standing |= 1 << object;
        self.tables.server.write[object] = write;
    }

    /// Ends the standing write.
    #[inline]
    pub fn end_write(&mut self, object: usize) {
        self.tables.server.standing &= !(1 << object);
        self.tables.server.write[object] = Write::NONE;
    }
}
