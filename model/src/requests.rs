//! A client's request counter and standing request: one lent record per client.

use crate::limits::CLIENTS;

#[derive(Clone, Copy, Debug, PartialEq, Eq)]
pub struct Standing {
    pub number: u32,
    pub object: u8,
}

#[derive(Clone, Copy, Debug, PartialEq, Eq)]
pub struct Request {
    pub next: u32,
    pub standing: Option<Standing>,
}

/// Room for the records of the largest setup.
pub const NO_REQUESTS: [Request; CLIENTS] = [Request::FRESH; CLIENTS];

impl Request {
    pub const FRESH: Request = Request { next: 1, standing: None };

    /// Takes the next number for an ask for this object, which replaces the
    /// standing request (01, Steps 3).
    pub fn take(&mut self, object: u8) -> u32 {
        let number = self.next;
        self.next += 1;
        self.standing = Some(Standing { number, object });
        number
    }

    pub fn end(&mut self) {
        self.standing = None;
    }

    /// Returns whether an answer with this number is for the standing request.
    pub fn waits_for(&self, number: u32) -> bool {
        self.standing.is_some_and(|standing| standing.number == number)
    }

    pub fn is_about(&self, object: u8) -> bool {
        self.standing.is_some_and(|standing| standing.object == object)
    }
}
