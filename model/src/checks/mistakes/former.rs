//! Rules of 01 that a request of 02 replaced. Still following one is a mistake.

use crate::copies::ObjectCopy;
use crate::message::Grant;
use crate::setup::Setup;
use crate::tables::Server;

/// Returns what counted instead of the clients' leases before A3: the lesser of
/// VE and OE, whoever is waited for.
pub fn old_leases_end(setup: &Setup, server: &Server, object: usize) -> u32 {
    server.volume_latest[setup.volume(object)].min(server.object_latest[object])
}

/// Returns what 01 asked of a GRANT without a value before A4; in a run it
/// holds whenever the number stands.
pub fn names_held_version(grant: &Grant, copy: &ObjectCopy) -> bool {
    grant.version == copy.version
}
