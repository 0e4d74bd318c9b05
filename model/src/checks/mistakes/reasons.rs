//! Mistakes about why a read is answered "ask first" (02, A8). They change no
//! listing, only what `why` answers, so they are a list of their own.

use crate::rules::ReasonRules;

mod answers;
mod events;
mod granting;
mod line;
mod numbers;

use {answers::*, events::*, granting::*, line::*, numbers::*};

macro_rules! list {
    ($($name:ident,)*) => {
        /// Each by name, alone.
        pub const EACH: &[(&str, &dyn ReasonRules)] = &[$((stringify!($name), &$name),)*];
    };
}

list! {
    // What grants.
    event_grant_of_any_object,
    event_grant_in_volume,
    event_grant_any_number,
    event_grant_with_value,
    event_grant_with_change,
    event_grant_from_nothing,

    // What erases.
    event_offer_without_copy,
    event_offer_again,
    event_offer_for_asked,
    event_offer_never,
    event_batch_without_copy,
    event_batch_for_volume,
    event_batch_never,
    event_batch_needs_expiry,
    event_invalidate_without_copy,
    event_invalidate_needs_expiry,
    event_restart_without_copy,
    event_restart_needs_expiry,
    event_server_restart,
    event_write,

    // Which event decides, in the line and across returns.
    first_event_decides,
    return_keeps_events,
    return_keeps_new_events,
    return_forgets_events,
    return_without_copy_is_never,
    return_erases,
    save_keeps_first_events,
    save_under_every_name,

    // How the event's step is named.
    event_numbered_from_0,
    event_numbered_late,
    event_numbered_in_line,
    event_numbered_by_return,
    grant_not_named,
    renewal_of_volume_named,

    // The reason.
    tie_is_the_objects,
    later_expiry_decides,
    dead_volume_first,
    dead_object_first,
    expiries_at_grant,
    expiries_at_server,
    expiries_alone,
    batch_is_invalidated,
    offer_is_invalidated,
    restart_is_never_granted,
    shown_has_reason,
    refused_has_reason,
}
