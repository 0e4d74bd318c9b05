//! Plausible mistakes, to show that the generated runs would find each of them
//! or, if no run can, the stored cases of single steps. A mistake is a small
//! type that replaces one of the papers' rules.

use crate::answer::Answer;
use crate::cases::RowRules;
use crate::rules::{Papers, Rules};
use crate::sound::SoundRules;
use crate::step_record::Step;
use crate::world::World;

/// Rules chosen at run time: the papers' or those of a mistake. The choice is
/// made once, where a step is taken; the rules themselves know nothing of it.
#[derive(Clone, Copy)]
pub struct Mistakes {
    step: fn(&mut World, &Step) -> Answer,
    pub(crate) rows: &'static dyn RowRules,
    pub(crate) sound: &'static dyn SoundRules,
}

impl Mistakes {
    pub const NONE: Mistakes =
        Mistakes { step: |world, step| Papers.step(world, step), rows: &Papers, sound: &Papers };

    /// The mistakes that change the listings of runs.
    pub const IN_RUNS: &'static [(&'static str, Mistakes)] = Self::EACH.split_at(SHOWN).0;

    /// The mistakes that change nothing in any state that a run reaches.
    pub const NOT_IN_RUNS: &'static [(&'static str, Mistakes)] = Self::EACH.split_at(SHOWN).1;

    pub fn named(name: &str) -> Mistakes {
        Self::EACH.iter().find(|(each, _)| *each == name).expect("a mistake's name").1
    }

    /// Asks the questions after the first, then takes the step.
    pub fn step(self, world: &mut World, step: &Step) -> Answer {
        (self.step)(world, step)
    }
}

#[macro_use]
mod about;
mod ageing;
mod batch_client;
mod batch_server;
mod client;
pub mod former;
mod gate;
mod grant;
mod kept;
mod latest_end;
mod network;
mod notes;
mod parked;
pub mod reasons;
mod rows;
mod saved;
mod saved_names;
mod server;
mod server_restart;
mod sound;
mod writes;

use {
    ageing::*, batch_client::*, batch_server::*, client::*, gate::*, grant::*, latest_end::*, network::*,
    notes::*, parked::*, rows::*, saved::*, saved_names::*, server::*, server_restart::*, sound::*,
    writes::*,
};

/// The mistakes that runs show, then those that only other tables show: first
/// those about the model's rules, then those about question 1 and about rows.
macro_rules! list {
    (
        in runs { $($shown:ident,)* }
        not in runs { $($hidden:ident,)* }
        sound { $($sound:ident,)* }
        rows { $($row:ident,)* }
    ) => {
        const SHOWN: usize = [$(stringify!($shown),)*].len();

        impl Mistakes {
            /// Each by name, alone. A step on tables made by hand finds each of
            /// them.
            pub const EACH: &'static [(&'static str, Mistakes)] = &[
                $((stringify!($shown), about_rules!($shown)),)*
                $((stringify!($hidden), about_rules!($hidden)),)*
                $((stringify!($sound), Mistakes { sound: &$sound, ..Mistakes::NONE }),)*
                $((stringify!($row), Mistakes { rows: &$row, ..Mistakes::NONE }),)*
            ];
        }
    };
}

macro_rules! about_rules {
    ($name:ident) => {
        Mistakes { step: |world, step| $name.step(world, step), ..Mistakes::NONE }
    };
}

list! {
    in runs {
        // The four traps at the end of 01's Edges.
        renew_while_waiting,
        skip_unreachable,
        ack_any_epoch,
        old_renew_offers,

        // The client.
        read_without_volume_lease,
        read_without_object_lease,
        read_alive_at_expiry,
        grant_any_number,
        grant_same_object,
        no_value_stores_0,
        no_value_keeps_volume_expiry,
        no_value_keeps_object_expiry,
        no_value_keeps_request,
        offer_any_number,
        offer_keeps_leases,
        offer_keeps_object_expiries,
        offer_keeps_epoch,
        invalidate_keeps_request,
        ack_only_with_copy,
        client_restart_keeps_leases,
        client_restart_keeps_request,
        client_restart_resets_number,

        // Writes.
        write_alive_at_expiry,
        ends_at_latest_end,
        waits_forever,
        latest_end_without_guard,
        latest_end_without_timeout,
        latest_end_without_clients,
        latest_end_by_volume,
        latest_end_by_greater,
        latest_end_of_first,
        latest_end_across_clients,
        latest_end_by_old_rule,
        write_before_guard,
        ack_before_guard,
        clock_without_guard,
        complete_without_marking,
        complete_clears_offers,
        second_write_replaces,

        // Messages at the server.
        renew_any_number,
        offer_without_marking,
        resend_highest,
        grant_during_write,
        grant_only_news,
        ack_any_version,
        dropped_any_number,
        dropped_keeps_offer,
        dropped_keeps_mark,
        dropped_keeps_leases,
        dropped_keeps_waiting,
        dropped_completes_nothing,

        // The server's restart.
        restart_keeps_epochs,
        restart_without_guard,
        restart_forgets_latest,
        restart_keeps_writes,
        restart_keeps_seen,
        restart_keeps_leases,
        restart_empties_queue,

        // The message list.
        full_overwrites_last,
        full_loses_first,
        full_refuses_double,
        removal_swaps_last,
        double_lands_behind,

        // The gate.
        same_time_refused,
        time_goes_back,

        // Notes at a write (02, A6).
        waits_for_parked,
        waits_and_notes,
        notes_nobody,
        notes_unreachable,
        notes_without_object_lease,
        notes_waited,
        parked_past_expiry,
        noted_gets_invalidate,
        marks_at_write,
        later_note_replaces,

        // BATCH at the server.
        batch_before_epoch,
        batch_after_waited,
        batch_after_standing,
        batch_and_grant,
        batch_only_for_noted,
        batch_only_once,
        batch_without_number,
        batch_first_sent,
        batch_of_lowest,
        batch_drops_notes,

        // BATCH at the client.
        batch_any_number,
        batch_erases_nothing,
        batch_erases_asked,
        batch_erases_volume,
        batch_keeps_request,
        batch_without_cleared,

        // CLEARED.
        cleared_any_number,
        cleared_without_batch,
        cleared_drops_all_leases,
        cleared_keeps_notes,
        cleared_keeps_batch,
        cleared_ends_waiting,

        // Ageing.
        never_ages,
        ages_early,
        ages_late,
        ages_only_later,
        ages_by_latest,
        ages_without_notes,
        ages_first_volume,

        // What a mark leaves.
        offer_keeps_notes,
        offer_keeps_batch,

        // What is saved, and what a return restores (02, A7).
        save_without_values,
        save_without_messages,
        return_keeps_clock,
        return_keeps_messages,
        return_keeps_copies,
        return_keeps_requests,
        return_keeps_seen,
        return_keeps_epochs,
        return_keeps_values,
        return_keeps_writes,
        return_keeps_notes,
        return_keeps_marks,
        return_keeps_known,
        return_keeps_clients,

        // What becomes of saved states.
        save_keeps_first,
        save_under_next,
        save_forgets_others,
        return_uses_name_up,
        return_forgets_others,
        return_forgets_saved,
        return_exchanges,
        server_restart_forgets_saved,
        client_restart_forgets_saved,
        client_restart_in_saved,

        // Names, questions and the answer.
        name_4_accepted,
        name_low_bits,
        name_3_refused,
        name_asked_as_place,
        name_after_place,
        name_before_kind,
        name_refused_as_item,
        never_saved_is_fresh,
        never_saved_is_nothing,
        refused_save_saves,
        saved_kinds_unknown,
        kind_12_known,
        return_asks_time,
        return_completes,
        return_reports_standing,
    }

    not in runs {
        // A GRANT without a value on tables that no run reaches. In a run, while the
        // request stands, the client holds the version that it named in its RENEW
        // and knows the epoch, and such a GRANT repeats both (02, A4).
        no_value_needs_version,
        no_value_needs_copy,
        no_value_keeps_version,
        no_value_keeps_epoch,

        // A CLEARED whose set is not all that is noted. A run has none: a later
        // note voids the batch. And what it names was erased before it was sent,
        // so it would do no harm without that rule.
        later_note_keeps_batch,
        cleared_drops_all_notes,

        // The number of a batch is never used again, nor in another epoch, and is
        // not 0.
        cleared_any_epoch,
        cleared_number_0,

        // A lease that CLEARED drops is on an object whose write stands, or it is
        // gone already; it counts at the next write, and the write ends it, too.
        cleared_keeps_leases,

        // Nothing becomes free by a CLEARED.
        cleared_completes,

        // A client that gets a BATCH knows its epoch and has no live volume lease;
        // an older version than the server's is as good as none.
        batch_takes_epoch,
        batch_ends_volume_lease,
        batch_keeps_versions,

        // A marked client is neither noted nor waited for while its volume lease is
        // dead, and the OFFER that it needs marks it again. So one with an offer has
        // no notes; after a restart of the server the first RENEW marks it, and the
        // batch's epoch is past.
        complete_keeps_notes,
        complete_keeps_batch,
        age_keeps_notes,
        age_keeps_batch,
        dropped_drops_notes,
        dropped_voids_batch,
        restart_keeps_notes,
        restart_keeps_batch,

        // A number that is skipped is as good as any: what is under way after a
        // return has smaller ones.
        return_keeps_next,
    }

    sound {
        // The delay of the setup (02, A6). A run's was asked about by the reader.
        delay_of_0,
        delay_above_most,
        delay_low_half,

        // Sets in the tables and in messages (02, A6). Those of a run have only
        // objects of their volume.
        notes_not_asked,
        notes_of_any_volume,
        notes_past_objects,
        batch_set_not_asked,
        cleared_set_not_asked,
        sets_of_any_volume,
        sets_above_28,

        // Saved states (02, A7). Those of a run are sound.
        saved_not_asked,
        saved_tables_not_asked,
        saved_messages_not_asked,
        saved_copies_not_asked,
        saved_requests_not_asked,
        saved_only_first_asked,
        saved_without_last,
    }

    rows {
        // A row of the message list that is in use but is no message. Only
        // tables that are handed over have one.
        row_of_kind_0,
        row_of_kind_above_8,
        row_kind_low_byte,
        row_client_low_byte,
        row_object_low_byte,
        row_presence_low_byte,
        row_any_presence,
        row_value_without_presence,
        row_stray_presence,
        row_stray_number,
        row_stray_volume_expiry,
        row_stray_version,
        row_stray_object_expiry,
        row_stray_value,
        rows_without_first,
        rows_without_last,
        rows_past_length,
        rows_when_used,
        rows_after_kind,
        row_blanked,

        // Saved states that are handed over (02, A7), which may not be there.
        never_saved_asked,
        saved_rows_not_asked,
        name_before_sound,
        never_saved_before_sound,
    }
}
