//! What a part of the picture is about, so that the page can leave out what was
//! not asked for.

use std::fmt::{Display, Formatter, Result};

use model::message::{Kind, Message};
use model::step_record::{ASK, READ, RESTART_CLIENT, WRITE};

use super::layout::Row;
use crate::timeline::StepView;

/// Attributes of an element. An element without any is about everything.
#[derive(Clone, Copy, Debug, Default, PartialEq, Eq)]
pub struct About {
    pub client: Option<usize>,
    pub volume: Option<usize>,
    pub object: Option<usize>,
}

impl About {
    pub fn client(client: usize) -> About {
        About { client: Some(client), ..About::default() }
    }

    pub fn row(row: Row) -> About {
        let client = row.client();
        match row {
            Row::Guard(volume) | Row::Volume(_, volume) => {
                About { client, volume: Some(volume), object: None }
            }
            Row::Write(object) | Row::Object(_, object) => {
                About { client, volume: None, object: Some(object) }
            }
        }
    }

    pub fn message(message: &Message) -> About {
        let client = About::client(message.client.into());
        match message.kind {
            Kind::Renew { object, .. } | Kind::Invalidate { object, .. } | Kind::Ack { object, .. } => {
                About { object: Some(object.into()), ..client }
            }
            Kind::Grant(grant) => About { object: Some(grant.object.into()), ..client },
            Kind::Offer { volume, .. } | Kind::Dropped { volume, .. } => {
                About { volume: Some(volume.into()), ..client }
            }
            Kind::Batch(batch) | Kind::Cleared(batch) => {
                About { volume: Some(batch.volume.into()), ..client }
            }
        }
    }

    pub fn step(view: &StepView) -> About {
        let (client, object) = (Some(view.step.client.into()), Some(view.step.object.into()));
        match (&view.message, view.step.kind) {
            (Some(message), _) => About::message(message),
            (None, READ | ASK) => About { client, object, volume: None },
            (None, WRITE) => About { object, ..About::default() },
            (None, RESTART_CLIENT) => About { client, ..About::default() },
            _ => About::default(),
        }
    }
}

impl Display for About {
    fn fmt(&self, out: &mut Formatter) -> Result {
        let named = [("client", self.client), ("volume", self.volume), ("object", self.object)];
        for (name, number) in named {
            if let Some(number) = number {
                write!(out, " data-{name}=\"{number}\"")?;
            }
        }
        Ok(())
    }
}
