//! 01's added call "Offer".

use super::prepare_reply::give_accept;
use super::{Answer, Leading, Replica, Slot, Status};
use crate::action::Action;
use crate::batch::Batch;

impl Replica {
    /// 01: "appends a slot in Accepting at bal_prepared, external, `voted` not set, with leader
    /// bookkeeping of trigger and endprep 0 and empty sets".
    pub(super) fn offer(&mut self, batch: Batch, out: &mut Vec<Action>) -> Answer {
        let ballot = self.bal_prepared;
        if !self.leads() || ballot == 0 || ballot != self.bal_prep_sent {
            return Err(9);
        }
        let number = self.log_end();
        if number >= self.window_end() {
            return Err(5);
        }
        let mut slot = Slot {
            ballot,
            status: Status::Accepting,
            external: true,
            batch,
            leading: Some(Leading::of(0, 0)),
            ..Slot::default()
        };
        // 02 (b): "A leader entering Accept, by quorum or by offer, records the vote as its own."
        if self.rules.own_votes {
            slot.vote = (ballot, batch);
        }
        self.slots.push(slot);
        self.refresh_keys(number, &batch);
        give_accept(number, ballot, batch, out);
        Ok(())
    }
}
