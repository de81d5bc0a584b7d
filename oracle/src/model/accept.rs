//! Accept and AcceptReply.

use super::{Answer, Following, Replica, Slot, Status};
use crate::action::{Action, Kind};
use crate::batch::Batch;

impl Replica {
    pub(super) fn accept(
        &mut self,
        peer: u8,
        number: u64,
        ballot: u64,
        batch: Batch,
        out: &mut Vec<Action>,
    ) -> Answer {
        if number < self.start || ballot < self.bal_max_seen {
            return Ok(());
        }
        self.check_leader(peer, ballot, out);
        self.fill_up_to(number)?;
        self.agrees_with_committed(number, &batch)?;
        self.vote(peer, number, ballot, batch)?;
        self.refresh_keys(number, &batch);
        out.push(Action {
            kind: Kind::AcceptData,
            slot: number,
            ballot,
            batch,
            ..Action::default()
        });
        Ok(())
    }

    /// 02: "15, strict Accept with another batch for a committed slot, after 5".
    fn agrees_with_committed(&self, number: u64, batch: &Batch) -> Answer {
        let other = |slot: &Slot| slot.is_committed() && slot.batch != *batch;
        let due = self.strict && self.slot(number).is_some_and(other);
        if due { Err(15) } else { Ok(()) }
    }

    fn vote(&mut self, peer: u8, number: u64, ballot: u64, batch: Batch) -> Answer {
        let committed_stays = self.rules.committed_stays;
        let slot = self.present(number);
        if slot.ballot > ballot {
            return Err(6);
        }
        slot.ballot = ballot;
        slot.batch = batch;
        slot.vote = (ballot, batch);
        match &mut slot.following {
            Some(following) => following.source = peer,
            none => *none = Some(Following { source: peer, ..Following::default() }),
        }
        // 02 (d): "Prepare and Accept on a Committed or Executed slot keep its status".
        let keeps_status = committed_stays && slot.is_committed();
        if !keeps_status {
            slot.status = Status::Accepting;
        }
        Ok(())
    }

    /// 01: "AcceptReply commits exactly if self leads, ballot = bal_prepared, status is Accepting,
    /// the slot's ballot is not larger, the sender is new and its bit makes the quorum."
    pub(super) fn accept_reply(
        &mut self,
        peer: u8,
        number: u64,
        ballot: u64,
        out: &mut Vec<Action>,
    ) -> Answer {
        if number < self.start || ballot != self.bal_prepared {
            return Ok(());
        }
        if number >= self.log_end() {
            return Err(4);
        }
        let (leads, largest, quorum) = (self.leads(), self.bal_max_seen, self.quorum());
        let slot = self.present(number);
        if !leads || slot.status != Status::Accepting || ballot < slot.ballot {
            return Ok(());
        }
        if slot.ballot != ballot || largest < ballot {
            return Err(6);
        }
        let Some(leading) = &mut slot.leading else { return Err(6) };
        if leading.accept_acks >> peer & 1 == 1 {
            return Ok(());
        }
        leading.accept_acks |= 1 << peer;
        if leading.accept_acks.count_ones() >= quorum {
            slot.mark_committed(number, out);
        }
        Ok(())
    }
}
