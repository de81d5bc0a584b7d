//! Prepare, and what a larger ballot does.

use super::{Answer, Following, Replica, Status};
use crate::action::{Action, Kind};

impl Replica {
    /// 01: "Prepare covers trigger to the larger of trigger and the last non-null slot".
    pub(super) fn prepare(
        &mut self,
        peer: u8,
        trigger: u64,
        ballot: u64,
        out: &mut Vec<Action>,
    ) -> Answer {
        if trigger < self.start || ballot < self.bal_max_seen {
            return Ok(());
        }
        self.check_leader(peer, ballot, out);
        self.fill_up_to(trigger)?;
        let endprep = self.last_non_null().unwrap_or(self.start).max(trigger);
        for number in trigger..=endprep {
            self.promise(number, ballot, Following { source: peer, trigger, endprep })?;
            out.push(Action { kind: Kind::PrepareBal, slot: number, ballot, ..Action::default() });
        }
        Ok(())
    }

    fn promise(&mut self, number: u64, ballot: u64, following: Following) -> Answer {
        let committed_stays = self.rules.committed_stays;
        let slot = self.present(number);
        if slot.ballot > ballot {
            return Err(6);
        }
        slot.ballot = ballot;
        slot.following = Some(following);
        // 02 (d): "Prepare and Accept on a Committed or Executed slot keep its status".
        let keeps_status = committed_stays && slot.is_committed();
        if !keeps_status {
            slot.status = Status::Preparing;
        }
        Ok(())
    }

    /// 01: "`check_leader` acts only on a larger ballot; a leader first reports that it is none."
    pub(super) fn check_leader(&mut self, peer: u8, ballot: u64, out: &mut Vec<Action>) {
        if ballot > self.bal_max_seen {
            if self.leads() {
                out.push(Action { kind: Kind::StatusDown, ..Action::default() });
            }
            self.leader = Some(peer);
            self.bal_max_seen = ballot;
        }
    }

    fn last_non_null(&self) -> Option<u64> {
        let place = self.slots.iter().rposition(|slot| slot.status != Status::Null)?;
        Some(self.start + place as u64)
    }
}
