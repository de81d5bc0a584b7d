//! A timeout: becoming a leader.

use super::{Answer, Leading, Replica, Slot, Status};
use crate::action::{ALL, Action, Kind};

/// The last round has no later ballot in 64 bits.
const LAST_ROUND: u64 = (1 << 56) - 1;

impl Replica {
    /// 01: "Action order: status up, heartbeat, PrepareBal by rising slot, Prepare."
    pub(super) fn step_up(&mut self, source: u8, out: &mut Vec<Action>) -> Answer {
        if self.leader.is_some_and(|leader| leader != source) || self.disallow {
            return Ok(());
        }
        let (trigger, endprep) = self.open_slots();
        if self.bal_max_seen / 256 == LAST_ROUND || trigger < self.exec_bar {
            return Err(8);
        }
        self.fill_up_to(trigger)?;
        let ballot = (self.bal_max_seen / 256 + 1) * 256 + u64::from(self.id) + 1;
        self.leader = Some(self.id);
        self.bal_prepared = 0;
        self.bal_prep_sent = ballot;
        self.bal_max_seen = ballot;
        self.lead_trigger = trigger;
        out.push(Action { kind: Kind::StatusUp, ..Action::default() });
        out.push(Action { kind: Kind::Heartbeat, member: ALL, ..Action::default() });
        for number in self.exec_bar..self.log_end() {
            self.redo(number, Leading::of(trigger, endprep), out);
        }
        self.forget_accept_bars();
        out.push(Action { kind: Kind::Prepare, member: ALL, trigger, ballot, ..Action::default() });
        Ok(())
    }

    /// The first and the last slot not committed; the log end for both if there is none.
    fn open_slots(&self) -> (u64, u64) {
        let open = |slot: &Slot| !slot.is_committed();
        let number =
            |place: Option<usize>| place.map_or(self.log_end(), |place| self.start + place as u64);
        (number(self.slots.iter().position(open)), number(self.slots.iter().rposition(open)))
    }

    /// 01: "Committed slots are kept."
    fn redo(&mut self, number: u64, leading: Leading, out: &mut Vec<Action>) {
        let (ballot, fresh_notes) = (self.bal_prep_sent, self.rules.fresh_notes);
        let slot = self.present(number);
        if slot.status == Status::Executed {
            return;
        }
        slot.external = true;
        if slot.status == Status::Committed {
            return;
        }
        slot.ballot = ballot;
        slot.status = Status::Preparing;
        slot.leading = Some(leading);
        // A strict leader's notes are of this lead; the base kind makes none.
        if fresh_notes {
            slot.noted = 0;
        }
        out.push(Action { kind: Kind::PrepareBal, slot: number, ballot, ..Action::default() });
    }

    /// Every entry that is there goes back to 2^64 - 1.
    fn forget_accept_bars(&mut self) {
        self.peer_accept.iter_mut().flatten().for_each(|bar| *bar = u64::MAX);
        self.peer_accept_max = u64::MAX;
    }
}
