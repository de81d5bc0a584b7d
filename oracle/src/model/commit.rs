//! Marking slots committed, and moving commit_bar and exec_bar.

use super::{Answer, Replica, Slot, Status};
use crate::action::{ALL, Action, Kind};

impl Slot {
    /// 02, Wish 5: "Every log action, CommitSlot too (there, the slot's ballot)".
    pub(super) fn mark_committed(&mut self, number: u64, out: &mut Vec<Action>) {
        self.status = Status::Committed;
        let ballot = self.ballot;
        out.push(Action { kind: Kind::CommitSlot, slot: number, ballot, ..Action::default() });
    }
}

impl Replica {
    /// 01: "`advance_commit_bar` needs ballot = bal_max_seen, fills null slots below the told bar,
    /// marks, and stops at the first slot with a smaller ballot or a status below Accepting".
    pub(super) fn commit_notice(&mut self, ballot: u64, bar: u64, out: &mut Vec<Action>) -> Answer {
        if ballot != self.bal_max_seen || bar <= self.commit_bar {
            return Ok(());
        }
        self.fill_up_to(bar - 1)?;
        for number in self.commit_bar..bar {
            let slot = self.present(number);
            if slot.ballot < ballot || slot.status < Status::Accepting {
                break;
            }
            if !slot.is_committed() {
                slot.mark_committed(number, out);
            }
        }
        Ok(())
    }

    /// 01: "commit_bar itself moves on log completion"; "One Execute action per batch".
    pub(super) fn move_commit_bar(&mut self, out: &mut Vec<Action>) {
        while self.commit_bar < self.accept_bar {
            let number = self.commit_bar;
            let slot = self.present(number);
            if !slot.is_committed() {
                break;
            }
            if slot.batch.id == 0 {
                slot.status = Status::Executed;
            } else if slot.status == Status::Committed {
                let batch = slot.batch;
                out.push(Action { kind: Kind::Execute, slot: number, batch, ..Action::default() });
            }
            self.commit_bar += 1;
            self.tell_commit_bar(out);
        }
    }

    /// 01's option "urgent commit notice": a prepared leader tells all at the log end.
    fn tell_commit_bar(&self, out: &mut Vec<Action>) {
        let prepared = self.bal_prepared > 0 && self.bal_prepared == self.bal_max_seen;
        let at_the_end = self.commit_bar == self.log_end();
        if at_the_end && self.leads() && prepared && self.urgent {
            let (ballot, bar) = (self.bal_max_seen, self.commit_bar);
            let kind = Kind::CommitNotice;
            out.push(Action { kind, member: ALL, ballot, bar, ..Action::default() });
        }
    }

    /// 01, "Executed": "ignored below start; a Committed slot becomes Executed, other statuses stay;
    /// then exec_bar moves over Executed slots below commit_bar".
    pub(super) fn executed(&mut self, number: u64) -> Answer {
        if number < self.start {
            return Ok(());
        }
        if number >= self.log_end() {
            return Err(4);
        }
        let slot = self.present(number);
        if slot.status == Status::Committed {
            slot.status = Status::Executed;
        }
        while self.exec_bar < self.commit_bar
            && self.present(self.exec_bar).status == Status::Executed
        {
            self.exec_bar += 1;
        }
        Ok(())
    }
}
