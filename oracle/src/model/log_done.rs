//! Log completions.

use super::prepare_reply::Reply;
use super::{Answer, Replica, Slot, Status};
use crate::action::{Action, Kind};
use crate::call::Entry;

impl Replica {
    pub(super) fn log_done(
        &mut self,
        entry: Entry,
        number: u64,
        ballot: u64,
        size: u64,
        out: &mut Vec<Action>,
    ) -> Answer {
        // 01: "A completion below start changes nothing, not even wal_offset."
        if number < self.start {
            return Ok(());
        }
        if number >= self.log_end() {
            return Err(4);
        }
        if size < self.wal_offset {
            return Err(6);
        }
        self.note_log_place(number, size);
        let speaks = self.may_speak(entry, number, ballot);
        match entry {
            Entry::PrepareBal if speaks => self.prepared(number, out)?,
            Entry::PrepareBal => {}
            Entry::AcceptData => {
                if speaks {
                    self.accepted(number, out)?;
                }
                if number == self.accept_bar {
                    self.move_accept_bar();
                }
            }
            Entry::CommitSlot if number == self.commit_bar => self.move_commit_bar(out),
            Entry::CommitSlot => {}
        }
        Ok(())
    }

    /// 02 (a): "a prepare or accept completion replies or counts only if its ballot is the slot's
    /// ballot, and for an accept entry also the voted ballot; bars move as before".
    fn may_speak(&mut self, entry: Entry, number: u64, ballot: u64) -> bool {
        let rules = self.rules;
        let slot = self.present(number);
        let of_the_slot = ballot == slot.ballot;
        let of_the_vote = ballot == slot.vote.0;
        match entry {
            Entry::PrepareBal => of_the_slot || !rules.prepares_at_the_slots_ballot,
            Entry::AcceptData => {
                (of_the_slot || !rules.accepts_at_the_slots_ballot)
                    && (of_the_vote || !rules.accepts_at_the_votes_ballot)
            }
            Entry::CommitSlot => true,
        }
    }

    /// A slot's place in the log is the smallest size that it was finished at, 0 aside.
    fn note_log_place(&mut self, number: u64, size: u64) {
        let place = self.wal_offset;
        let slot = self.present(number);
        if slot.wal_offset == 0 || slot.wal_offset > place {
            slot.wal_offset = place;
        }
        self.wal_offset = size;
    }

    /// A leader hears itself; a follower answers where it was asked.
    fn prepared(&mut self, number: u64, out: &mut Vec<Action>) -> Answer {
        let Slot { ballot, vote, leading, following, .. } = *self.present(number);
        // 01: "`voted` is sent only if its ballot is above 0."
        let vote = (vote.0 > 0).then_some(vote);
        if self.leads() {
            let Some(own) = leading.filter(|own| number <= own.endprep) else { return Ok(()) };
            let (peer, bar) = (self.id, self.accept_bar);
            let (trigger, endprep) = (own.trigger, own.endprep);
            let reply = Reply { peer, slot: number, trigger, endprep, ballot, vote, bar };
            return self.prepare_reply(&reply, out);
        }
        if let Some(asked) = following {
            let (voted_ballot, batch) = vote.unwrap_or_default();
            out.push(Action {
                kind: Kind::PrepareReply,
                member: asked.source.into(),
                slot: number,
                trigger: asked.trigger,
                endprep: asked.endprep,
                ballot,
                voted_ballot,
                batch,
                bar: self.accept_bar,
            });
        }
        Ok(())
    }

    fn accepted(&mut self, number: u64, out: &mut Vec<Action>) -> Answer {
        let Slot { ballot, following, .. } = *self.present(number);
        if self.leads() {
            return self.accept_reply(self.id, number, ballot, out);
        }
        if let Some(asked) = following {
            let member = asked.source.into();
            let kind = Kind::AcceptReply;
            out.push(Action { kind, member, slot: number, ballot, ..Action::default() });
        }
        Ok(())
    }

    fn move_accept_bar(&mut self) {
        while self.slot(self.accept_bar).is_some_and(|slot| slot.status >= Status::Accepting) {
            self.accept_bar += 1;
        }
    }
}
