//! PrepareReply, from a member or from the own log.

use super::{Answer, Leading, Replica, Slot, Status};
use crate::action::{ALL, Action, Kind};
use crate::batch::Batch;

#[derive(Clone, Copy)]
pub(super) struct Reply {
    pub(super) peer: u8,
    pub(super) slot: u64,
    pub(super) trigger: u64,
    pub(super) endprep: u64,
    pub(super) ballot: u64,
    pub(super) vote: Option<(u64, Batch)>,
    pub(super) bar: u64,
}

impl Replica {
    pub(super) fn prepare_reply(&mut self, reply: &Reply, out: &mut Vec<Action>) -> Answer {
        if reply.slot < self.start || reply.ballot != self.bal_prep_sent {
            return Ok(());
        }
        // 01: "a PrepareReply with ballot = bal_prep_sent where self does not lead".
        if !self.leads() {
            return Err(4);
        }
        // 02 (c): "A reply with another trigger is ignored, before 6."
        if self.strict && reply.trigger != self.lead_trigger {
            return Ok(());
        }
        if reply.slot < reply.trigger || reply.slot > reply.endprep {
            return Err(6);
        }
        let Some(first) = self.slot(reply.trigger) else { return Err(6) };
        let Some(Leading { endprep: own_endprep, .. }) = first.leading else { return Ok(()) };
        self.hear_accept_bar(reply.peer, reply.bar);
        self.append_up_to(reply, own_endprep, out)?;
        if self.strict { self.hear_strictly(reply, out) } else { self.hear(reply, out) }
    }

    /// 01: "PrepareReply updates the peer accept table before the slot's status is looked at".
    fn hear_accept_bar(&mut self, peer: u8, bar: u64) {
        let old = self.peer_accept[usize::from(peer)].replace(bar);
        if old.is_some_and(|old| bar < old) {
            let mut bars: Vec<u64> = self.peer_accept.iter().copied().flatten().collect();
            bars.sort_unstable();
            let most = bars[self.quorum() as usize - 1];
            self.peer_accept_max = self.peer_accept_max.min(most);
        }
    }

    /// 01: "past the log end it appends slots, and logs them".
    fn append_up_to(&mut self, reply: &Reply, own_endprep: u64, out: &mut Vec<Action>) -> Answer {
        if reply.slot >= self.window_end() {
            return Err(5);
        }
        let ballot = self.bal_prep_sent;
        while self.log_end() <= reply.slot {
            let slot = self.log_end();
            self.slots.push(Slot {
                ballot,
                status: Status::Preparing,
                external: true,
                leading: Some(Leading::of(reply.trigger, own_endprep)),
                ..Slot::default()
            });
            out.push(Action { kind: Kind::PrepareBal, slot, ballot, ..Action::default() });
        }
        Ok(())
    }

    /// The base kind. 01: "a member counts on its reply for its own endprep slot"; "the source
    /// returns first" where the slot is not Preparing.
    fn hear(&mut self, reply: &Reply, out: &mut Vec<Action>) -> Answer {
        if !self.is_asked(reply) {
            return Ok(());
        }
        self.take_vote(reply)?;
        if reply.slot == reply.endprep {
            let counted = self.counted(reply.trigger);
            *counted |= 1 << reply.peer;
            if counted.count_ones() >= self.quorum() {
                self.enter_accept(reply, out)?;
            }
        }
        Ok(())
    }

    /// Whether the slot still waits for votes at this ballot.
    pub(super) fn is_asked(&mut self, reply: &Reply) -> bool {
        let slot = self.present(reply.slot);
        slot.status == Status::Preparing && reply.ballot >= slot.ballot
    }

    /// 01: "a voted value replaces only on a strictly larger ballot".
    pub(super) fn take_vote(&mut self, reply: &Reply) -> Answer {
        let largest = self.bal_max_seen;
        let slot = self.present(reply.slot);
        if slot.ballot != reply.ballot || largest < reply.ballot {
            return Err(6);
        }
        let Some((ballot, batch)) = reply.vote else { return Ok(()) };
        let Some(leading) = &mut slot.leading else { return Err(6) };
        if ballot > leading.prepare_max_bal {
            leading.prepare_max_bal = ballot;
            slot.batch = batch;
            self.refresh_keys(reply.slot, &batch);
        }
        Ok(())
    }

    /// The members counted, which the trigger slot's bookkeeping holds.
    pub(super) fn counted(&mut self, trigger: u64) -> &mut u64 {
        let leading = self.present(trigger).leading.as_mut();
        &mut leading.expect("the trigger slot has bookkeeping").prepare_acks
    }

    /// 01: "At quorum every Preparing slot from trigger on gives AcceptData, then Accept."
    pub(super) fn enter_accept(&mut self, reply: &Reply, out: &mut Vec<Action>) -> Answer {
        let (own_votes, ballot) = (self.rules.own_votes, reply.ballot);
        if self.bal_prepared > ballot {
            return Err(6);
        }
        self.bal_prepared = ballot;
        for number in reply.trigger..self.log_end() {
            let slot = self.present(number);
            if slot.status != Status::Preparing {
                continue;
            }
            slot.status = Status::Accepting;
            let batch = slot.batch;
            // 02 (b): "A leader entering Accept, by quorum or by offer, records the vote as its own."
            if own_votes {
                slot.vote = (ballot, batch);
            }
            give_accept(number, ballot, batch, out);
        }
        Ok(())
    }
}

/// AcceptData, then Accept to all.
pub(super) fn give_accept(slot: u64, ballot: u64, batch: Batch, out: &mut Vec<Action>) {
    let action = Action { slot, ballot, batch, ..Action::default() };
    out.push(Action { kind: Kind::AcceptData, ..action });
    out.push(Action { kind: Kind::Accept, member: ALL, ..action });
}
