//! Branches of the strict rules (02, Wish 6), each recognised from a call and the record before and
//! after it.

use super::{Leading, Replica, Slot, Status};
use crate::action::{Action, Kind};
use crate::call::{Call, Entry};
use crate::session::Outcome;

/// A call that a strict replica was given.
pub struct Seen<'a> {
    pub call: &'a Call,
    pub before: &'a Replica,
    pub after: &'a Replica,
    pub outcome: &'a Outcome,
}

/// A branch, and how it is recognised.
pub type Branch = (&'static str, fn(&Seen) -> bool);

pub const STRICT_BRANCHES: &[Branch] = &[
    ("(a) a prepare completion of an older ballot says nothing", |s| {
        done(s, Entry::PrepareBal, |ballot, slot| ballot < slot.ballot)
    }),
    ("(a) a prepare completion of the slot's ballot is answered", |s| {
        done(s, Entry::PrepareBal, |_, _| true) && s.gave(Kind::PrepareReply) == 1
    }),
    ("(a) an accept completion of an older ballot says nothing", |s| {
        done(s, Entry::AcceptData, |ballot, slot| ballot < slot.ballot)
    }),
    (
        "(a) an accept completion of the vote's ballot, a newer Prepare having come, says nothing",
        |s| {
            done(s, Entry::AcceptData, |ballot, slot| ballot == slot.vote.0 && ballot < slot.ballot)
        },
    ),
    (
        "(a) an accept completion of the slot's ballot, the vote's being another, says nothing",
        |s| {
            done(s, Entry::AcceptData, |ballot, slot| {
                ballot == slot.ballot && ballot != slot.vote.0
            })
        },
    ),
    ("(a) accept_bar moves at a completion that says nothing", |s| {
        done(s, Entry::AcceptData, |ballot, slot| ballot < slot.ballot)
            && s.after.accept_bar > s.before.accept_bar
    }),
    ("(a) an accept completion of the slot's and the vote's ballot is answered", |s| {
        done(s, Entry::AcceptData, |_, _| true) && s.gave(Kind::AcceptReply) == 1
    }),
    ("(a) an accept completion of the slot's and the vote's ballot counts at the leader", |s| {
        done(s, Entry::AcceptData, |_, _| true) && s.own_slot(|old, new| acks(old) != acks(new))
    }),
    ("(b) a quorum replaces the leader's older vote", |s| {
        s.is_a_reply() && s.any_slot(|old, new| old.vote.0 > 0 && new.vote.0 > old.vote.0)
    }),
    ("(b) an offer records the leader's vote", |s| {
        matches!(s.call, Call::Offer { .. })
            && s.after.slots.last().is_some_and(|slot| slot.vote == (slot.ballot, slot.batch))
            && s.gave(Kind::Accept) == 1
    }),
    ("(c) a reply is noted while Preparing", |s| noted(s, |status| status == Status::Preparing)),
    ("(c) a reply is noted while Accepting", |s| noted(s, |status| status == Status::Accepting)),
    ("(c) a reply is noted at a committed slot", |s| {
        noted(s, |status| status >= Status::Committed)
    }),
    ("(c) a member counts on its endprep reply", |s| {
        newly_counted(s, |reply| reply.slot == reply.endprep)
    }),
    ("(c) a member counts on a reply before its endprep", |s| {
        newly_counted(s, |reply| reply.slot < reply.endprep)
    }),
    ("(c) a member counts on a reply for a slot past Preparing", |s| {
        let past = |slot: &Slot| slot.status > Status::Preparing;
        newly_counted(s, |reply| s.before.slot(reply.slot).is_some_and(past))
    }),
    ("(c) a member with a shorter log than the leader's counts", |s| {
        newly_counted(s, |reply| reply.endprep < own_endprep(s))
    }),
    ("(c) a member with a longer log than the leader's counts", |s| {
        newly_counted(s, |reply| reply.endprep > own_endprep(s))
    }),
    ("(c) a member does not count yet, for a note is missing", |s| {
        heard(s, |reply| reply.endprep < s.after.log_end() && !s.counts(reply.peer))
    }),
    ("(c) a member does not count yet, for slot e does not exist", |s| {
        heard(s, |reply| reply.endprep >= s.after.log_end() && !s.counts(reply.peer))
    }),
    ("(c) a member does not count yet, for slot e is the log end", |s| {
        heard(s, |reply| reply.endprep == s.after.log_end() && !s.counts(reply.peer))
    }),
    ("(c) a reply with another trigger is ignored", |s| {
        at_the_leader(s, |reply| reply.trigger != s.before.lead_trigger)
    }),
    ("(c) a reply with another trigger is ignored where it were 6", |s| {
        at_the_leader(s, |reply| {
            let outside = reply.slot < reply.trigger || reply.slot > reply.endprep;
            reply.trigger != s.before.lead_trigger && outside
        })
    }),
    ("(c) self counts by its own completion", |s| {
        done(s, Entry::PrepareBal, |_, _| true)
            && !s.counted_before(s.before.id)
            && s.counts(s.after.id)
    }),
    ("(c) self does not count yet, for an own note is missing", |s| {
        done(s, Entry::PrepareBal, |_, _| true)
            && !s.counts(s.after.id)
            && s.own_slot(|old, new| old.noted != new.noted)
    }),
    ("(c) the leader's completion past its endprep does nothing", |s| {
        let past = |slot: u64| {
            let leading = s.before.slot(slot).and_then(|slot| slot.leading);
            leading.is_some_and(|own| slot > own.endprep)
        };
        done(s, Entry::PrepareBal, |ballot, slot| ballot == slot.ballot)
            && s.before.leads()
            && s.number().is_some_and(past)
    }),
    ("(c) a first quorum enters Accept", |s| {
        s.is_a_reply() && s.before.bal_prepared == 0 && s.after.bal_prepared > 0
    }),
    ("(c) slots appended since the quorum enter by a member newly counted", |s| {
        newly_counted(s, |_| s.before.bal_prepared > 0 && s.gave(Kind::Accept) > 0)
    }),
    ("(c) slots appended since the quorum enter by a member counted before", |s| {
        heard(s, |reply| s.counted_before(reply.peer) && s.gave(Kind::Accept) > 0)
    }),
    ("(c) a counted member's reply at quorum enters nothing", |s| {
        heard(s, |reply| {
            s.counts(reply.peer) && s.after.bal_prepared > 0 && s.gave(Kind::Accept) == 0
        })
    }),
    ("(c) a slot that no other member spoke of enters", |s| {
        let own = 1 << s.after.id;
        s.is_a_reply() && s.entered().any(|slot| slot.noted & !own == 0)
    }),
    ("(c) a vote is taken from a member that does not count", |s| {
        heard(s, |reply| !s.counts(reply.peer))
            && s.own_slot(|old, new| largest_vote(new) > largest_vote(old))
    }),
    ("(c) a step-up clears notes", |s| {
        timeout(s) && s.any_slot(|old, new| old.noted != 0 && new.noted == 0)
    }),
    ("(c) a step-up keeps the notes of a committed slot", |s| {
        timeout(s) && s.any_slot(|old, new| old.noted != 0 && new.is_committed())
    }),
    ("(c) a step-up has another trigger than the one before", |s| {
        timeout(s) && s.before.lead_trigger != s.after.lead_trigger
    }),
    ("(d) a Prepare keeps Committed", |s| prepare(s) && s.keeps(Status::Committed)),
    ("(d) a Prepare keeps Executed", |s| prepare(s) && s.keeps(Status::Executed)),
    ("(d) an Accept keeps Committed", |s| accepted_at(s, Status::Committed)),
    ("(d) an Accept keeps Executed", |s| accepted_at(s, Status::Executed)),
    ("(d) an Accept of a new ballot keeps a committed slot", |s| {
        let committed = accepted_at(s, Status::Committed) || accepted_at(s, Status::Executed);
        committed && s.any_slot(|old, new| old.ballot != new.ballot)
    }),
    ("15 for a Committed slot", |s| refused_15(s, Status::Committed)),
    ("15 for an Executed slot", |s| refused_15(s, Status::Executed)),
    ("15 for the same id with other keys", |s| {
        let Call::Accept { slot, batch, .. } = *s.call else { return false };
        let same_id = |slot: &Slot| slot.batch.id == batch.id;
        s.outcome.answer == 15 && s.before.slot(slot).is_some_and(same_id)
    }),
    ("an old ballot's Accept of another batch for a committed slot is ignored", |s| {
        let Call::Accept { slot, ballot, batch, .. } = *s.call else { return false };
        let other = |slot: &Slot| slot.is_committed() && slot.batch != batch;
        s.outcome.answer == 0
            && ballot < s.before.bal_max_seen
            && s.before.slot(slot).is_some_and(other)
    }),
];

/// A PrepareReply, as it came.
struct Reply {
    peer: u8,
    slot: u64,
    trigger: u64,
    endprep: u64,
}

impl Seen<'_> {
    fn gave(&self, kind: Kind) -> usize {
        self.outcome.actions.iter().filter(|action| action.kind == kind).count()
    }

    fn is_a_reply(&self) -> bool {
        matches!(
            self.call,
            Call::PrepareReply { .. } | Call::LogDone { entry: Entry::PrepareBal, .. }
        )
    }

    fn number(&self) -> Option<u64> {
        match *self.call {
            Call::PrepareReply { slot, .. } | Call::LogDone { slot, .. } => Some(slot),
            _ => None,
        }
    }

    /// The named slot before and after; one that was not there is no case.
    fn own_slot(&self, test: impl Fn(&Slot, &Slot) -> bool) -> bool {
        let pair = |number| Some((self.before.slot(number)?, self.after.slot(number)?));
        self.number().and_then(pair).is_some_and(|(old, new)| test(old, new))
    }

    fn any_slot(&self, test: impl Fn(&Slot, &Slot) -> bool) -> bool {
        self.before.slots.iter().zip(&self.after.slots).any(|(old, new)| test(old, new))
    }

    /// A slot of this status that gets another ballot and stays.
    fn keeps(&self, status: Status) -> bool {
        self.any_slot(|old, new| {
            old.status == status && new.status == status && old.ballot != new.ballot
        })
    }

    /// The slots that were given an Accept.
    fn entered(&self) -> impl Iterator<Item = &Slot> {
        let accepts = self.outcome.actions.iter().filter(|given| given.kind == Kind::Accept);
        accepts.filter_map(|given: &Action| self.after.slot(given.slot))
    }

    fn counts(&self, member: u8) -> bool {
        counted(self.after) >> member & 1 == 1
    }

    fn counted_before(&self, member: u8) -> bool {
        counted(self.before) >> member & 1 == 1
    }
}

/// The members counted in this lead.
fn counted(replica: &Replica) -> u64 {
    replica
        .slot(replica.lead_trigger)
        .and_then(|slot| slot.leading)
        .map_or(0, |own| own.prepare_acks)
}

fn own_endprep(s: &Seen) -> u64 {
    let first = s.before.slot(s.before.lead_trigger).and_then(|slot| slot.leading);
    first.map_or(0, |own| own.endprep)
}

fn largest_vote(slot: &Slot) -> u64 {
    slot.leading.map_or(0, |own| own.prepare_max_bal)
}

fn acks(slot: &Slot) -> u64 {
    slot.leading.map_or(0, |own: Leading| own.accept_acks)
}

/// A completion that is done: its ballot, and its slot before.
fn done(s: &Seen, wanted: Entry, test: impl Fn(u64, &Slot) -> bool) -> bool {
    let Call::LogDone { entry, slot, ballot, .. } = *s.call else { return false };
    let fits = |slot: &Slot| test(ballot, slot);
    s.outcome.answer == 0 && entry == wanted && s.before.slot(slot).is_some_and(fits)
}

/// A member's reply at bal_prep_sent to the leader that waits for it, not refused.
fn at_the_leader(s: &Seen, test: impl Fn(&Reply) -> bool) -> bool {
    let Call::PrepareReply { peer, slot, trigger, endprep, ballot, .. } = *s.call else {
        return false;
    };
    s.outcome.answer == 0
        && s.before.leads()
        && ballot == s.before.bal_prep_sent
        && slot >= s.before.start
        && test(&Reply { peer, slot, trigger, endprep })
}

/// The same with the leader's own trigger.
fn heard(s: &Seen, test: impl Fn(&Reply) -> bool) -> bool {
    at_the_leader(s, |reply| reply.trigger == s.before.lead_trigger && test(reply))
}

fn noted(s: &Seen, test: impl Fn(Status) -> bool) -> bool {
    s.is_a_reply() && s.own_slot(|old, new| old.noted != new.noted && test(old.status))
}

fn newly_counted(s: &Seen, test: impl Fn(&Reply) -> bool) -> bool {
    heard(s, |reply| !s.counted_before(reply.peer) && s.counts(reply.peer) && test(reply))
}

fn timeout(s: &Seen) -> bool {
    matches!(s.call, Call::Timeout { .. }) && s.gave(Kind::StatusUp) == 1
}

fn prepare(s: &Seen) -> bool {
    matches!(s.call, Call::Prepare { .. })
}

/// An Accept that is taken for a slot of this status, which it keeps.
fn accepted_at(s: &Seen, status: Status) -> bool {
    let Call::Accept { slot, .. } = *s.call else { return false };
    let stays = |replica: &Replica| replica.slot(slot).is_some_and(|slot| slot.status == status);
    s.gave(Kind::AcceptData) == 1 && stays(s.before) && stays(s.after)
}

fn refused_15(s: &Seen, status: Status) -> bool {
    let Call::Accept { slot, .. } = *s.call else { return false };
    s.outcome.answer == 15 && s.before.slot(slot).is_some_and(|slot| slot.status == status)
}
