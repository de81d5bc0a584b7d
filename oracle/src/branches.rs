//! Branches of the four files, each recognised from a call and the replica before and after it.

use crate::action::{Action, Kind};
use crate::call::{Call, Entry, Known};
use crate::first_value::value_meets_nothing;
use crate::host::Replica;
use crate::host::multipaxos::{Instance, Knowledge, Status};
use crate::rule::OLD_RULE;
use crate::session::Outcome;

/// A call that the source ran to its end.
pub struct Seen<'a> {
    pub call: &'a Call,
    pub before: &'a Replica,
    pub after: &'a Replica,
    pub outcome: &'a Outcome,
}

/// File, branch, and how it is recognised.
pub type Branch = (&'static str, &'static str, fn(&Seen) -> bool);

pub const BRANCHES: &[Branch] = &[
    ("messages", "Prepare below start is ignored", |s| prepare(s, |slot, _| slot < s.start())),
    ("messages", "Prepare below the largest ballot is ignored", |s| {
        prepare(s, |_, ballot| ballot < s.before.bal_max_seen)
    }),
    ("messages", "Prepare at the largest ballot acts again", |s| {
        prepare(s, |_, ballot| ballot == s.before.bal_max_seen) && s.gave(Kind::PrepareBal) > 0
    }),
    ("messages", "Prepare fills null slots below its trigger", |s| {
        prepare(s, |_, _| true) && s.grown() > 1
    }),
    ("messages", "Prepare covers slots past its trigger", |s| {
        prepare(s, |_, _| true) && s.gave(Kind::PrepareBal) > 1
    }),
    ("messages", "Prepare puts a committed slot back", |s| prepare(s, |_, _| true) && s.put_back()),
    (
        "messages",
        "PrepareReply below start is ignored",
        |s| matches!(s.call, Call::PrepareReply { slot, .. } if *slot < s.start()),
    ),
    (
        "messages",
        "PrepareReply of another ballot is ignored",
        |s| matches!(s.call, Call::PrepareReply { ballot, .. } if *ballot != s.before.bal_prep_sent),
    ),
    ("messages", "PrepareReply without bookkeeping at its trigger is ignored", |s| {
        let none = |slot: &Instance| slot.leader_bk.is_none();
        reply(s, |_, trigger, _| s.slot_before(trigger).is_some_and(none))
    }),
    ("messages", "PrepareReply lowers peer_accept_max", |s| {
        reply(s, |_, _, _| true) && s.after.peer_accept_max < s.before.peer_accept_max
    }),
    ("messages", "PrepareReply's equal bar leaves peer_accept_max above its place", |s| {
        let mut bars: Vec<usize> = s.after.peer_accept_bar.values().copied().collect();
        bars.sort_unstable();
        let place = bars.get(usize::from(s.after.quorum_cnt) - 1);
        reply(s, |_, _, _| true)
            && s.before.peer_accept_bar == s.after.peer_accept_bar
            && place.is_some_and(|&bar| bar < s.after.peer_accept_max)
    }),
    ("messages", "PrepareReply appends slots and logs them", |s| {
        reply(s, |_, _, _| true) && s.grown() > 0
    }),
    ("messages", "PrepareReply updates the peer table for a slot past Preparing", |s| {
        let past = |slot: &Instance| slot.status != Status::Preparing;
        reply(s, |slot, _, _| s.slot_before(slot).is_some_and(past))
            && s.before.peer_accept_bar != s.after.peer_accept_bar
    }),
    ("messages", "PrepareReply's larger vote is adopted", |s| {
        with_vote(s) && s.any_slot(|old, new| largest_vote(new) > largest_vote(old))
    }),
    ("messages", "PrepareReply's vote that is not larger is passed by", |s| {
        with_vote(s)
            && s.call_slot(|old, new| {
                old.status == Status::Preparing && largest_vote(new) == largest_vote(old)
            })
    }),
    ("messages", "PrepareReply before its endprep does not count", |s| {
        reply(s, |slot, _, endprep| slot < endprep)
    }),
    ("messages", "PrepareReply counts a member below the quorum", |s| {
        reply(s, |_, _, _| true)
            && s.gave(Kind::Accept) == 0
            && s.any_slot(|old, new| prepare_acks(new) != prepare_acks(old))
    }),
    ("messages", "a quorum of PrepareReplies enters Accept", |s| {
        reply(s, |_, _, _| true) && s.gave(Kind::Accept) > 0
    }),
    ("messages", "a quorum enters Accept for several slots, one with a vote's batch", |s| {
        let voted = |action: &Action| action.kind == Kind::Accept && action.batch.id != 0;
        !matches!(s.call, Call::Offer { .. })
            && s.gave(Kind::Accept) > 1
            && s.outcome.actions.iter().any(voted)
    }),
    ("messages", "a quorum on a later trigger leaves the slots before it", |s| {
        let left = |slot: &Instance| slot.status == Status::Preparing;
        reply(s, |_, _, _| true) && s.gave(Kind::Accept) > 0 && s.after.insts.iter().any(left)
    }),
    ("messages", "Accept below start is ignored", |s| accept(s, |slot, _| slot < s.start())),
    ("messages", "Accept below the largest ballot is ignored", |s| {
        accept(s, |_, ballot| ballot < s.before.bal_max_seen)
    }),
    ("messages", "Accept fills null slots below its own", |s| {
        accept(s, |_, _| true) && s.grown() > 1
    }),
    ("messages", "Accept keeps a Prepare's bookkeeping and changes its source", |s| {
        let known = |old: &Instance, new: &Instance| {
            let sources = (old.replica_bk.as_ref(), new.replica_bk.as_ref());
            matches!(sources, (Some(old), Some(new)) if old.source != new.source)
        };
        accept(s, |_, _| true) && s.call_slot(known)
    }),
    ("messages", "Accept makes a slot's bookkeeping", |s| {
        accept(s, |_, _| true)
            && s.call_slot(|old, new| old.replica_bk.is_none() && new.replica_bk.is_some())
    }),
    ("messages", "Accept puts a committed slot back", |s| accept(s, |_, _| true) && s.put_back()),
    (
        "messages",
        "AcceptReply of another ballot is ignored",
        |s| matches!(s.call, Call::AcceptReply { ballot, .. } if *ballot != s.before.bal_prepared),
    ),
    ("messages", "AcceptReply where self does not lead is ignored", |s| {
        accept_reply(s, |_| true) && !s.before.is_leader()
    }),
    ("messages", "AcceptReply for a slot not Accepting is ignored", |s| {
        accept_reply(s, |slot| slot.status != Status::Accepting) && s.before.is_leader()
    }),
    ("messages", "AcceptReply repeated is ignored", |s| {
        accept_reply(s, |slot| slot.status == Status::Accepting)
            && s.before.is_leader()
            && s.call_slot(|old, new| old == new)
    }),
    ("messages", "AcceptReply counts below the quorum", |s| {
        accept_reply(s, |_| true)
            && s.gave(Kind::CommitSlot) == 0
            && s.call_slot(|old, new| old != new)
    }),
    ("messages", "AcceptReply makes the quorum and commits", |s| {
        accept_reply(s, |_| true) && s.gave(Kind::CommitSlot) == 1
    }),
    ("leadership", "a larger ballot deposes a leader", |s| s.gave(Kind::StatusDown) == 1),
    ("leadership", "step-up ignored, another leads", |s| {
        matches!(s.call, Call::Timeout { source }
            if s.before.leader.is_some_and(|leader| leader != *source))
    }),
    ("leadership", "step-up ignored, disallowed", |s| {
        timeout(s) && s.before.config.disallow_step_up
    }),
    ("leadership", "step-up by a member that knew another leader", |s| {
        s.gave(Kind::StatusUp) == 1 && s.before.leader.is_some() && !s.before.is_leader()
    }),
    ("leadership", "step-up by the leader itself", |s| {
        s.gave(Kind::StatusUp) == 1 && s.before.is_leader()
    }),
    ("leadership", "step-up appends a null slot", |s| timeout(s) && s.grown() == 1),
    ("leadership", "step-up redoes several slots", |s| timeout(s) && s.gave(Kind::PrepareBal) > 1),
    ("leadership", "step-up keeps a committed slot and marks it external", |s| {
        timeout(s)
            && s.any_slot(|old, new| {
                old.status == Status::Committed && !old.external && new.external
            })
    }),
    ("leadership", "step-up passes an executed slot above exec_bar", |s| {
        let first = s.before.exec_bar - s.before.start_slot;
        s.gave(Kind::StatusUp) == 1
            && s.before.insts[first..].iter().any(|slot| slot.status == Status::Executed)
    }),
    (
        "leadership",
        "CommitNotice of another ballot is ignored",
        |s| matches!(s.call, Call::CommitNotice { ballot, .. } if *ballot != s.before.bal_max_seen),
    ),
    ("leadership", "CommitNotice up to the own bar changes nothing", |s| {
        notice(s, |bar| bar <= s.before.commit_bar)
    }),
    ("leadership", "CommitNotice fills null slots", |s| notice(s, |_| true) && s.grown() > 0),
    ("leadership", "CommitNotice stops at a slot accepted at a smaller ballot", |s| {
        stops(s, |slot| slot.bal < s.before.bal_max_seen && slot.status == Status::Accepting)
    }),
    ("leadership", "CommitNotice stops at a slot still Preparing", |s| {
        stops(s, |slot| slot.bal == s.before.bal_max_seen && slot.status == Status::Preparing)
    }),
    ("leadership", "CommitNotice passes a slot already committed", |s| {
        let told = notice(s, |bar| bar > s.before.commit_bar);
        let next = s.before.insts.get(s.before.commit_bar - s.before.start_slot);
        told && next.is_some_and(|slot| {
            slot.status >= Status::Committed && slot.bal == s.before.bal_max_seen
        })
    }),
    ("leadership", "CommitNotice marks several slots", |s| {
        notice(s, |_| true) && s.gave(Kind::CommitSlot) > 1
    }),
    (
        "durability",
        "a completion below start changes nothing",
        |s| matches!(s.call, Call::LogDone { slot, .. } if *slot < s.start()),
    ),
    ("durability", "a completion sets its slot's log place", |s| {
        matches!(s.call, Call::LogDone { .. })
            && s.call_slot(|old, new| old.wal_offset == 0 && new.wal_offset > 0)
    }),
    ("durability", "a leader's own PrepareBal counts as its reply", |s| {
        done(s, Entry::PrepareBal)
            && s.before.peer_accept_bar.get(&s.before.id)
                != s.after.peer_accept_bar.get(&s.after.id)
    }),
    ("durability", "a leader's PrepareBal past its endprep is passed by", |s| {
        let past = |slot: usize, own: &Instance| {
            own.leader_bk.as_ref().is_some_and(|leading| slot > leading.endprep_slot)
        };
        done(s, Entry::PrepareBal)
            && s.before.is_leader()
            && s.number()
                .is_some_and(|slot| s.slot_before(slot).is_some_and(|own| past(slot as usize, own)))
    }),
    ("durability", "a follower answers a Prepare with its vote", |s| {
        let voted = |action: &Action| action.voted_ballot > 0;
        s.gave(Kind::PrepareReply) == 1 && s.outcome.actions.iter().any(voted)
    }),
    ("durability", "a follower answers a Prepare without a vote", |s| {
        let voted = |action: &Action| action.voted_ballot > 0;
        s.gave(Kind::PrepareReply) == 1 && !s.outcome.actions.iter().any(voted)
    }),
    ("durability", "a follower's vote at the smallest ballot is sent", |s| {
        s.outcome.actions.iter().any(|action| action.voted_ballot == 1)
    }),
    ("durability", "a follower without bookkeeping answers nothing", |s| {
        done(s, Entry::PrepareBal)
            && !s.before.is_leader()
            && s.call_slot(|old, _| old.replica_bk.is_none())
    }),
    ("durability", "a leader's own AcceptData commits", |s| {
        done(s, Entry::AcceptData) && s.gave(Kind::CommitSlot) == 1
    }),
    ("durability", "a follower answers an Accept", |s| s.gave(Kind::AcceptReply) == 1),
    ("durability", "accept_bar moves over several slots", |s| {
        s.after.accept_bar > s.before.accept_bar + 1
    }),
    ("durability", "accept_bar stays at a slot put back", |s| {
        done(s, Entry::AcceptData)
            && s.number() == Some(s.before.accept_bar as u64)
            && s.after.accept_bar == s.before.accept_bar
    }),
    ("durability", "a commit completion out of turn moves nothing", |s| {
        done(s, Entry::CommitSlot) && s.number() != Some(s.before.commit_bar as u64)
    }),
    ("durability", "commit_bar moves over several slots", |s| {
        s.after.commit_bar > s.before.commit_bar + 1
    }),
    ("durability", "an empty batch is executed at once", |s| {
        done(s, Entry::CommitSlot)
            && s.any_slot(|old, new| {
                old.status == Status::Committed && new.status == Status::Executed
            })
    }),
    ("durability", "a committed batch is given to the state machine", |s| {
        s.gave(Kind::Execute) > 0
    }),
    ("durability", "commit_bar passes a batch executed before", |s| {
        let passed = s.before.commit_bar - s.before.start_slot;
        let to = s.after.commit_bar - s.after.start_slot;
        let executed = |slot: &Instance| slot.status == Status::Executed && !slot.reqs.is_empty();
        s.before.insts.get(passed..to).is_some_and(|slots| slots.iter().any(executed))
    }),
    ("durability", "a leader tells its commit bar at the log end", |s| {
        s.gave(Kind::CommitNotice) == 1
    }),
    ("durability", "a leader at the log end without the option tells nothing", |s| {
        done(s, Entry::CommitSlot)
            && s.before.is_leader()
            && s.before.bal_prepared > 0
            && s.after.commit_bar > s.before.commit_bar
            && s.after.commit_bar == s.after.log_end()
            && s.gave(Kind::CommitNotice) == 0
    }),
    ("quorumread", "a key's highest slot rises", |s| {
        s.before.highest_slot.iter().any(|(key, old)| s.after.highest_slot[key] > *old)
    }),
    ("quorumread", "a key keeps its higher slot", |s| {
        accept(s, |slot, ballot| {
            let lower = |key: &u64| {
                let held = s.before.highest_slot.get(&key.to_string());
                held.is_some_and(|held| *held as u64 > slot)
            };
            let keys =
                if let Call::Accept { batch, .. } = s.call { batch.keys } else { return false };
            slot >= s.start()
                && ballot >= s.before.bal_max_seen
                && keys.as_slice().iter().any(lower)
        })
    }),
    ("quorumread", "a reply to an unknown read is ignored", |s| {
        read_reply(s, |_, _| true) && held(s).is_none()
    }),
    ("quorumread", "a leader's reply answers at once", |s| {
        matches!(s.call, Call::ReadReply { from_leader: true, .. }) && s.gave(Kind::ReadAnswer) > 0
    }),
    ("quorumread", "a leader's reply of another length answers for both lists' keys", |s| {
        matches!(s.call, Call::ReadReply { from_leader: true, known, .. }
            if held(s).is_some_and(|held| held.len() != known.as_slice().len()))
    }),
    ("quorumread", "a member already acknowledged is ignored", |s| {
        let Call::ReadReply { peer, read, from_leader: false, .. } = *s.call else { return false };
        let open = s.before.quorum_reads.get(&Replica::read_name(read));
        open.is_some_and(|open| open.rq_acks.get(peer) == Ok(true))
    }),
    ("quorumread", "slot alone over nothing is stored", |s| {
        read_reply(s, |known, held| matches!((known, held), (Known::Slot(_), None)))
    }),
    ("quorumread", "slot alone over a smaller slot is stored", |s| {
        read_reply(
            s,
            |known, held| matches!((known, held), (Known::Slot(new), Some((old, _))) if *new > *old as u64),
        )
    }),
    ("quorumread", "slot alone over a slot not smaller is passed by", |s| {
        read_reply(
            s,
            |known, held| matches!((known, held), (Known::Slot(new), Some((old, _))) if *new <= *old as u64),
        )
    }),
    (
        "quorumread",
        if OLD_RULE { "value over nothing is dropped" } else { "value over nothing is stored" },
        |s| value_meets_nothing(s.before, s.call),
    ),
    ("quorumread", "value over a slot alone not larger is stored", |s| {
        read_reply(
            s,
            |known, held| matches!((known, held), (Known::Value(new, _), Some((old, None))) if *new >= *old as u64),
        )
    }),
    ("quorumread", "value over a larger slot alone is passed by", |s| {
        read_reply(
            s,
            |known, held| matches!((known, held), (Known::Value(new, _), Some((old, None))) if *new < *old as u64),
        )
    }),
    ("quorumread", "value over a value of a smaller slot is stored", |s| {
        read_reply(s, |known, held| {
            matches!((known, held),
                (Known::Value(new, _), Some((old, Some(_)))) if *new > *old as u64)
        })
    }),
    ("quorumread", "the same value at the same slot", |s| {
        s.outcome.answer == 0
            && read_reply(s, |known, held| {
                matches!((known, held),
                (Known::Value(new, _), Some((old, Some(_)))) if *new == *old as u64)
            })
    }),
    ("quorumread", "another value at the same slot is a conflict", |s| s.outcome.answer == 12),
    ("quorumread", "a quorum answers not found", |s| quorum_answer(s, 0)),
    ("quorumread", "a quorum answers retry", |s| quorum_answer(s, 1)),
    ("quorumread", "a quorum answers with the value", |s| quorum_answer(s, 2)),
];

impl Seen<'_> {
    fn start(&self) -> u64 {
        self.before.start_slot as u64
    }

    fn gave(&self, kind: Kind) -> usize {
        self.outcome.actions.iter().filter(|action| action.kind == kind).count()
    }

    /// Slots that the call added.
    fn grown(&self) -> usize {
        self.after.insts.len() - self.before.insts.len()
    }

    fn slot_before(&self, slot: u64) -> Option<&Instance> {
        let place = slot.checked_sub(self.start())?;
        self.before.insts.get(place as usize)
    }

    /// The slot that the call names.
    fn number(&self) -> Option<u64> {
        match *self.call {
            Call::PrepareReply { slot, .. }
            | Call::Accept { slot, .. }
            | Call::AcceptReply { slot, .. }
            | Call::LogDone { slot, .. }
            | Call::Executed { slot } => Some(slot),
            _ => None,
        }
    }

    /// The named slot before and after; a slot that was not there is no case.
    fn call_slot(&self, test: impl Fn(&Instance, &Instance) -> bool) -> bool {
        let Some(old) = self.number().and_then(|slot| self.slot_before(slot)) else {
            return false;
        };
        let place = self.number().unwrap_or(0) - self.start();
        test(old, &self.after.insts[place as usize])
    }

    fn any_slot(&self, test: impl Fn(&Instance, &Instance) -> bool) -> bool {
        self.before.insts.iter().zip(&self.after.insts).any(|(old, new)| test(old, new))
    }

    fn put_back(&self) -> bool {
        self.any_slot(|old, new| old.status >= Status::Committed && new.status < Status::Committed)
    }
}

fn prepare(s: &Seen, test: impl Fn(u64, u64) -> bool) -> bool {
    matches!(*s.call, Call::Prepare { trigger, ballot, .. } if test(trigger, ballot))
}

/// A PrepareReply at the ballot that a leader waits for: slot, trigger, endprep.
fn reply(s: &Seen, test: impl Fn(u64, u64, u64) -> bool) -> bool {
    matches!(*s.call, Call::PrepareReply { slot, trigger, endprep, ballot, .. }
        if ballot == s.before.bal_prep_sent && slot >= s.start() && test(slot, trigger, endprep))
}

fn with_vote(s: &Seen) -> bool {
    reply(s, |_, _, _| matches!(s.call, Call::PrepareReply { vote: Some(_), .. }))
}

fn largest_vote(slot: &Instance) -> u64 {
    slot.leader_bk.as_ref().map_or(0, |leading| leading.prepare_max_bal)
}

fn prepare_acks(slot: &Instance) -> u64 {
    slot.leader_bk.as_ref().map_or(0, |leading| leading.prepare_acks.mask())
}

fn accept(s: &Seen, test: impl Fn(u64, u64) -> bool) -> bool {
    matches!(*s.call, Call::Accept { slot, ballot, .. } if test(slot, ballot))
}

/// An AcceptReply at the prepared ballot for a present slot.
fn accept_reply(s: &Seen, test: impl Fn(&Instance) -> bool) -> bool {
    matches!(*s.call, Call::AcceptReply { slot, ballot, .. }
        if ballot == s.before.bal_prepared && s.slot_before(slot).is_some_and(&test))
}

fn timeout(s: &Seen) -> bool {
    matches!(s.call, Call::Timeout { .. })
}

fn notice(s: &Seen, test: impl Fn(usize) -> bool) -> bool {
    matches!(*s.call, Call::CommitNotice { ballot, bar, .. }
        if ballot == s.before.bal_max_seen && test(bar as usize))
}

/// The first told slot that is not marked afterwards passes the test.
fn stops(s: &Seen, test: impl Fn(&Instance) -> bool) -> bool {
    let from = s.before.commit_bar;
    let open = |bar: usize| {
        (from..bar)
            .map(|slot| &s.after.insts[slot - s.after.start_slot])
            .find(|slot| slot.bal < s.before.bal_max_seen || slot.status < Status::Accepting)
            .is_some_and(&test)
    };
    notice(s, |bar| bar > from && open(bar))
}

fn done(s: &Seen, entry: Entry) -> bool {
    matches!(*s.call, Call::LogDone { entry: of, slot, .. } if of == entry && slot >= s.start())
}

fn held<'a>(s: &Seen<'a>) -> Option<&'a Vec<Knowledge>> {
    let Call::ReadReply { read, .. } = s.call else { return None };
    s.before.quorum_reads.get(&Replica::read_name(*read)).map(|open| &open.max_replies)
}

/// A reply that is merged into an open read, with some key's new and held knowledge as tested.
fn read_reply(s: &Seen, test: impl Fn(&Known, &Knowledge) -> bool) -> bool {
    let Call::ReadReply { known, peer, read, from_leader: false } = s.call else { return false };
    match s.before.quorum_reads.get(&Replica::read_name(*read)) {
        None => test(&Known::Nothing, &None),
        Some(open) => {
            let mut pairs = known.as_slice().iter().zip(&open.max_replies);
            open.rq_acks.get(*peer) == Ok(false) && pairs.any(|(new, old)| test(new, old))
        }
    }
}

fn quorum_answer(s: &Seen, tag: u64) -> bool {
    let answers = |action: &Action| action.kind == Kind::ReadAnswer && action.endprep == tag;
    matches!(s.call, Call::ReadReply { from_leader: false, .. })
        && s.outcome.actions.iter().any(answers)
}
