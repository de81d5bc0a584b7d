//! A group in which nothing is made up: every message was sent by its sender to its receiver, every
//! completion is of an entry that the member was given, with the entry's own ballot. Messages may be
//! lost, repeated and overtaken, and completions may come late, never or twice.

use crate::action::{ALL, Action, Kind};
use crate::batch::Batch;
use crate::call::{Call, Entry};
use crate::model;
use crate::session::{Outcome, Session};
use crate::shown::Shown;

/// What happens to a member, whose number comes first. A message and an entry go by kind, slot and
/// ballot; of several such it is the last.
#[derive(Debug, Clone, Copy, PartialEq, Eq)]
pub enum Event {
    /// The leader that it believes in falls silent, or it knows of none.
    StepsUp(usize),
    /// It is offered the batch of this number.
    IsOffered(usize, u64),
    /// Its host has done what it was asked: a log entry, or an execution.
    Finishes(usize, Kind, u64, u64),
    /// It gets the message that the second member sent.
    Hears(usize, usize, Kind, u64, u64),
}

/// A slot marked committed, and the batch that it has.
#[derive(Debug, Clone, Copy, PartialEq, Eq)]
pub struct Mark {
    pub member: usize,
    pub slot: u64,
    pub batch: Batch,
}

/// What plays a member.
pub trait Player {
    fn play(&mut self, call: &Call) -> Outcome;
    fn shown(&self) -> Shown<'_>;
}

impl Player for Session {
    fn play(&mut self, call: &Call) -> Outcome {
        self.call(call)
    }

    fn shown(&self) -> Shown<'_> {
        self.replica().expect("the member was made")
    }
}

impl Player for model::Replica {
    fn play(&mut self, call: &Call) -> Outcome {
        self.call(call)
    }

    fn shown(&self) -> Shown<'_> {
        Shown::Model(self)
    }
}

pub struct Group<P> {
    pub members: Vec<P>,
    /// All that each member has given.
    pub given: Vec<Vec<Action>>,
    pub marks: Vec<Mark>,
    /// Each call with whom it was given to, and its answer.
    pub calls: Vec<(usize, Call, u8)>,
}

impl<P: Player> Group<P> {
    /// Members that are fresh, with numbers from 0 on.
    pub fn of(members: Vec<P>) -> Self {
        let given = vec![Vec::new(); members.len()];
        Group { members, given, marks: Vec::new(), calls: Vec::new() }
    }

    /// The answer; nothing where no such message was sent, or no such entry given.
    pub fn happens(&mut self, event: Event) -> Option<u8> {
        let (to, call) = self.call_of(event)?;
        let outcome = self.members[to].play(&call);
        self.calls.push((to, call, outcome.answer));
        self.given[to].extend(&outcome.actions);
        for mark in outcome.actions.iter().filter(|action| action.kind == Kind::CommitSlot) {
            let accepted = self.entry(to, Kind::AcceptData, mark.slot, mark.ballot);
            let batch = accepted.expect("what is marked was accepted").batch;
            self.marks.push(Mark { member: to, slot: mark.slot, batch });
        }
        Some(outcome.answer)
    }

    fn call_of(&self, event: Event) -> Option<(usize, Call)> {
        match event {
            Event::StepsUp(member) => {
                let shown = self.members[member].shown();
                let source = shown.leader().unwrap_or(shown.id());
                Some((member, Call::Timeout { source }))
            }
            Event::IsOffered(member, id) => {
                Some((member, Call::Offer { batch: Batch::new(id, &[id]) }))
            }
            Event::Finishes(member, kind, slot, ballot) => {
                self.entry(member, kind, slot, ballot)?;
                let size = self.members[member].shown().wal_offset() + ENTRY_SIZE;
                Some((member, finished(kind, slot, ballot, size)?))
            }
            Event::Hears(to, from, kind, slot, ballot) => {
                let sent = self.sent(from, to, kind, slot, ballot)?;
                Some((to, received(from as u8, sent)?))
            }
        }
    }

    fn entry(&self, member: usize, kind: Kind, slot: u64, ballot: u64) -> Option<&Action> {
        let what = (kind, slot, ballot);
        self.given[member].iter().rfind(|given| (given.kind, given.slot, given.ballot) == what)
    }

    /// The message of this kind, slot and ballot, if it was sent to that member.
    pub fn sent(
        &self,
        from: usize,
        to: usize,
        kind: Kind,
        slot: u64,
        ballot: u64,
    ) -> Option<&Action> {
        self.given[from].iter().rfind(|given| {
            (given.kind, given.slot, given.ballot) == (kind, slot, ballot)
                && from != to
                && [ALL, to as u64].contains(&given.member)
        })
    }

    /// The slot of two marks with different batches.
    pub fn two_batches(&self) -> Option<u64> {
        let other = |mark: &&Mark| {
            self.marks.iter().any(|one| one.slot == mark.slot && one.batch != mark.batch)
        };
        self.marks.iter().find(other).map(|mark| mark.slot)
    }

    /// 02, Wish 7: one slot, one batch, and 15 is never given.
    pub fn keeps_wish_7(&self) -> bool {
        self.two_batches().is_none() && self.calls.iter().all(|call| call.2 != 15)
    }
}

/// How much a log grows by an entry.
const ENTRY_SIZE: u64 = 40;

fn finished(kind: Kind, slot: u64, ballot: u64, size: u64) -> Option<Call> {
    let entry = match kind {
        Kind::PrepareBal => Entry::PrepareBal,
        Kind::AcceptData => Entry::AcceptData,
        Kind::CommitSlot => Entry::CommitSlot,
        Kind::Execute => return Some(Call::Executed { slot }),
        _ => return None,
    };
    Some(Call::LogDone { entry, slot, ballot, size })
}

/// The call that a sent message becomes at its receiver.
pub(crate) fn received(from: u8, action: &Action) -> Option<Call> {
    let Action { slot, trigger, endprep, ballot, batch, bar, .. } = *action;
    let peer = from;
    match action.kind {
        Kind::Prepare => Some(Call::Prepare { peer, trigger, ballot }),
        Kind::PrepareReply => {
            let vote = (action.voted_ballot > 0).then_some((action.voted_ballot, batch));
            Some(Call::PrepareReply { peer, slot, trigger, endprep, ballot, vote, bar })
        }
        Kind::Accept => Some(Call::Accept { peer, slot, ballot, batch }),
        Kind::AcceptReply => Some(Call::AcceptReply { peer, slot, ballot }),
        Kind::CommitNotice => Some(Call::CommitNotice { peer, ballot, bar }),
        _ => None,
    }
}
