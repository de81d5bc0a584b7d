//! 02, Wish 7: "A run of three base replicas that breaks it goes into the tests." The run, and what
//! the same three make of it as strict replicas.

use crate::action::Kind::*;
use crate::call::Call;
use crate::honest::{Event, Event::*, Group};
use crate::session::Session;

/// Base members mark slot 1 with two batches. The late answer, member 1's first of the fourth part,
/// is one that a strict member 0 does not send: there it does not happen.
pub const TWO_BATCHES: [Event; 26] = [
    // Member 0 leads at 257 by member 2's reply; batch 7 is offered, and its Accepts are lost.
    StepsUp(0),
    Finishes(0, PrepareBal, 0, 257),
    Hears(2, 0, Prepare, 0, 257),
    Finishes(2, PrepareBal, 0, 257),
    Hears(0, 2, PrepareReply, 0, 257),
    IsOffered(0, 7),
    // Member 1 leads at 258 by member 2's reply; batch 8 is offered.
    StepsUp(1),
    Finishes(1, PrepareBal, 0, 258),
    Hears(2, 1, Prepare, 0, 258),
    Finishes(2, PrepareBal, 0, 258),
    Hears(1, 2, PrepareReply, 0, 258),
    IsOffered(1, 8),
    // Member 0 gets member 1's Prepare, and only now its own entry of batch 7 is finished: it was
    // written at 257, and slot 1 is at 258.
    Hears(0, 1, Prepare, 0, 258),
    Finishes(0, AcceptData, 1, 257),
    // The late answer. With it member 1 marks slot 1 with batch 8.
    Hears(1, 0, AcceptReply, 1, 258),
    Finishes(1, AcceptData, 1, 258),
    // Member 0 leads again, at 513. Slot 1 enters with batch 7, and is marked with it.
    StepsUp(0),
    Finishes(0, PrepareBal, 0, 513),
    Finishes(0, PrepareBal, 1, 513),
    Hears(2, 0, Prepare, 0, 513),
    Finishes(2, PrepareBal, 0, 513),
    Hears(0, 2, PrepareReply, 0, 513),
    Finishes(0, AcceptData, 1, 513),
    Hears(2, 0, Accept, 1, 513),
    Finishes(2, AcceptData, 1, 513),
    Hears(0, 2, AcceptReply, 1, 513),
];

/// What follows among the strict members: slot 0 is marked as well, and the other two hear of both.
pub const ALL_MARK: [Event; 9] = [
    Hears(2, 0, Accept, 0, 513),
    Finishes(2, AcceptData, 0, 513),
    Finishes(0, AcceptData, 0, 513),
    Hears(0, 2, AcceptReply, 0, 513),
    Finishes(0, CommitSlot, 0, 513),
    Hears(1, 0, Accept, 0, 513),
    Hears(1, 0, Accept, 1, 513),
    Hears(1, 0, CommitNotice, 0, 513),
    Hears(2, 0, CommitNotice, 0, 513),
];

/// A group of three, from slot 0 on, that tells commits at once (urgent).
pub fn group_of_three(strict: bool) -> Group<Session> {
    let members = (0..3).map(|id| {
        let mut session = Session::default();
        session.call(&new_member(id, strict));
        session
    });
    Group::of(members.collect())
}

fn new_member(id: u8, strict: bool) -> Call {
    Call::New { id, group: 3, start: 0, options: if strict { 5 } else { 1 } }
}

/// The run of either kind, to its end.
pub fn two_batches(strict: bool) -> Group<Session> {
    let mut group = group_of_three(strict);
    let more: &[Event] = if strict { &ALL_MARK } else { &[] };
    for event in TWO_BATCHES.iter().chain(more) {
        group.happens(*event);
    }
    group
}

/// What one of the members receives in it.
pub(super) fn received_by(id: u8, strict: bool) -> Vec<Call> {
    let group = two_batches(strict);
    let own = group.calls.iter().filter(|call| call.0 == usize::from(id)).map(|call| call.1);
    [new_member(id, strict)].into_iter().chain(own).collect()
}
