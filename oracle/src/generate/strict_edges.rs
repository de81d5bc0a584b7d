//! The calls of the sample `strict-edges`, each with its answer: both sides of each edge of 02's
//! strict rules, in their order.

use super::examples::{done, reply};
use crate::batch::Batch;
use crate::call::{Call, Entry};

/// A call, and the answer that 02 gives it.
type Answered = (Call, u8);

pub fn strict_edges() -> Vec<Answered> {
    let parts: [fn() -> Vec<Answered>; 9] = [
        options,
        completions_of_a_follower,
        completions_of_a_leader,
        counting,
        entering_later,
        triggers_and_notes,
        a_later_trigger,
        committed_slots,
        fifteen,
    ];
    parts.iter().flat_map(|part| part()).collect()
}

/// "trace: 4 more in trigger": 4 to 7 are strict, 8 is outside.
fn options() -> Vec<Answered> {
    vec![
        (new(0, 8), 10),
        (new(2, 7), 0),
        (Call::Timeout { source: 2 }, 0),
        (new(2, 9), 10),
        (new(2, 3), 0),
        (new(2, 4), 0),
    ]
}

/// (a): a prepare entry with an older ballot, a newer one and the slot's; an accept entry with an
/// older ballot, with the vote's under a newer Prepare, with the slot's and an older vote, and right.
/// accept_bar moves at the first of them.
fn completions_of_a_follower() -> Vec<Answered> {
    done_all([
        new(2, 4),
        prepare(0, 0, 257),
        prepare(1, 0, 258),
        done(Entry::PrepareBal, 0, 257, 40),
        done(Entry::PrepareBal, 0, 259, 40),
        done(Entry::PrepareBal, 0, 258, 80),
        accept(1, 0, 258, batch(7)),
        done(Entry::AcceptData, 0, 257, 120),
        done(Entry::AcceptData, 0, 258, 160),
        prepare(0, 0, 513),
        done(Entry::AcceptData, 0, 258, 200),
        done(Entry::AcceptData, 0, 513, 240),
        accept(0, 0, 513, batch(8)),
        done(Entry::AcceptData, 0, 258, 280),
        done(Entry::AcceptData, 0, 513, 320),
        done(Entry::PrepareBal, 0, 258, 360),
        done(Entry::PrepareBal, 0, 513, 400),
    ])
}

/// (a) and (b) in a group of one: its votes are its own, by quorum and by offer, and only its own
/// ballots count; the ballot of a commit entry says nothing.
fn completions_of_a_leader() -> Vec<Answered> {
    done_all([
        Call::New { id: 0, group: 1, start: 0, options: 5 },
        Call::Timeout { source: 0 },
        done(Entry::PrepareBal, 0, 1, 40),
        done(Entry::PrepareBal, 0, 257, 40),
        done(Entry::AcceptData, 0, 1, 80),
        done(Entry::AcceptData, 0, 257, 80),
        done(Entry::CommitSlot, 0, 1, 120),
        Call::Offer { batch: batch(7) },
        done(Entry::AcceptData, 1, 513, 160),
        done(Entry::AcceptData, 1, 257, 160),
        done(Entry::CommitSlot, 1, 0, 200),
    ])
}

/// Member 0 with slots 0 to 2 accepted from member 1, which it follows as leader at 513.
fn leader_of_three_slots() -> Vec<Answered> {
    done_all([
        new(0, 4),
        accept(1, 0, 258, batch(1)),
        accept(1, 1, 258, batch(2)),
        accept(1, 2, 258, batch(3)),
        Call::Timeout { source: 1 },
    ])
}

/// (c): the last missing note, of self before its endprep and of member 1, whose log is shorter. A
/// quorum enters slot 2 as well, of which nobody else spoke. A vote is taken while Preparing only;
/// member 2 counts on a reply for a slot in Accepting.
fn counting() -> Vec<Answered> {
    let vote = |ballot, id| Some((ballot, batch(id)));
    let mut calls = leader_of_three_slots();
    calls.extend(done_all([
        done(Entry::PrepareBal, 0, 258, 40),
        done(Entry::PrepareBal, 0, 513, 40),
        done(Entry::PrepareBal, 2, 513, 80),
        reply(1, 513, (1, 0, 1), vote(300, 9)),
        reply(1, 513, (1, 0, 1), vote(300, 4)),
        done(Entry::PrepareBal, 1, 513, 120),
        reply(1, 513, (0, 0, 1), None),
        reply(1, 513, (1, 0, 1), vote(400, 5)),
        reply(2, 513, (2, 0, 2), vote(400, 6)),
        done(Entry::AcceptData, 1, 258, 160),
        done(Entry::AcceptData, 1, 513, 160),
        Call::AcceptReply { peer: 2, slot: 1, ballot: 513 },
    ]));
    calls
}

/// (c): e at the log end and one below it; once counted, counted. Slots appended since the quorum enter by a reply of a
/// member counted before, and by one that counts with it. The own entry of an appended slot, past the
/// leader's endprep, does nothing.
fn entering_later() -> Vec<Answered> {
    let mut calls = leader_of_three_slots();
    calls.extend(done_all([
        done(Entry::PrepareBal, 0, 513, 40),
        done(Entry::PrepareBal, 1, 513, 80),
        done(Entry::PrepareBal, 2, 513, 120),
        reply(1, 513, (2, 0, 3), None),
        reply(1, 513, (1, 0, 3), None),
        reply(1, 513, (0, 0, 3), None),
        reply(1, 513, (0, 0, 2), None),
        reply(1, 513, (2, 0, 9), None),
        reply(2, 513, (3, 0, 4), None),
        done(Entry::PrepareBal, 3, 513, 160),
        reply(1, 513, (1, 0, 2), None),
        reply(2, 513, (4, 0, 4), None),
        reply(2, 513, (3, 0, 4), None),
    ]));
    calls
}

/// (c): another trigger is ignored, also where slot and endprep do not fit it; the leader's own is
/// 6 there. Notes at later statuses; a step-up has another trigger and clears the notes of the slots
/// that it puts to Preparing.
fn triggers_and_notes() -> Vec<Answered> {
    let mut calls = leader_of_three_slots();
    calls.extend([
        (reply(1, 513, (1, 1, 2), None), 0),
        (reply(1, 513, (0, 1, 2), None), 0),
        (reply(1, 513, (3, 1, 2), None), 0),
        (reply(1, 513, (3, 0, 2), None), 6),
        (reply(1, 513, (70, 1, 70), None), 0),
        (reply(1, 513, (70, 0, 70), None), 5),
    ]);
    calls.extend(done_all([
        reply(1, 513, (0, 0, 2), None),
        reply(1, 513, (1, 0, 2), None),
        reply(1, 513, (2, 0, 2), None),
        reply(2, 513, (0, 0, 0), None),
        reply(2, 513, (1, 0, 1), None),
        done(Entry::PrepareBal, 2, 513, 40),
        Call::AcceptReply { peer: 1, slot: 0, ballot: 513 },
        Call::AcceptReply { peer: 2, slot: 0, ballot: 513 },
        reply(2, 513, (0, 0, 1), None),
        done(Entry::PrepareBal, 0, 513, 80),
        Call::Timeout { source: 0 },
        reply(1, 513, (2, 0, 2), None),
        reply(1, 769, (2, 0, 2), None),
        reply(1, 769, (2, 1, 2), None),
        reply(2, 769, (1, 1, 1), None),
        done(Entry::PrepareBal, 1, 513, 120),
        done(Entry::PrepareBal, 1, 769, 160),
        done(Entry::PrepareBal, 2, 769, 200),
        prepare(1, 2, 1026),
    ]));
    // Where self does not lead, any trigger is 4.
    calls.extend([
        (reply(2, 769, (2, 1, 2), None), 4),
        (reply(2, 769, (2, 0, 2), None), 4),
        (reply(2, 769, (3, 1, 2), None), 4),
    ]);
    calls
}

/// (c): the leader's trigger is its last step-up's, from start 5.
fn a_later_trigger() -> Vec<Answered> {
    done_all([
        Call::New { id: 0, group: 1, start: 5, options: 4 },
        Call::Timeout { source: 0 },
        done(Entry::PrepareBal, 5, 257, 40),
        done(Entry::AcceptData, 5, 257, 80),
        Call::Timeout { source: 0 },
        done(Entry::PrepareBal, 6, 513, 120),
        Call::Timeout { source: 0 },
        done(Entry::PrepareBal, 6, 513, 160),
        done(Entry::PrepareBal, 6, 769, 200),
    ])
}

/// Member 2 with slot 0 Executed, slot 1 Committed and slot 2 Accepting at 257.
fn follower_with_committed_slots() -> Vec<Answered> {
    done_all([
        new(2, 4),
        accept(0, 0, 257, batch(1)),
        accept(0, 1, 257, batch(2)),
        accept(0, 2, 257, batch(3)),
        done(Entry::AcceptData, 0, 257, 40),
        Call::CommitNotice { peer: 0, ballot: 257, bar: 2 },
        done(Entry::CommitSlot, 0, 257, 80),
        Call::Executed { slot: 0 },
    ])
}

/// (d): under a Prepare, and under an Accept with the same batch, of its own ballot and of a new one,
/// a committed slot stays; its entries are answered as they are done.
fn committed_slots() -> Vec<Answered> {
    let mut calls = follower_with_committed_slots();
    calls.extend(done_all([
        accept(0, 1, 257, batch(2)),
        accept(0, 0, 257, batch(1)),
        prepare(1, 0, 514),
        done(Entry::PrepareBal, 0, 514, 120),
        done(Entry::PrepareBal, 1, 514, 160),
        accept(1, 0, 514, batch(1)),
        accept(1, 1, 514, batch(2)),
        accept(1, 2, 514, batch(4)),
        done(Entry::AcceptData, 1, 257, 200),
        done(Entry::AcceptData, 1, 514, 240),
        Call::Timeout { source: 1 },
        done(Entry::PrepareBal, 1, 514, 280),
        done(Entry::PrepareBal, 2, 771, 320),
        prepare(0, 1, 1025),
        accept(0, 0, 1025, batch(1)),
    ]));
    calls
}

/// 15: for a Committed and an Executed slot, by id or by keys, at the ballot in force and at a new
/// one; after 3, 10 and 5, and not for an old ballot, a slot below start or one that is not committed.
fn fifteen() -> Vec<Answered> {
    let mut calls = follower_with_committed_slots();
    calls.extend([
        (accept(0, 1, 257, batch(9)), 15),
        (accept(0, 0, 257, batch(9)), 15),
        (accept(0, 1, 257, Batch::new(2, &[])), 15),
        (accept(0, 1, 257, Batch::default()), 15),
        (accept(1, 1, 514, batch(9)), 15),
        (accept(1, 1, 257, batch(9)), 3),
        (accept(0, 1, 257, Batch::new(0, &[1])), 10),
        (accept(0, 64, 257, batch(9)), 5),
        (accept(0, 2, 257, batch(9)), 0),
        (prepare(1, 2, 514), 0),
        (accept(0, 1, 257, batch(9)), 0),
        (accept(0, 0, 257, batch(9)), 0),
        (accept(1, 1, 514, batch(9)), 15),
        (accept(1, 1, 514, batch(2)), 0),
    ]);
    calls
}

fn done_all<const COUNT: usize>(calls: [Call; COUNT]) -> Vec<Answered> {
    calls.map(|call| (call, 0)).to_vec()
}

fn new(id: u8, options: u64) -> Call {
    Call::New { id, group: 3, start: 0, options }
}

fn prepare(peer: u8, trigger: u64, ballot: u64) -> Call {
    Call::Prepare { peer, trigger, ballot }
}

fn accept(peer: u8, slot: u64, ballot: u64, batch: Batch) -> Call {
    Call::Accept { peer, slot, ballot, batch }
}

fn batch(id: u64) -> Batch {
    Batch::new(id, &[id])
}
