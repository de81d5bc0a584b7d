//! Traces made by hand.

use super::refusals::refusals;
use super::strict_edges::strict_edges;
use super::two_batches::received_by;
use crate::batch::{Batch, Keys};
use crate::call::{Call, Entry, Known, KnownList};

/// A name, and the calls.
type Example = (&'static str, fn() -> Vec<Call>);

const EXAMPLES: [Example; 14] = [
    ("worked", worked),
    ("keys", full_key_table),
    ("refusals", refused_and_done),
    ("late-0", late_at_0),
    ("late-1", late_at_1),
    ("late-2", late_at_2),
    ("first-value", first_values),
    ("strict-edges", edges_of_the_strict_rules),
    ("two-batches-0", || received_by(0, false)),
    ("two-batches-1", || received_by(1, false)),
    ("two-batches-2", || received_by(2, false)),
    ("strict-two-batches-0", || received_by(0, true)),
    ("strict-two-batches-1", || received_by(1, true)),
    ("strict-two-batches-2", || received_by(2, true)),
];

pub fn example(name: &str) -> Option<Vec<u8>> {
    let (_, calls) = EXAMPLES.iter().find(|known| known.0 == name)?;
    Some(calls().iter().flat_map(|call| call.to_record().encode()).collect())
}

/// 01's worked example: a group of one commits its first slot.
fn worked() -> Vec<Call> {
    vec![
        new_member(0, 1),
        Call::Timeout { source: 0 },
        done(Entry::PrepareBal, 0, 257, 40),
        done(Entry::AcceptData, 0, 257, 80),
        done(Entry::CommitSlot, 0, 257, 120),
    ]
}

/// 7 at its edge, by Accept, by offer and by a vote: one free place in the highest-slot table, and
/// lists with two new keys, with one new key twice, and with none.
fn full_key_table() -> Vec<Call> {
    let mut calls = vec![new_member(2, 3)];
    let accept =
        |peer: u8, slot, batch| Call::Accept { peer, slot, ballot: 257 + u64::from(peer), batch };
    calls.extend(fill().enumerate().map(|(slot, batch)| accept(0, slot as u64, batch)));
    calls.extend(edge_lists().map(|batch| accept(0, 32, batch)));

    calls.push(new_member(0, 3));
    calls.push(Call::Timeout { source: 0 });
    calls.push(done(Entry::PrepareBal, 0, 257, 9));
    calls.push(reply(1, 257, (0, 0, 0), None));
    calls.extend(fill().chain(edge_lists()).map(|batch| Call::Offer { batch }));

    // A vote is adopted at a larger ballot only, and only then its keys are looked at.
    calls.push(new_member(0, 3));
    calls.extend(fill().enumerate().map(|(slot, batch)| accept(1, slot as u64, batch)));
    calls.push(Call::Timeout { source: 1 });
    let ballots = [0, 258, 258, 300, 300, 301, 301, 302];
    for (voted, batch) in ballots.into_iter().zip(edge_lists().chain(edge_lists())) {
        calls.push(reply(1, 513, (5, 0, 31), Some((voted, batch))));
        calls.push(reply(2, 513, (5, 0, 31), Some((voted, batch))));
        calls.push(reply(2, 513, (40, 0, 40), Some((1, Batch::new(7, &[950, 951])))));
    }
    calls.push(reply(2, 513, (40, 0, 40), Some((1, Batch::new(7, &[900])))));
    calls.push(done(Entry::PrepareBal, 3, 513, 9));
    calls
}

/// Both sides of 01's refusals, and which comes first where several are due.
fn refused_and_done() -> Vec<Call> {
    refusals().into_iter().map(|(call, _)| call).collect()
}

/// Both sides of each edge of 02's strict rules.
fn edges_of_the_strict_rules() -> Vec<Call> {
    strict_edges().into_iter().map(|(call, _)| call).collect()
}

/// What demand 3 does not promise, as the three members of one group see it: a deposed leader's
/// Accept is answered after a newer Prepare, since a replica ignores a log completion's ballot.
/// Member 1 commits slot 1 empty at ballot 514, member 2 commits it with batch 7 at ballot 771.
fn late_at_0() -> Vec<Call> {
    vec![
        urgent_member(0),
        Call::Timeout { source: 0 },
        done(Entry::PrepareBal, 0, 257, 40),
        reply(1, 257, (0, 0, 0), None),
        Call::Offer { batch: seven() },
        Call::Prepare { peer: 1, trigger: 0, ballot: 514 },
        done(Entry::PrepareBal, 0, 514, 80),
        done(Entry::PrepareBal, 1, 514, 120),
        Call::Prepare { peer: 2, trigger: 0, ballot: 771 },
        done(Entry::PrepareBal, 0, 771, 160),
        done(Entry::PrepareBal, 1, 771, 200),
        Call::Accept { peer: 2, slot: 1, ballot: 771, batch: seven() },
        done(Entry::AcceptData, 1, 771, 240),
    ]
}

fn late_at_1() -> Vec<Call> {
    vec![
        urgent_member(1),
        Call::Prepare { peer: 0, trigger: 0, ballot: 257 },
        done(Entry::PrepareBal, 0, 257, 40),
        Call::Timeout { source: 0 },
        done(Entry::PrepareBal, 0, 514, 80),
        reply(0, 514, (0, 0, 1), None),
        reply(0, 514, (1, 0, 1), None),
        done(Entry::AcceptData, 1, 514, 120),
        Call::AcceptReply { peer: 2, slot: 1, ballot: 514 },
    ]
}

fn late_at_2() -> Vec<Call> {
    vec![
        urgent_member(2),
        Call::Accept { peer: 0, slot: 1, ballot: 257, batch: seven() },
        Call::Prepare { peer: 1, trigger: 0, ballot: 514 },
        // The entry was written at 257, the slot is at 514: the answer is at 514.
        done(Entry::AcceptData, 1, 257, 40),
        Call::Timeout { source: 1 },
        done(Entry::PrepareBal, 0, 771, 80),
        done(Entry::PrepareBal, 1, 771, 120),
        reply(0, 771, (1, 0, 1), None),
        done(Entry::AcceptData, 1, 771, 160),
        Call::AcceptReply { peer: 0, slot: 1, ballot: 771 },
    ]
}

/// 02, Wish 2: a value meets nothing held, and what follows from it. Reads of one key: the value
/// alone; then with another at its slot; with nothing, before and after it; with its slot alone, in
/// both orders; with a smaller and a larger slot. Reads of two: another value for the second key,
/// and after that the value held; the leader's reply, which replaces.
fn first_values() -> Vec<Call> {
    let (seven, slot_7) = (Known::Value(7, 9), Known::Slot(7));
    let ones: [&[(u8, Known)]; 8] = [
        &[(0, seven), (1, Known::Value(7, 8)), (1, seven)],
        &[(0, seven), (1, Known::Nothing)],
        &[(0, Known::Nothing), (1, seven)],
        &[(0, seven), (1, slot_7)],
        &[(0, slot_7), (1, seven)],
        &[(0, seven), (1, Known::Slot(6))],
        &[(0, seven), (1, Known::Slot(8))],
        &[(0, seven), (0, Known::Slot(8)), (1, Known::Value(6, 8))],
    ];
    let mut calls = vec![new_member(0, 1), asked(&[4]), told(0, &[seven], false)];
    for replies in ones {
        calls.extend([new_member(2, 3), asked(&[4])]);
        calls.extend(replies.iter().map(|&(peer, known)| told(peer, &[known], false)));
    }
    calls.extend([
        new_member(2, 3),
        asked(&[4, 6]),
        told(0, &[Known::Slot(3), seven], false),
        told(1, &[Known::Value(5, 1), Known::Value(7, 8)], false),
        told(1, &[Known::Nothing, seven], false),
        new_member(2, 3),
        asked(&[4, 6]),
        told(0, &[seven, Known::Nothing], false),
        told(1, &[Known::Nothing, slot_7], true),
    ]);
    calls
}

/// Read 5 is opened for these keys.
fn asked(keys: &[u64]) -> Call {
    Call::OpenRead { read: 5, keys: Keys::from_slice(keys) }
}

/// Read 5 is replied to.
fn told(peer: u8, known: &[Known], from_leader: bool) -> Call {
    Call::ReadReply { peer, read: 5, known: KnownList::from_slice(known), from_leader }
}

fn urgent_member(id: u8) -> Call {
    Call::New { id, group: 3, start: 0, options: 1 }
}

/// A completion at the ballot that the entry was written at.
pub(super) fn done(entry: Entry, slot: u64, ballot: u64, size: u64) -> Call {
    Call::LogDone { entry, slot, ballot, size }
}

fn seven() -> Batch {
    Batch::new(7, &[5])
}

fn new_member(id: u8, group: u8) -> Call {
    Call::New { id, group, start: 0, options: 0 }
}

/// A PrepareReply for slot, trigger and endprep.
pub(super) fn reply(
    peer: u8,
    ballot: u64,
    at: (u64, u64, u64),
    vote: Option<(u64, Batch)>,
) -> Call {
    let (slot, trigger, endprep) = at;
    Call::PrepareReply { peer, slot, trigger, endprep, ballot, vote, bar: 0 }
}

/// 32 batches with 255 different keys.
fn fill() -> impl Iterator<Item = Batch> {
    (0..32).map(|place| {
        let keys: Vec<u64> = (8 * place..(8 * place + 8).min(255)).collect();
        Batch::new(place + 1, &keys)
    })
}

/// With one place free: too many, too many, as many, none, too many, none.
fn edge_lists() -> impl Iterator<Item = Batch> {
    let lists: [&[u64]; 6] = [
        &[900, 901],
        &[0, 900, 900, 1, 901],
        &[900, 900, 254, 900],
        &[900, 0, 0, 900],
        &[901, 901],
        &[],
    ];
    lists.into_iter().map(|keys| Batch::new(100, keys))
}
