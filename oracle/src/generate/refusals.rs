//! The calls of the sample `refusals`, each with the answer that 01 gives it: both sides of the
//! refusals that generated traces hardly meet, and which comes first where several are due.

use super::examples::{done, reply};
use crate::batch::{Batch, Keys};
use crate::call::{Call, Entry, Known, KnownList};

/// A call, and 01's answer.
type Answered = (Call, u8);

pub fn refusals() -> Vec<Answered> {
    let parts = [no_replica, new_replicas, last_round, accepts, votes, offers, reads];
    parts.iter().flat_map(|part| part()).collect()
}

/// Before a first replica the record is unfit, whatever else is wrong; a new one asks nothing of it.
fn no_replica() -> Vec<Answered> {
    vec![
        (new(0, 2, 0, 0), 10),
        (new(0, 3, 0, 8), 10),
        (accept(9, 0, 256, no_batch()), 1),
        (Call::Offer { batch: no_batch() }, 1),
        (open(0, &[]), 1),
    ]
}

/// 10: a group that is not 1, 3, 5, 7 or 9, an id that is no member's, a start above 2^32, options
/// above 7. The old replica stays. 4 to 7 make a strict one.
fn new_replicas() -> Vec<Answered> {
    let mut calls = vec![(new(1, 3, 5, 0), 0)];
    for group in [0, 2, 4, 6, 8, 10, 11, 12, 255] {
        calls.push((new(0, group, 0, 0), 10));
    }
    for options in [8, 9, 15, 16, 256, 1 << 32, u64::MAX] {
        calls.push((new(0, 3, 0, options), 10));
    }
    calls.push((new(0, 3, (1 << 32) + 1, 0), 10));
    calls.push((Call::Timeout { source: 1 }, 0));
    let strict = [(1, 4), (3, 5), (5, 6), (7, 7), (9, 7)];
    for (group, options) in [(1, 0), (3, 1), (5, 2), (7, 3), (9, 3)].into_iter().chain(strict) {
        calls.push((new(group, group, 0, options), 10));
        calls.push((new(group - 1, group, 1 << 32, options), 0));
    }
    calls
}

/// 8: no ballot follows in the last round, and one does in the round before; an ignored step-up
/// comes first.
fn last_round() -> Vec<Answered> {
    let last = (1 << 56) - 1;
    let prepare = |round: u64| Call::Prepare { peer: 0, trigger: 0, ballot: round * 256 + 1 };
    vec![
        (new(2, 3, 0, 0), 0),
        (prepare(last), 0),
        (Call::Timeout { source: 1 }, 0),
        (Call::Timeout { source: 0 }, 8),
        (new(2, 3, 0, 0), 0),
        (prepare(last - 1), 0),
        (Call::Timeout { source: 0 }, 0),
        (Call::Timeout { source: 2 }, 8),
        (new(2, 3, 0, 2), 0),
        (prepare(last), 0),
        (Call::Timeout { source: 0 }, 0),
    ]
}

/// 2, 3, 10, then below start, a smaller ballot and 5.
fn accepts() -> Vec<Answered> {
    vec![
        (new(2, 3, 5, 0), 0),
        (accept(3, 5, 257, no_batch()), 2),
        (accept(2, 5, 257, no_batch()), 2),
        (accept(0, 5, 258, no_batch()), 3),
        (accept(0, 5, 256, no_batch()), 3),
        (accept(0, 5, 257, no_batch()), 10),
        (accept(0, 4, 257, no_batch()), 10),
        (accept(0, 69, 257, no_batch()), 10),
        (accept(0, 4, 257, Batch::default()), 0),
        (accept(0, 69, 257, Batch::default()), 5),
        (accept(1, 5, 258, Batch::new(4, &[1])), 0),
        (accept(0, 6, 257, no_batch()), 10),
        (accept(0, 6, 257, Batch::new(5, &[1])), 0),
    ]
}

/// 10 for a vote's batch, before all that the source looks at.
fn votes() -> Vec<Answered> {
    let vote = Some((1, no_batch()));
    vec![
        (new(0, 3, 5, 0), 0),
        (reply(1, 0, (5, 5, 5), vote), 10),
        (reply(1, 0, (5, 5, 5), None), 4),
        (Call::Timeout { source: 0 }, 0),
        (reply(0, 257, (5, 5, 5), vote), 2),
        (reply(1, 257, (5, 5, 5), vote), 10),
        (reply(1, 257, (4, 4, 4), vote), 10),
        (reply(1, 256, (5, 5, 5), vote), 10),
        (reply(1, 257, (6, 7, 5), vote), 10),
        (reply(1, 257, (69, 5, 69), vote), 10),
        (reply(1, 257, (69, 5, 69), None), 5),
        (reply(1, 257, (6, 7, 5), None), 6),
        (reply(1, 257, (5, 5, 5), None), 0),
    ]
}

/// 10 for an offered batch, before 9, 7 and 5.
fn offers() -> Vec<Answered> {
    let offer = |id, keys: &[u64]| Call::Offer { batch: Batch::new(id, keys) };
    let bad = [(offer(0, &[1]), 10), (offer(0, &[1, 2, 3, 4, 5, 6, 7, 8]), 10)];
    let mut calls = vec![(new(0, 1, 0, 0), 0)];
    calls.extend(bad);
    calls.push((offer(1, &[1]), 9));
    calls.push((Call::Timeout { source: 0 }, 0));
    calls.push((offer(1, &[1]), 9));
    calls.push((done(Entry::PrepareBal, 0, 257, 40), 0));
    calls.extend(bad);
    // The table of 256 keys is full with these, and then the window.
    for batch in 1..=32 {
        let keys: Vec<u64> = (0..8).map(|key| 1000 + 8 * batch + key).collect();
        calls.push((offer(batch, &keys), 0));
    }
    calls.extend(bad);
    calls.push((offer(33, &[1]), 7));
    calls.push((offer(0, &[]), 0));
    calls.extend((34..=63).map(|batch| (offer(batch, &[]), 0)));
    calls.extend(bad);
    calls.push((offer(64, &[]), 5));
    calls
}

/// 10 for a read of no keys or an id in use, before 11; a closed read's id is free again.
fn reads() -> Vec<Answered> {
    let known = KnownList::from_slice(&[Known::Value(0, 8)]);
    let mut calls = vec![(new(2, 3, 0, 0), 0), (open(0, &[]), 10)];
    calls.extend((0..16).map(|read| (open(read, &[read]), 0)));
    calls.extend([
        (open(3, &[1]), 10),
        (open(3, &[]), 10),
        (open(16, &[]), 10),
        (open(16, &[1]), 11),
        (Call::ReadReply { peer: 0, read: 3, known, from_leader: true }, 0),
        (open(15, &[1]), 10),
        (open(3, &[]), 10),
        (open(3, &[1]), 0),
        (open(16, &[1]), 11),
    ]);
    calls
}

fn new(id: u8, group: u8, start: u64, options: u64) -> Call {
    Call::New { id, group, start, options }
}

fn accept(peer: u8, slot: u64, ballot: u64, batch: Batch) -> Call {
    Call::Accept { peer, slot, ballot, batch }
}

fn open(read: u64, keys: &[u64]) -> Call {
    Call::OpenRead { read, keys: Keys::from_slice(keys) }
}

/// Id 0 with a key: outside the numbers.
fn no_batch() -> Batch {
    Batch::new(0, &[1])
}
