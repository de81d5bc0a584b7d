//! Damage to a record: edge values near the replica's own numbers, senders, owners, sums, counts,
//! subs and tags.

use super::rng::Rng;
use crate::record::{RECORD_BYTES, Record};
use crate::shown::Shown;

pub(super) fn spoiled(rng: &mut Rng, record: Record, replica: Shown) -> [u8; RECORD_BYTES] {
    let mut record = record;
    for _ in 0..rng.pick(&[1, 1, 1, 2, 3]) {
        spoil_field(rng, &mut record, replica);
    }
    let mut bytes = record.encode();
    if rng.often(60) {
        let place = rng.index(RECORD_BYTES);
        bytes[place] ^= 1 << rng.below(8);
    }
    bytes
}

fn spoil_field(rng: &mut Rng, record: &mut Record, replica: Shown) {
    match rng.below(16) {
        0 => record.kind = rng.pick(&[0, 1, 2, 3, 4, 5, 6, 7, 8, 9, 10, 11, 12, 255]),
        1 | 2 => record.peer = edge_member(rng, replica),
        3 => record.sub = rng.pick(&[0, 1, 2, 3, 4, 5, 9, 255]),
        4 => record.count = rng.pick(&[0, 1, 2, 7, 8, 8, 9, 255]),
        5 | 6 => record.slot = edge_slot(rng, replica),
        7 => record.trigger = edge_slot(rng, replica),
        8 => record.endprep = edge_slot(rng, replica),
        9 | 10 => record.ballot = edge_ballot(rng, replica, record.peer),
        11 => record.voted_ballot = edge_ballot(rng, replica, record.peer),
        12 => record.batch = rng.pick(&[0, 1, 2, u64::MAX]),
        13 => record.bar = edge_bar(rng, replica),
        14 => record.entries[rng.index(8)] = edge_entry(rng, replica),
        _ => record.ballot = larger_ballot(rng, replica, record.peer),
    }
}

pub(super) fn edge_member(rng: &mut Rng, replica: Shown) -> u8 {
    let inside = rng.below(replica.group().into()) as u8;
    let group = replica.group();
    rng.pick(&[replica.id(), inside, inside, group, group.wrapping_sub(1), 9, 10, 254, 255])
}

/// Around start, log end, window end and the bars, and where numbers end.
pub(super) fn edge_slot(rng: &mut Rng, replica: Shown) -> u64 {
    let start = replica.start();
    let end = replica.log_end();
    let inside = start + rng.below(end - start + 1);
    rng.pick(&[
        0,
        1,
        start.wrapping_sub(1),
        start,
        start + 1,
        inside,
        inside,
        end.wrapping_sub(1),
        end,
        end + 1,
        start + 62,
        start + 63,
        start + 64,
        start + 65,
        replica.accept_bar(),
        replica.commit_bar(),
        replica.exec_bar(),
        1 << 32,
        (1 << 32) + 64,
        (1 << 62) + inside,
        (1 << 63) - 1,
        u64::MAX - 1,
        u64::MAX,
    ])
}

/// A told bar or a log size.
fn edge_bar(rng: &mut Rng, replica: Shown) -> u64 {
    let size = replica.wal_offset();
    if rng.often(400) {
        // The largest size leaves no later one, so it is rare.
        let last = if rng.often(50) { u64::MAX } else { size };
        rng.pick(&[0, size.wrapping_sub(1), size, size.saturating_add(1), last])
    } else {
        edge_slot(rng, replica)
    }
}

/// Around the ballots of the replica, with and without the right owner.
fn edge_ballot(rng: &mut Rng, replica: Shown, peer: u8) -> u64 {
    let owner = u64::from(peer) + 1;
    let round = replica.bal_max_seen() / 256;
    // The last round ends an episode's elections, so it is rare.
    let last_round = rng.often(100);
    let last = (u64::MAX - 255).wrapping_add(owner);
    rng.pick(&[
        0,
        1,
        owner,
        256,
        256 + owner,
        replica.bal_max_seen(),
        replica.bal_max_seen().wrapping_sub(1),
        replica.bal_max_seen().wrapping_add(1),
        replica.bal_prep_sent(),
        replica.bal_prepared(),
        round.wrapping_mul(256).wrapping_add(owner),
        round.wrapping_sub(1).wrapping_mul(256).wrapping_add(owner),
        round.wrapping_add(1).wrapping_mul(256),
        if last_round { last } else { 255 },
        if last_round { u64::MAX } else { 257 },
    ])
}

/// A ballot that deposes, owned by its sender.
pub(super) fn larger_ballot(rng: &mut Rng, replica: Shown, peer: u8) -> u64 {
    let round = replica.bal_max_seen() / 256;
    let more = rng.pick(&[0, 0, 1, 2]);
    round.wrapping_add(more).wrapping_mul(256).wrapping_add(u64::from(peer) + 1)
}

/// A key, or a tag with a slot and a value.
fn edge_entry(rng: &mut Rng, replica: Shown) -> [u64; 3] {
    [rng.pick(&[0, 1, 2, 2, 3, u64::MAX]), edge_slot(rng, replica), rng.pick(&[0, 1, u64::MAX])]
}
