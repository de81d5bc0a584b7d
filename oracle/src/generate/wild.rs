//! Calls from nowhere, with numbers near the replica's own: no honest group sends them, and they
//! lead to states that none reaches.

use super::rng::Rng;
use super::spoil::{edge_slot, larger_ballot};
use super::strict_wild;
use crate::batch::Batch;
use crate::call::{Call, Entry};
use crate::host::multipaxos::{Status, WINDOW};
use crate::record::RECORD_BYTES;
use crate::shown::Shown;

/// A trace's first record, where there is no replica yet.
pub(super) fn before_any_replica(rng: &mut Rng) -> [u8; RECORD_BYTES] {
    rng.pick(&[
        Call::Timeout { source: 0 },
        Call::Executed { slot: 0 },
        Call::New { id: 3, group: 3, start: 0, options: 0 },
        Call::Prepare { peer: 0, trigger: 0, ballot: 257 },
    ])
    .to_record()
    .encode()
}

pub(super) fn call(rng: &mut Rng, replica: Shown) -> Call {
    if let Some(strict) = replica.model()
        && rng.often(600)
    {
        return strict_wild::call(rng, strict);
    }
    let mut any = rng.below(replica.group().into()) as u8;
    if any == replica.id() && rng.often(900) {
        any = (any + 1) % replica.group();
    }
    let leader = replica.leader().filter(|&leader| leader != replica.id() && rng.often(500));
    let peer = leader.unwrap_or(any);
    let slot = near_slot(rng, replica);
    let ballot = near_ballot(rng, replica, peer);
    // A leader that is not prepared waits for PrepareReplies.
    if replica.leads() && replica.bal_prepared() == 0 && rng.often(500) {
        return prepare_reply(rng, replica, any);
    }
    // A group of one has no senders.
    let first = if replica.group() == 1 { 6 } else { 0 };
    match rng.between(first, 10) {
        0 => Call::Prepare { peer, trigger: slot, ballot: owned(rng, replica, peer) },
        1 | 2 => prepare_reply(rng, replica, peer),
        3 => {
            let ballot = owned(rng, replica, peer);
            Call::Accept { peer, slot, ballot, batch: small_batch(rng) }
        }
        4 => Call::AcceptReply { peer, slot, ballot },
        5 => {
            let bar = near_slot(rng, replica) + rng.below(3);
            Call::CommitNotice { peer, ballot: owned(rng, replica, peer), bar }
        }
        6 => Call::Timeout { source: replica.leader().unwrap_or(peer) },
        7 => Call::Offer { batch: small_batch(rng) },
        8 | 9 => {
            let entry = rng.pick(&[Entry::PrepareBal, Entry::AcceptData, Entry::CommitSlot]);
            let size = replica.wal_offset().saturating_add(rng.below(3));
            Call::LogDone { entry, slot, ballot, size }
        }
        _ => Call::Executed { slot: committed(replica).filter(|_| rng.often(500)).unwrap_or(slot) },
    }
}

/// The last committed slot: executed before commit_bar has passed it, if it has not.
fn committed(replica: Shown) -> Option<u64> {
    let is_committed = |&place: &usize| replica.status(place) == Status::Committed as u64;
    let place = (0..replica.slots()).rev().find(is_committed)?;
    Some(replica.start() + place as u64)
}

/// Mostly at the ballot that is waited for, with triggers and ends that fit, or nearly.
fn prepare_reply(rng: &mut Rng, replica: Shown, peer: u8) -> Call {
    let (start, end) = (replica.start(), replica.log_end());
    // The last slot makes the largest call where all others are appended first.
    let last = start + WINDOW as u64 - 1;
    let rate = if replica.leads() && replica.slots() == 1 { 80 } else { 5 };
    let slot = if rng.often(rate) { last } else { near_slot(rng, replica) };
    let trigger = reply_trigger(rng, replica, slot);
    let endprep = slot.saturating_add(rng.pick(&[0, 0, 0, 1, 5]));
    let ballot =
        if rng.often(150) { near_ballot(rng, replica, peer) } else { replica.bal_prep_sent() };
    let voted = near_ballot(rng, replica, peer);
    let vote = rng.often(500).then(|| (voted, small_batch(rng)));
    let bar = start + if rng.often(500) { 0 } else { rng.below(end - start + 2) };
    Call::PrepareReply { peer, slot, trigger, endprep, ballot, vote, bar }
}

/// The trigger that the leader sent or the slot after it; now and then one without bookkeeping.
fn reply_trigger(rng: &mut Rng, replica: Shown, slot: u64) -> u64 {
    let start = replica.start();
    let last = replica.slots().checked_sub(1);
    let sent = last.and_then(|last| replica.leading_trigger(last));
    let bare = (0..replica.slots()).find(|&place| replica.leading_trigger(place).is_none());
    match (rng.below(10), sent, bare) {
        (0, ..) => near_slot(rng, replica),
        (1, _, Some(bare)) => start + bare as u64,
        (2 | 3, Some(sent), _) => sent.max(start) + 1,
        (4..9, Some(sent), _) => sent.max(start),
        _ => start + rng.below(slot.saturating_sub(start).clamp(1, WINDOW as u64)),
    }
}

/// Mostly present or just past the end; now and then at an edge.
fn near_slot(rng: &mut Rng, replica: Shown) -> u64 {
    if rng.often(60) {
        return edge_slot(rng, replica).min(1 << 40);
    }
    let (start, end) = (replica.start(), replica.log_end());
    if rng.often(40) {
        return start.saturating_sub(1);
    }
    start + rng.below((end - start + 3).min(70))
}

fn near_ballot(rng: &mut Rng, replica: Shown, peer: u8) -> u64 {
    let larger = larger_ballot(rng, replica, peer);
    rng.pick(&[
        0,
        replica.bal_prep_sent(),
        replica.bal_prepared(),
        replica.bal_max_seen(),
        257,
        larger,
    ])
}

/// The ballot in force where its owner speaks, else a larger one or an older.
fn owned(rng: &mut Rng, replica: Shown, peer: u8) -> u64 {
    if replica.bal_max_seen() % 256 == u64::from(peer) + 1 && rng.often(800) {
        return replica.bal_max_seen();
    }
    let round = (replica.bal_max_seen() / 256).saturating_sub(1);
    let older = round.wrapping_mul(256).wrapping_add(u64::from(peer) + 1);
    let larger = larger_ballot(rng, replica, peer);
    rng.pick(&[older, larger])
}

pub(super) fn small_batch(rng: &mut Rng) -> Batch {
    let id = rng.below(4);
    let keys: Vec<u64> =
        (0..if id == 0 { 0 } else { rng.below(4) }).map(|_| rng.below(6)).collect();
    Batch::new(id, &keys)
}
