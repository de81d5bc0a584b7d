//! Calls from nowhere at the edges of the strict rules (02, Wish 6).

use super::rng::Rng;
use super::wild::small_batch;
use crate::batch::Batch;
use crate::call::{Call, Entry};
use crate::model::{Replica, Slot, Status};

pub(super) fn call(rng: &mut Rng, replica: &Replica) -> Call {
    let others: Vec<u8> = (0..replica.group).filter(|&member| member != replica.id).collect();
    if replica.leads() && rng.often(300) {
        return own_completion(rng, replica);
    }
    if others.is_empty() || rng.often(300) {
        return completion(rng, replica);
    }
    let peer = rng.pick(&others);
    if replica.leads() && rng.often(300) {
        return missing_reply(rng, replica, peer);
    }
    match rng.below(8) {
        0..3 if replica.leads() => prepare_reply(rng, replica, peer),
        0..3 => accept(rng, replica, replica.leader.unwrap_or(peer)),
        3 => prepare(rng, replica, peer),
        4 => accept(rng, replica, peer),
        5 => Call::AcceptReply { peer, slot: a_slot(rng, replica), ballot: replica.bal_prepared },
        6 if rng.often(500) => Call::Timeout { source: replica.leader.unwrap_or(peer) },
        6 => commit_notice(rng, replica),
        7 if rng.often(300) => Call::Executed { slot: committed_slot(rng, replica) },
        _ => accept(rng, replica, replica.leader.unwrap_or(peer)),
    }
}

/// A reply that the leader still lacks from this member; where it lacks none, of a longer log.
fn missing_reply(rng: &mut Rng, replica: &Replica, peer: u8) -> Call {
    let (trigger, ballot) = (replica.lead_trigger, replica.bal_prep_sent);
    let missing = not_noted(replica, peer);
    let slot = if missing.is_empty() { replica.log_end() } else { rng.pick(&missing) };
    let last = missing.last().copied().unwrap_or(slot);
    let endprep = rng.pick(&[last, last, slot, replica.log_end()]);
    Call::PrepareReply { peer, slot, trigger, endprep, ballot, vote: None, bar: replica.start }
}

/// Of an entry that the leader itself still waits for.
fn own_completion(rng: &mut Rng, replica: &Replica) -> Call {
    let missing = not_noted(replica, replica.id);
    let entry = if missing.is_empty() { Entry::AcceptData } else { Entry::PrepareBal };
    let slot = if missing.is_empty() { a_slot(rng, replica) } else { rng.pick(&missing) };
    let ballot = replica.slot(slot).map_or(0, |slot| slot.ballot);
    Call::LogDone { entry, slot, ballot, size: replica.wal_offset }
}

/// The slots in Preparing from which nothing of this member was noted.
fn not_noted(replica: &Replica, member: u8) -> Vec<u64> {
    let missing = |slot: &Slot| slot.status == Status::Preparing && slot.noted >> member & 1 == 0;
    let numbers = replica.lead_trigger.max(replica.start)..replica.log_end();
    numbers.filter(|&number| replica.slot(number).is_some_and(missing)).collect()
}

/// At the ballot waited for, mostly with the leader's trigger; its end around the log end.
fn prepare_reply(rng: &mut Rng, replica: &Replica, peer: u8) -> Call {
    let (trigger, end) = (replica.lead_trigger, replica.log_end());
    let slot = trigger + rng.below((end + 2).saturating_sub(trigger).max(1));
    let last = end.saturating_sub(1);
    let endprep = rng.pick(&[slot, slot, slot + 1, last.max(slot), end.max(slot), end + 1]);
    let other = rng.pick(&[replica.start, trigger + 1, trigger.saturating_sub(1), end, slot]);
    let trigger = if rng.often(150) { other } else { trigger };
    let slot = if rng.often(30) { endprep + 1 } else { slot };
    let vote = rng.often(300).then(|| (rng.pick(&[1, 257, 258, 513]), small_batch(rng)));
    let (ballot, bar) = (replica.bal_prep_sent, replica.start + rng.below(3));
    Call::PrepareReply { peer, slot, trigger, endprep, ballot, vote, bar }
}

/// Of a prepare or accept entry at the slot's ballot, the vote's, or an older or newer one.
fn completion(rng: &mut Rng, replica: &Replica) -> Call {
    let slot = a_slot(rng, replica);
    let Slot { ballot, vote, .. } = replica.slot(slot).copied().unwrap_or_default();
    let older = ballot.saturating_sub(256);
    let ballot = rng.pick(&[ballot, ballot, vote.0, vote.0, older, replica.bal_max_seen]);
    let entry = rng.pick(&[Entry::PrepareBal, Entry::AcceptData, Entry::AcceptData]);
    let entry = if rng.often(100) { Entry::CommitSlot } else { entry };
    let size = replica.wal_offset.saturating_add(rng.below(3));
    Call::LogDone { entry, slot, ballot, size }
}

fn prepare(rng: &mut Rng, replica: &Replica, peer: u8) -> Call {
    let trigger = a_slot(rng, replica);
    Call::Prepare { peer, trigger, ballot: ballot_of(rng, replica, peer) }
}

/// Mostly for a committed slot: the same batch, the same id with other keys, or another one.
fn accept(rng: &mut Rng, replica: &Replica, peer: u8) -> Call {
    let slot = committed_slot(rng, replica);
    let held = replica.slot(slot).map_or(Batch::default(), |slot| slot.batch);
    let batch = match rng.below(6) {
        0 => small_batch(rng),
        1 if held.id != 0 => Batch::new(held.id, &[1, 2]),
        _ => held,
    };
    Call::Accept { peer, slot, ballot: ballot_of(rng, replica, peer), batch }
}

fn commit_notice(rng: &mut Rng, replica: &Replica) -> Call {
    let ballot = replica.bal_max_seen;
    let peer = (ballot % 256).saturating_sub(1) as u8;
    let bar = replica.start + rng.below(replica.slots.len() as u64 + 1);
    Call::CommitNotice { peer, ballot, bar }
}

/// Of its owner: the one in force, an older one or a new one.
fn ballot_of(rng: &mut Rng, replica: &Replica, peer: u8) -> u64 {
    let round = replica.bal_max_seen / 256;
    let owner = u64::from(peer) + 1;
    if replica.bal_max_seen % 256 == owner && rng.often(600) {
        return replica.bal_max_seen;
    }
    let round = rng.pick(&[round, round + 1, round + 1, round.saturating_sub(1)]);
    round.wrapping_mul(256).wrapping_add(owner)
}

/// Present, or just past the end.
fn a_slot(rng: &mut Rng, replica: &Replica) -> u64 {
    replica.start + rng.below(replica.slots.len() as u64 + 1)
}

/// A committed one where there is one.
fn committed_slot(rng: &mut Rng, replica: &Replica) -> u64 {
    let numbers = replica.start..replica.log_end();
    let committed: Vec<u64> =
        numbers.filter(|&number| replica.slot(number).is_some_and(Slot::is_committed)).collect();
    match committed.last() {
        Some(&last) if rng.often(400) => last,
        Some(_) if rng.often(850) => rng.pick(&committed),
        _ => a_slot(rng, replica),
    }
}
