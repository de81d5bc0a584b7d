//! 6 and 7 before the source is run, from 01's table and the source's own asserts: for the
//! baseline, which is built without them and keeps no copy to go back to.
//!
//! The call has passed `refuse::before_running`. Left out is what cannot fail on a fit record: the
//! step-up's order of trigger and end, and the log place that was just lowered.

use crate::batch::{Batch, Keys};
use crate::call::{Call, Entry};
use crate::host::Replica;
use crate::host::multipaxos::{Instance, Status};
use crate::refuse::{MOST_HIGHEST_KEYS, needs_a_slot_past_the_window};
use crate::tell::decimal;

/// 5, 6 or 7, where the source on its way would meet it.
pub(crate) fn refusal(replica: &Replica, call: &Call) -> Option<u8> {
    if needs_a_slot_past_the_window(replica, call) {
        return Some(5);
    }
    match *call {
        Call::Prepare { trigger, ballot, .. } => {
            let acts = ballot >= replica.bal_max_seen && trigger >= replica.start_slot as u64;
            let covered = replica.insts.iter().skip(place(replica, trigger));
            six(acts && covered.into_iter().any(|slot| slot.bal > ballot))
        }
        Call::PrepareReply { peer, slot, trigger, endprep, ballot, ref vote, .. } => {
            let vote = vote.as_ref().map(|(ballot, batch)| (*ballot, Keyed::Batch(batch)));
            prepare_reply(replica, Reply { peer, slot, trigger, endprep, ballot, vote })
        }
        Call::Accept { slot, ballot, ref batch, .. } => {
            if slot < replica.start_slot as u64 || ballot < replica.bal_max_seen {
                return None;
            }
            let above = present(replica, slot).is_some_and(|slot| slot.bal > ballot);
            six(above).or_else(|| seven(replica, &Keyed::Batch(batch)))
        }
        Call::AcceptReply { slot, ballot, .. } => six(accept_reply_fails(replica, slot, ballot)),
        Call::Offer { ref batch } => seven(replica, &Keyed::Batch(batch)),
        Call::LogDone { entry, slot, ballot: _, size } => log_done(replica, entry, slot, size),
        Call::ReadReply { peer, read, ref known, from_leader } => {
            let open = replica.quorum_reads.get(&Replica::read_name(read));
            six(open.is_some_and(|open| {
                let counted = open.rq_acks.mask() >> peer & 1 == 1;
                !from_leader && !counted && known.as_slice().len() != open.reads.len()
            }))
        }
        _ => None,
    }
}

/// A PrepareReply, from a member or from the own log.
struct Reply<'a> {
    peer: u8,
    slot: u64,
    trigger: u64,
    endprep: u64,
    ballot: u64,
    vote: Option<(u64, Keyed<'a>)>,
}

/// The keys that a vote would add: a message's, or those of a slot's own vote.
enum Keyed<'a> {
    Batch(&'a Batch),
    Own(&'a Instance),
}

fn prepare_reply(replica: &Replica, reply: Reply) -> Option<u8> {
    let Reply { slot, trigger, endprep, ballot, .. } = reply;
    if slot < replica.start_slot as u64 || ballot != replica.bal_prep_sent || !replica.is_leader() {
        return None;
    }
    if slot < trigger || slot > endprep {
        return Some(6);
    }
    let Some(first) = present(replica, trigger) else { return Some(6) };
    let counts = first.leader_bk.as_ref()?;
    // A slot that is appended on the way is Preparing at this ballot, with nothing adopted.
    let mut adopted = Some(0);
    if let Some(instance) = present(replica, slot) {
        if instance.status != Status::Preparing || ballot < instance.bal {
            return None;
        }
        if instance.bal != ballot {
            return Some(6);
        }
        adopted = instance.leader_bk.as_ref().map(|leading| leading.prepare_max_bal);
    }
    if replica.bal_max_seen < ballot || (reply.vote.is_some() && adopted.is_none()) {
        return Some(6);
    }
    let acknowledged = counts.prepare_acks.mask() | 1 << reply.peer;
    let quorum = acknowledged.count_ones() >= u32::from(replica.quorum_cnt);
    if slot == endprep && quorum && replica.bal_prepared > ballot {
        return Some(6);
    }
    let (voted, keys) = reply.vote?;
    if adopted.is_some_and(|adopted| voted > adopted) { seven(replica, &keys) } else { None }
}

/// An AcceptReply, from a member or from the own log.
fn accept_reply_fails(replica: &Replica, slot: u64, ballot: u64) -> bool {
    if ballot != replica.bal_prepared || !replica.is_leader() {
        return false;
    }
    let Some(instance) = present(replica, slot) else { return false };
    if instance.status != Status::Accepting || ballot < instance.bal {
        return false;
    }
    instance.bal != ballot || replica.bal_max_seen < ballot || instance.leader_bk.is_none()
}

fn log_done(replica: &Replica, entry: Entry, slot: u64, size: u64) -> Option<u8> {
    let instance = present(replica, slot)?;
    if size < replica.wal_offset as u64 {
        return Some(6);
    }
    match entry {
        Entry::PrepareBal if replica.is_leader() => {
            let leading = instance.leader_bk.as_ref()?;
            let (trigger, endprep) = (leading.trigger_slot as u64, leading.endprep_slot as u64);
            let (peer, ballot) = (replica.id, instance.bal);
            let voted = instance.voted.0;
            let vote = (voted > 0).then_some((voted, Keyed::Own(instance)));
            let reply = Reply { peer, slot, trigger, endprep, ballot, vote };
            if slot <= endprep { prepare_reply(replica, reply) } else { None }
        }
        Entry::AcceptData if replica.is_leader() => {
            six(accept_reply_fails(replica, slot, instance.bal))
        }
        _ => None,
    }
}

fn six(fails: bool) -> Option<u8> {
    fails.then_some(6)
}

/// 7: "the call would add more new keys than the table has free".
fn seven(replica: &Replica, keyed: &Keyed) -> Option<u8> {
    let free = MOST_HIGHEST_KEYS - replica.highest_slot.len();
    match keyed {
        Keyed::Batch(batch) if batch.keys.len() <= free => None,
        Keyed::Batch(batch) => (new_keys(replica, &batch.keys) > free).then_some(7),
        Keyed::Own(slot) if slot.voted.1.len() <= free => None,
        Keyed::Own(slot) => {
            (new_keys(replica, &Batch::from_requests(&slot.voted.1).keys) > free).then_some(7)
        }
    }
}

/// Different keys that the table does not hold.
fn new_keys(replica: &Replica, keys: &Keys) -> usize {
    let keys = keys.as_slice();
    let is_new = |&(place, key): &(usize, &u64)| {
        !keys[..place].contains(key) && !replica.highest_slot.contains_key(decimal(*key).as_str())
    };
    keys.iter().enumerate().filter(is_new).count()
}

fn present(replica: &Replica, slot: u64) -> Option<&Instance> {
    replica.insts.get(place(replica, slot))
}

/// A slot's place in the window; below start, one that is never present.
fn place(replica: &Replica, slot: u64) -> usize {
    slot.checked_sub(replica.start_slot as u64).map_or(usize::MAX, |place| place as usize)
}
