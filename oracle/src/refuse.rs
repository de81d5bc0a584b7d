//! The answers that 01's table gives before the source is run, in 01's order.
//!
//! 13 is the record's, 6 comes from running the source, 7 from looking at its table afterwards,
//! 12 from its error.

use crate::batch::Batch;
use crate::call::Call;
use crate::host::Replica;
use crate::host::multipaxos::{Status, WINDOW};

pub const MOST_START: u64 = 1 << 32;
pub const MOST_HIGHEST_KEYS: usize = 256;
pub const MOST_READS: usize = 16;

/// 10 for a new replica: group of 1, 3, 5, 7 or 9, a member's id, start up to 2^32, two options and
/// the kind.
pub fn new_replica_is_outside(id: u8, group: u8, start: u64, options: u64) -> bool {
    !matches!(group, 1 | 3 | 5 | 7 | 9) || id >= group || start > MOST_START || options > 7
}

/// 02, Wish 6: the kind is "chosen when it is made (trace: 4 more in trigger)".
pub fn is_strict(options: u64) -> bool {
    options & 4 != 0
}

/// The first refusal of 2, 3, 10, 11, then 4, 8 and 9 where the source's own tests stand.
pub(crate) fn before_running(replica: &Replica, call: &Call) -> Option<u8> {
    if sender_is_refused(replica, call) {
        return Some(2);
    }
    if owner_is_not_sender(call) {
        return Some(3);
    }
    if numbers_are_outside(replica, call) {
        return Some(10);
    }
    if matches!(call, Call::OpenRead { .. }) && replica.quorum_reads.len() >= MOST_READS {
        return Some(11);
    }
    in_the_sources_order(replica, call)
}

/// 2: not a member; or self, except in timeouts and read replies.
fn sender_is_refused(replica: &Replica, call: &Call) -> bool {
    match *call {
        Call::Prepare { peer, .. }
        | Call::PrepareReply { peer, .. }
        | Call::Accept { peer, .. }
        | Call::AcceptReply { peer, .. }
        | Call::CommitNotice { peer, .. } => peer >= replica.population || peer == replica.id,
        Call::Timeout { source: peer } | Call::ReadReply { peer, .. } => peer >= replica.population,
        _ => false,
    }
}

/// 3: a ballot's owner is (ballot mod 256) - 1; with remainder 0 there is none.
fn owner_is_not_sender(call: &Call) -> bool {
    match *call {
        Call::Prepare { peer, ballot, .. }
        | Call::Accept { peer, ballot, .. }
        | Call::CommitNotice { peer, ballot, .. } => ballot % 256 != u64::from(peer) + 1,
        _ => false,
    }
}

/// 10: a batch that is none, a read of no keys, or a read id in use.
fn numbers_are_outside(replica: &Replica, call: &Call) -> bool {
    let bad = |batch: &Batch| !batch.is_well_formed();
    match call {
        Call::PrepareReply { vote: Some((_, batch)), .. }
        | Call::Accept { batch, .. }
        | Call::Offer { batch } => bad(batch),
        Call::OpenRead { read, keys } => {
            keys.is_empty() || replica.quorum_reads.contains_key(&Replica::read_name(*read))
        }
        _ => false,
    }
}

fn in_the_sources_order(replica: &Replica, call: &Call) -> Option<u8> {
    let start = replica.start_slot as u64;
    let end = replica.log_end() as u64;
    let leads = replica.is_leader();
    match *call {
        // 4: a PrepareReply with ballot = bal_prep_sent where self does not lead.
        Call::PrepareReply { slot, ballot, .. } => {
            (slot >= start && ballot == replica.bal_prep_sent && !leads).then_some(4)
        }
        // 4: past the log end with ballot = bal_prepared.
        Call::AcceptReply { slot, ballot, .. } => {
            (ballot == replica.bal_prepared && slot >= end).then_some(4)
        }
        Call::LogDone { slot, .. } | Call::Executed { slot } => (slot >= end).then_some(4),
        Call::Timeout { source } => {
            let last_ballot = replica.bal_max_seen / 256 == (1 << 56) - 1;
            let behind = first_uncommitted(replica) < replica.exec_bar;
            (!step_up_is_ignored(replica, source) && (last_ballot || behind)).then_some(8)
        }
        Call::Offer { .. } => {
            let (prepared, sent) = (replica.bal_prepared, replica.bal_prep_sent);
            (!leads || prepared == 0 || prepared != sent).then_some(9)
        }
        _ => None,
    }
}

/// 01: "ignored if a leader is known and is not the timeout's source, or if disallowed".
fn step_up_is_ignored(replica: &Replica, source: u8) -> bool {
    replica.leader.is_some_and(|leader| leader != source) || replica.config.disallow_step_up
}

/// The log end if every slot is committed.
fn first_uncommitted(replica: &Replica) -> usize {
    let open = replica.insts.iter().position(|slot| slot.status < Status::Committed);
    replica.start_slot + open.unwrap_or(replica.insts.len())
}

/// 5: the call needs a slot at start+64 or later; the source, run, must ask for it too.
pub(crate) fn needs_a_slot_past_the_window(replica: &Replica, call: &Call) -> bool {
    let past = (replica.start_slot + WINDOW) as u64;
    match *call {
        Call::Prepare { trigger: slot, ballot, .. } | Call::Accept { slot, ballot, .. } => {
            ballot >= replica.bal_max_seen && slot >= past
        }
        Call::PrepareReply { slot, trigger, endprep, ballot, .. } => {
            ballot == replica.bal_prep_sent
                && slot >= past
                && slot <= endprep
                && leader_bookkeeping_at(replica, trigger)
        }
        // The told bar needs slot bar - 1, since slots are filled before any is looked at.
        Call::CommitNotice { ballot, bar, .. } => {
            ballot == replica.bal_max_seen && bar > replica.commit_bar as u64 && bar > past
        }
        Call::Timeout { source } => {
            !step_up_is_ignored(replica, source) && first_uncommitted(replica) as u64 == past
        }
        Call::Offer { .. } => replica.insts.len() == WINDOW,
        _ => false,
    }
}

fn leader_bookkeeping_at(replica: &Replica, slot: u64) -> bool {
    let (start, end) = (replica.start_slot as u64, replica.log_end() as u64);
    (start..end).contains(&slot) && replica.insts[(slot - start) as usize].leader_bk.is_some()
}

/// 01's fit record; from a fresh replica no call leads out of it.
pub(crate) fn is_fit(replica: &Replica) -> bool {
    let end = replica.log_end();
    replica.insts.len() <= WINDOW
        && replica.start_slot <= replica.exec_bar
        && replica.exec_bar <= replica.commit_bar
        && replica.commit_bar <= end
        && (replica.start_slot..=end).contains(&replica.accept_bar)
        && replica.leader.is_none_or(|leader| leader < replica.population)
}
