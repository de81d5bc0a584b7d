//! The replica of a trace as others look at it: the source plays the base kind, the model the strict
//! one.

use crate::call::Known;
use crate::host::Replica;
use crate::model;
use crate::server::ApiRequest;

#[derive(Clone, Copy)]
pub enum Shown<'a> {
    Rust(&'a Replica),
    Model(&'a model::Replica),
}

/// What the generators look at; slots by their place in the window, statuses by 01's number.
impl<'a> Shown<'a> {
    /// Bars and ballots of `replay`'s line: bal_max_seen, accept_bar, commit_bar, exec_bar.
    pub fn line(self) -> [u64; 4] {
        match self {
            Shown::Rust(replica) => {
                let bars = [replica.accept_bar, replica.commit_bar, replica.exec_bar];
                [replica.bal_max_seen, bars[0] as u64, bars[1] as u64, bars[2] as u64]
            }
            Shown::Model(replica) => replica.line(),
        }
    }

    pub fn is_strict(self) -> bool {
        matches!(self, Shown::Model(replica) if replica.strict)
    }

    pub fn id(self) -> u8 {
        match self {
            Shown::Rust(replica) => replica.id,
            Shown::Model(replica) => replica.id,
        }
    }

    pub fn group(self) -> u8 {
        match self {
            Shown::Rust(replica) => replica.population,
            Shown::Model(replica) => replica.group,
        }
    }

    pub fn leader(self) -> Option<u8> {
        match self {
            Shown::Rust(replica) => replica.leader,
            Shown::Model(replica) => replica.leader,
        }
    }

    pub fn leads(self) -> bool {
        self.leader() == Some(self.id())
    }

    pub fn bal_prep_sent(self) -> u64 {
        match self {
            Shown::Rust(replica) => replica.bal_prep_sent,
            Shown::Model(replica) => replica.bal_prep_sent,
        }
    }

    pub fn bal_prepared(self) -> u64 {
        match self {
            Shown::Rust(replica) => replica.bal_prepared,
            Shown::Model(replica) => replica.bal_prepared,
        }
    }

    pub fn bal_max_seen(self) -> u64 {
        self.line()[0]
    }

    pub fn accept_bar(self) -> u64 {
        self.line()[1]
    }

    pub fn commit_bar(self) -> u64 {
        self.line()[2]
    }

    pub fn exec_bar(self) -> u64 {
        self.line()[3]
    }

    pub fn wal_offset(self) -> u64 {
        match self {
            Shown::Rust(replica) => replica.wal_offset as u64,
            Shown::Model(replica) => replica.wal_offset,
        }
    }

    pub fn start(self) -> u64 {
        match self {
            Shown::Rust(replica) => replica.start_slot as u64,
            Shown::Model(replica) => replica.start,
        }
    }

    /// How many slots are present.
    pub fn slots(self) -> usize {
        match self {
            Shown::Rust(replica) => replica.insts.len(),
            Shown::Model(replica) => replica.slots.len(),
        }
    }

    pub fn log_end(self) -> u64 {
        self.start() + self.slots() as u64
    }

    pub fn status(self, place: usize) -> u64 {
        match self {
            Shown::Rust(replica) => replica.insts[place].status as u64,
            Shown::Model(replica) => replica.slots[place].status as u64,
        }
    }

    /// The trigger in a slot's leader bookkeeping, where it has one.
    pub fn leading_trigger(self, place: usize) -> Option<u64> {
        match self {
            Shown::Rust(replica) => {
                replica.insts[place].leader_bk.as_ref().map(|own| own.trigger_slot as u64)
            }
            Shown::Model(replica) => replica.slots[place].leading.map(|own| own.trigger),
        }
    }

    pub fn open_reads(self) -> usize {
        match self {
            Shown::Rust(replica) => replica.quorum_reads.len(),
            Shown::Model(replica) => replica.reads.len(),
        }
    }

    /// Id and number of keys of each open read, by id.
    pub fn reads(self) -> Vec<(u64, usize)> {
        match self {
            Shown::Rust(replica) => {
                let reads = replica.quorum_reads.iter();
                let mut open: Vec<_> =
                    reads.map(|(name, read)| (name.0, read.reads.len())).collect();
                open.sort_unstable();
                open
            }
            Shown::Model(replica) => {
                replica.reads.iter().map(|(id, read)| (*id, read.keys.len())).collect()
            }
        }
    }

    pub fn keys(self) -> usize {
        match self {
            Shown::Rust(replica) => replica.highest_slot.len(),
            Shown::Model(replica) => replica.keys.len(),
        }
    }

    /// What the member tells of a key: its highest slot, with the batch's id for a value once it is
    /// committed.
    pub fn knowledge(self, key: u64) -> Known {
        let Some(slot) = self.highest_slot(key) else { return Known::Nothing };
        let place = (slot - self.start()) as usize;
        match self.batch_id(place) {
            Some(id) if self.status(place) >= model::Status::Committed as u64 => {
                Known::Value(slot, id)
            }
            _ => Known::Slot(slot),
        }
    }

    fn highest_slot(self, key: u64) -> Option<u64> {
        match self {
            Shown::Rust(replica) => {
                replica.highest_slot.get(&key.to_string()).map(|&slot| slot as u64)
            }
            Shown::Model(replica) => replica.keys.get(&key).copied(),
        }
    }

    /// None for the empty batch.
    fn batch_id(self, place: usize) -> Option<u64> {
        match self {
            Shown::Rust(replica) => match replica.insts[place].reqs.first() {
                Some((_, ApiRequest::Req { id, .. })) => Some(*id),
                _ => None,
            },
            Shown::Model(replica) => Some(replica.slots[place].batch.id).filter(|&id| id != 0),
        }
    }

    /// The strict replica's own record.
    pub fn model(self) -> Option<&'a model::Replica> {
        match self {
            Shown::Rust(_) => None,
            Shown::Model(replica) => Some(replica),
        }
    }

    /// The source's own record.
    pub(crate) fn rust(self) -> Option<&'a Replica> {
        match self {
            Shown::Rust(replica) => Some(replica),
            Shown::Model(_) => None,
        }
    }
}
