//! One call by its meaning: from a record and back, and how the source is run for it.

use std::fmt;

use crate::batch::{Batch, Keys};
use crate::host::Replica;
use crate::host::multipaxos::{Knowledge, PeerMsg, Status};
use crate::record::Record;
use crate::utils::SummersetError;

/// What a read reply knows of a key.
#[derive(Debug, Clone, Copy, PartialEq, Eq, Default)]
pub enum Known {
    #[default]
    Nothing,
    Slot(u64),
    Value(u64, u64),
}

impl Known {
    /// By 01's tag, slot and value.
    pub(crate) fn of([tag, slot, value]: &[u64; 3]) -> Known {
        match tag {
            0 => Known::Nothing,
            1 => Known::Slot(*slot),
            _ => Known::Value(*slot, *value),
        }
    }

    /// As the source has it.
    pub(crate) fn knowledge(&self) -> Knowledge {
        match *self {
            Known::Nothing => None,
            Known::Slot(slot) => Some((slot as usize, None)),
            Known::Value(slot, value) => Some((slot as usize, Some(value.to_string()))),
        }
    }
}

/// The list of a read reply.
#[derive(Clone, Copy, PartialEq, Eq, Default)]
pub struct KnownList {
    count: u8,
    list: [Known; 8],
}

impl KnownList {
    pub fn from_slice(list: &[Known]) -> Self {
        let mut known = KnownList { count: list.len() as u8, ..KnownList::default() };
        known.list[..list.len()].copy_from_slice(list);
        known
    }

    pub fn as_slice(&self) -> &[Known] {
        &self.list[..self.count as usize]
    }
}

impl fmt::Debug for KnownList {
    fn fmt(&self, out: &mut fmt::Formatter) -> fmt::Result {
        self.as_slice().fmt(out)
    }
}

/// The three log entries, by kind 8's sub.
#[derive(Debug, Clone, Copy, PartialEq, Eq)]
pub enum Entry {
    PrepareBal = 1,
    AcceptData = 2,
    CommitSlot = 3,
}

#[derive(Debug, Clone, Copy, PartialEq, Eq)]
pub enum Call {
    New {
        id: u8,
        group: u8,
        start: u64,
        options: u64,
    },
    Prepare {
        peer: u8,
        trigger: u64,
        ballot: u64,
    },
    PrepareReply {
        peer: u8,
        slot: u64,
        trigger: u64,
        endprep: u64,
        ballot: u64,
        vote: Option<(u64, Batch)>,
        bar: u64,
    },
    Accept {
        peer: u8,
        slot: u64,
        ballot: u64,
        batch: Batch,
    },
    AcceptReply {
        peer: u8,
        slot: u64,
        ballot: u64,
    },
    CommitNotice {
        peer: u8,
        ballot: u64,
        bar: u64,
    },
    Timeout {
        source: u8,
    },
    Offer {
        batch: Batch,
    },
    /// 02, Wish 5: a completion names the ballot that its entry was written at.
    LogDone {
        entry: Entry,
        slot: u64,
        ballot: u64,
        size: u64,
    },
    Executed {
        slot: u64,
    },
    OpenRead {
        read: u64,
        keys: Keys,
    },
    ReadReply {
        peer: u8,
        read: u64,
        known: KnownList,
        from_leader: bool,
    },
}

impl Call {
    /// A well-formed record's call; fields that its kind does not use are passed by.
    pub fn from_record(record: &Record) -> Call {
        let Record { peer, slot, trigger, endprep, ballot, bar, .. } = *record;
        match record.kind {
            0 => Call::New { id: peer, group: record.sub, start: slot, options: trigger },
            1 => Call::Prepare { peer, trigger, ballot },
            2 => {
                let vote = (record.sub == 1).then(|| (record.voted_ballot, batch_of(record)));
                Call::PrepareReply { peer, slot, trigger, endprep, ballot, vote, bar }
            }
            3 => Call::Accept { peer, slot, ballot, batch: batch_of(record) },
            4 => Call::AcceptReply { peer, slot, ballot },
            5 => Call::CommitNotice { peer, ballot, bar },
            6 => Call::Timeout { source: peer },
            7 => Call::Offer { batch: batch_of(record) },
            8 => {
                let entry = match record.sub {
                    1 => Entry::PrepareBal,
                    2 => Entry::AcceptData,
                    _ => Entry::CommitSlot,
                };
                Call::LogDone { entry, slot, ballot, size: bar }
            }
            9 => Call::Executed { slot },
            10 => Call::OpenRead { read: slot, keys: batch_of(record).keys },
            _ => Call::ReadReply {
                peer,
                read: slot,
                known: known_of(record),
                from_leader: record.sub == 1,
            },
        }
    }

    pub fn to_record(&self) -> Record {
        let none = Record::default();
        match *self {
            Call::New { id, group, start, options } => {
                Record { kind: 0, peer: id, sub: group, slot: start, trigger: options, ..none }
            }
            Call::Prepare { peer, trigger, ballot } => {
                Record { kind: 1, peer, trigger, ballot, ..none }
            }
            Call::PrepareReply { peer, slot, trigger, endprep, ballot, vote, bar } => {
                let (voted_ballot, batch) = vote.unwrap_or_default();
                let sub = u8::from(vote.is_some());
                let fields =
                    Record { kind: 2, peer, sub, slot, trigger, endprep, ballot, bar, ..none };
                with_batch(Record { voted_ballot, ..fields }, batch)
            }
            Call::Accept { peer, slot, ballot, batch } => {
                with_batch(Record { kind: 3, peer, slot, ballot, ..none }, batch)
            }
            Call::AcceptReply { peer, slot, ballot } => {
                Record { kind: 4, peer, slot, ballot, ..none }
            }
            Call::CommitNotice { peer, ballot, bar } => {
                Record { kind: 5, peer, ballot, bar, ..none }
            }
            Call::Timeout { source } => Record { kind: 6, peer: source, ..none },
            Call::Offer { batch } => with_batch(Record { kind: 7, ..none }, batch),
            Call::LogDone { entry, slot, ballot, size } => {
                Record { kind: 8, sub: entry as u8, slot, ballot, bar: size, ..none }
            }
            Call::Executed { slot } => Record { kind: 9, slot, ..none },
            Call::OpenRead { read, keys } => {
                with_batch(Record { kind: 10, slot: read, ..none }, Batch { id: 0, keys })
            }
            Call::ReadReply { peer, read, known, from_leader } => {
                let sub = u8::from(from_leader);
                with_known(Record { kind: 11, peer, sub, slot: read, ..none }, &known)
            }
        }
    }

    /// Runs the source, or 01's form of an added call; the call has passed the refusals.
    pub(crate) fn run(&self, replica: &mut Replica) -> Result<(), SummersetError> {
        match *self {
            Call::New { .. } => must_not_be_reached!("a new replica inside an old one"),
            Call::Timeout { source } => replica.time_out(source),
            Call::Offer { batch } => replica.offer(batch.to_requests()),
            // The source has no place for the ballot.
            Call::LogDone { entry, slot, ballot: _, size } => {
                replica.log_done(slot as usize, entry.status(), size as usize)
            }
            Call::Executed { slot } => {
                replica.executed(slot as usize);
                Ok(())
            }
            Call::OpenRead { read, keys } => {
                replica.open_read(read, keys.as_slice());
                Ok(())
            }
            _ => {
                let (peer, message) = self.message();
                replica.receive(peer, message)
            }
        }
    }

    /// The source's message of a call that comes from a member.
    fn message(&self) -> (u8, PeerMsg) {
        match *self {
            Call::Prepare { peer, trigger, ballot } => {
                (peer, PeerMsg::Prepare { trigger_slot: trigger as usize, ballot })
            }
            Call::PrepareReply { peer, slot, trigger, endprep, ballot, vote, bar } => {
                let message = PeerMsg::PrepareReply {
                    slot: slot as usize,
                    trigger_slot: trigger as usize,
                    endprep_slot: endprep as usize,
                    ballot,
                    voted: vote.map(|(ballot, batch)| (ballot, batch.to_requests())),
                    accept_bar: bar as usize,
                };
                (peer, message)
            }
            Call::Accept { peer, slot, ballot, batch } => {
                (peer, PeerMsg::Accept { slot: slot as usize, ballot, reqs: batch.to_requests() })
            }
            Call::AcceptReply { peer, slot, ballot } => {
                (peer, PeerMsg::AcceptReply { slot: slot as usize, ballot, reply_ts: None })
            }
            Call::CommitNotice { peer, ballot, bar } => {
                (peer, PeerMsg::CommitNotice { ballot, commit_bar: bar as usize })
            }
            Call::ReadReply { peer, read, known, from_leader } => {
                let replies = known.as_slice().iter().map(Known::knowledge).collect();
                let rq_id = Replica::read_name(read);
                (peer, PeerMsg::ReadQueryReply { rq_id, replies, from_leader })
            }
            _ => must_not_be_reached!("a call that is no message"),
        }
    }
}

impl Entry {
    pub(crate) fn status(self) -> Status {
        match self {
            Entry::PrepareBal => Status::Preparing,
            Entry::AcceptData => Status::Accepting,
            Entry::CommitSlot => Status::Committed,
        }
    }
}

fn batch_of(record: &Record) -> Batch {
    let mut batch = Batch { id: record.batch, keys: Keys::default() };
    for entry in &record.entries[..usize::from(record.count)] {
        batch.keys.push(entry[0]);
    }
    batch
}

fn with_batch(record: Record, batch: Batch) -> Record {
    let mut filled = Record { batch: batch.id, count: batch.keys.len() as u8, ..record };
    for (entry, &key) in filled.entries.iter_mut().zip(batch.keys.as_slice()) {
        entry[0] = key;
    }
    filled
}

fn known_of(record: &Record) -> KnownList {
    let mut known = KnownList { count: record.count, ..KnownList::default() };
    for (place, entry) in record.entries[..usize::from(record.count)].iter().enumerate() {
        known.list[place] = Known::of(entry);
    }
    known
}

fn with_known(record: Record, known: &KnownList) -> Record {
    let mut filled = Record { count: known.as_slice().len() as u8, ..record };
    for (entry, known) in filled.entries.iter_mut().zip(known.as_slice()) {
        *entry = match *known {
            Known::Nothing => [0, 0, 0],
            Known::Slot(slot) => [1, slot, 0],
            Known::Value(slot, value) => [2, slot, value],
        };
    }
    filled
}
