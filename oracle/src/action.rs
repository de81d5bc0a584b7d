//! An action of 01: 18 numbers.

use crate::batch::Batch;

/// The member number that stands for all.
pub const ALL: u64 = 255;
/// 01: "No call gives more than 192 actions".
pub const ROOM: usize = 192;

/// 01's kinds 1 to 13, in its order.
#[derive(Debug, Clone, Copy, PartialEq, Eq, Default)]
pub enum Kind {
    #[default]
    PrepareBal = 1,
    AcceptData,
    CommitSlot,
    Prepare,
    PrepareReply,
    Accept,
    AcceptReply,
    CommitNotice,
    Heartbeat,
    StatusUp,
    StatusDown,
    Execute,
    ReadAnswer,
}

pub const KIND_NAMES: [&str; 13] = [
    "PrepareBal",
    "AcceptData",
    "CommitSlot",
    "Prepare",
    "PrepareReply",
    "Accept",
    "AcceptReply",
    "CommitNotice",
    "heartbeat",
    "status up",
    "status down",
    "Execute",
    "read answer",
];

/// What the source's message or entry lacks is 0, but for CommitSlot's ballot (02, Wish 5).
#[derive(Debug, Clone, Copy, PartialEq, Eq, Default)]
pub struct Action {
    pub kind: Kind,
    pub member: u64,
    pub slot: u64,
    pub trigger: u64,
    pub endprep: u64,
    pub ballot: u64,
    pub voted_ballot: u64,
    pub batch: Batch,
    pub bar: u64,
}

impl Action {
    /// A read answer: read id, place, tag and value or leader in the four after the member.
    pub fn read_answer(read: u64, place: u64, tag: u64, content: u64) -> Self {
        Action {
            kind: Kind::ReadAnswer,
            slot: read,
            trigger: place,
            endprep: tag,
            ballot: content,
            ..Action::default()
        }
    }

    pub fn numbers(&self) -> [u64; 18] {
        let mut row = [0; 18];
        row[0] = self.kind as u64;
        row[1] = self.member;
        row[2] = self.slot;
        row[3] = self.trigger;
        row[4] = self.endprep;
        row[5] = self.ballot;
        row[6] = self.voted_ballot;
        row[7] = self.batch.id;
        row[8] = self.bar;
        row[9] = self.batch.keys.len() as u64;
        row[10..10 + self.batch.keys.len()].copy_from_slice(self.batch.keys.as_slice());
        row
    }
}
