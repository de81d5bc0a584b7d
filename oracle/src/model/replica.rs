//! The record of a replica, and how a fresh one looks.

use std::collections::BTreeMap;

use super::reads::Read;
use super::rules::Rules;
use crate::batch::Batch;

/// 01: "Window of 64 slots from `start_slot`".
pub(super) const WINDOW: u64 = 64;
const MOST_START: u64 = 1 << 32;

#[derive(Debug, Clone, PartialEq, Eq)]
pub struct Replica {
    /// 02, Wish 6: "a strict kind of replica, chosen when it is made".
    pub strict: bool,
    /// All of 02's, or none; fewer in tests alone.
    pub rules: Rules,
    pub id: u8,
    pub group: u8,
    pub start: u64,
    pub urgent: bool,
    pub disallow: bool,
    pub leader: Option<u8>,
    pub bal_prep_sent: u64,
    pub bal_prepared: u64,
    pub bal_max_seen: u64,
    pub accept_bar: u64,
    pub commit_bar: u64,
    pub exec_bar: u64,
    pub wal_offset: u64,
    /// By member; self has none until its first PrepareReply.
    pub peer_accept: Vec<Option<u64>>,
    pub peer_accept_max: u64,
    pub slots: Vec<Slot>,
    /// The highest slot of each key.
    pub keys: BTreeMap<u64, u64>,
    pub reads: BTreeMap<u64, Read>,
    /// The strict leader's trigger: the one that its last step-up sent, 0 before any.
    pub lead_trigger: u64,
}

#[derive(Debug, Clone, Copy, PartialEq, Eq, PartialOrd, Ord, Default)]
pub enum Status {
    #[default]
    Null,
    Preparing,
    Accepting,
    Committed,
    Executed,
}

/// 01: "A null slot is all zero and empty." Sets of members are bits.
#[derive(Debug, Clone, Copy, PartialEq, Eq, Default)]
pub struct Slot {
    pub ballot: u64,
    pub status: Status,
    pub external: bool,
    pub wal_offset: u64,
    pub batch: Batch,
    pub vote: (u64, Batch),
    pub leading: Option<Leading>,
    pub following: Option<Following>,
    /// 02 (c): the members whose reply for this slot the strict leader has noted.
    pub noted: u64,
}

#[derive(Debug, Clone, Copy, PartialEq, Eq, Default)]
pub struct Leading {
    pub trigger: u64,
    pub endprep: u64,
    pub prepare_acks: u64,
    pub prepare_max_bal: u64,
    pub accept_acks: u64,
}

#[derive(Debug, Clone, Copy, PartialEq, Eq, Default)]
pub struct Following {
    pub source: u8,
    pub trigger: u64,
    pub endprep: u64,
}

impl Replica {
    /// 01, "Fresh"; nothing where a new replica is 10.
    pub fn fresh(id: u8, group: u8, start: u64, options: u64) -> Option<Replica> {
        let known_group = matches!(group, 1 | 3 | 5 | 7 | 9);
        if !known_group || id >= group || start > MOST_START || options > 7 {
            return None;
        }
        // 02: "trace: 4 more in trigger".
        let strict = options & 4 != 0;
        Some(Replica {
            strict,
            rules: if strict { Rules::STRICT } else { Rules::BASE },
            id,
            group,
            start,
            urgent: options & 1 != 0,
            disallow: options & 2 != 0,
            leader: None,
            bal_prep_sent: 0,
            bal_prepared: 0,
            bal_max_seen: 0,
            accept_bar: start,
            commit_bar: start,
            exec_bar: start,
            wal_offset: 0,
            peer_accept: (0..group).map(|member| (member != id).then_some(u64::MAX)).collect(),
            peer_accept_max: u64::MAX,
            slots: Vec::new(),
            keys: BTreeMap::new(),
            reads: BTreeMap::new(),
            lead_trigger: 0,
        })
    }

    pub fn quorum(&self) -> u32 {
        u32::from(self.group / 2 + 1)
    }

    pub fn leads(&self) -> bool {
        self.leader == Some(self.id)
    }

    pub fn log_end(&self) -> u64 {
        self.start + self.slots.len() as u64
    }

    /// The first number that no slot can have.
    pub(super) fn window_end(&self) -> u64 {
        self.start + WINDOW
    }

    pub fn slot(&self, number: u64) -> Option<&Slot> {
        let place = number.checked_sub(self.start)?;
        self.slots.get(usize::try_from(place).ok()?)
    }

    /// A slot that is present.
    pub(super) fn present(&mut self, number: u64) -> &mut Slot {
        &mut self.slots[(number - self.start) as usize]
    }

    /// Null slots up to and with this one; 5 where it lies past the window.
    pub(super) fn fill_up_to(&mut self, number: u64) -> Result<(), u8> {
        if number >= self.window_end() {
            return Err(5);
        }
        while self.log_end() <= number {
            self.slots.push(Slot::default());
        }
        Ok(())
    }

    /// 01's answer 1, the other way round.
    pub fn is_fit(&self) -> bool {
        self.slots.len() as u64 <= WINDOW
            && self.start <= self.exec_bar
            && self.exec_bar <= self.commit_bar
            && self.commit_bar <= self.log_end()
            && (self.start..=self.log_end()).contains(&self.accept_bar)
    }
}

impl Slot {
    /// "Committed or Executed".
    pub fn is_committed(&self) -> bool {
        self.status >= Status::Committed
    }
}

impl Leading {
    pub(super) fn of(trigger: u64, endprep: u64) -> Self {
        Leading { trigger, endprep, ..Leading::default() }
    }
}
