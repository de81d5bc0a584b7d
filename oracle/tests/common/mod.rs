//! Members driven by calls, and their told state by number.
#![allow(dead_code)]

use std::io::Read;

use oracle::action::{Action, Kind};
use oracle::batch::{Batch, Keys};
use oracle::call::{Call, Entry, Known, KnownList};
use oracle::play::play;
use oracle::session::Session;
use oracle::tell::Text;

/// The told text of a trace.
pub fn told_text(trace: impl Read) -> String {
    let mut text = Text::default();
    play(trace, |played| {
        text.told(played.number, played.outcome, played.replica);
        Ok(())
    })
    .expect("the trace is read");
    String::from_utf8(text.bytes).expect("the text is ASCII")
}

pub struct Member(pub Session);

/// What a member gave: its answer and its actions.
pub type Given = (u8, Vec<Action>);

impl Member {
    pub fn new(id: u8, group: u8, start: u64) -> Self {
        Member::with_options(id, group, start, 0)
    }

    pub fn with_options(id: u8, group: u8, start: u64, options: u64) -> Self {
        let mut session = Session::default();
        assert_eq!(session.call(&Call::New { id, group, start, options }).answer, 0);
        Member(session)
    }

    pub fn call(&mut self, call: Call) -> Given {
        let outcome = self.0.call(&call);
        (outcome.answer, outcome.actions)
    }

    /// Gives a call that must be refused with this answer and must change nothing.
    pub fn refuses(&mut self, answer: u8, call: Call) {
        let before = self.told();
        assert_eq!(self.call(call), (answer, Vec::new()), "{call:?}");
        assert_eq!(self.told(), before, "{call:?}");
    }

    /// Gives a call that must be ignored.
    pub fn ignores(&mut self, call: Call) {
        self.refuses(0, call);
    }

    /// Gives a call that must be done.
    pub fn does(&mut self, call: Call) -> Vec<Action> {
        let (answer, actions) = self.call(call);
        assert_eq!(answer, 0, "{call:?}");
        actions
    }

    pub fn told(&self) -> String {
        let mut text = Text::default();
        text.state(self.0.replica().expect("a replica"));
        String::from_utf8(text.bytes).expect("the text is ASCII")
    }

    fn rows(&self, letter: &str) -> Vec<Vec<u64>> {
        let told = self.told();
        let rows = told.lines().filter(|line| line.starts_with(letter));
        rows.map(|row| row.split(' ').skip(1).map(|word| word.parse().unwrap()).collect()).collect()
    }

    /// The 36 numbers of each slot.
    pub fn slots(&self) -> Vec<Vec<u64>> {
        self.rows("I")
    }

    pub fn status(&self, place: usize) -> u64 {
        self.slots()[place][2]
    }

    /// The 18 numbers of the replica.
    pub fn scalars(&self) -> Vec<u64> {
        self.rows("S").remove(0)
    }

    /// The line after the scalars, which must be the summary's.
    pub fn summary(&self) -> String {
        self.told().lines().nth(1).expect("a second line").to_string()
    }

    pub fn peer_bar(&self, member: u64) -> Option<u64> {
        self.rows("P").iter().find(|row| row[0] == member).map(|row| row[1])
    }

    pub fn reads(&self) -> Vec<Vec<u64>> {
        self.rows("R")
    }
}

pub const START: usize = 3;
pub const LEADER: usize = 6;
pub const BAL_PREP_SENT: usize = 7;
pub const BAL_PREPARED: usize = 8;
pub const BAL_MAX_SEEN: usize = 9;
pub const COMMIT_BAR: usize = 11;
pub const EXEC_BAR: usize = 12;

pub fn kinds(actions: &[Action]) -> Vec<Kind> {
    actions.iter().map(|action| action.kind).collect()
}

pub fn prepare(peer: u8, ballot: u64, trigger: u64) -> Call {
    Call::Prepare { peer, trigger, ballot }
}

pub fn accept(peer: u8, ballot: u64, slot: u64, batch: Batch) -> Call {
    Call::Accept { peer, slot, ballot, batch }
}

pub fn accept_reply(peer: u8, ballot: u64, slot: u64) -> Call {
    Call::AcceptReply { peer, slot, ballot }
}

/// A reply of one slot: trigger, slot and endprep coincide.
pub fn prepare_reply(peer: u8, ballot: u64, slot: u64) -> Call {
    spanning_reply(peer, ballot, slot, slot, slot)
}

pub fn spanning_reply(peer: u8, ballot: u64, slot: u64, trigger: u64, endprep: u64) -> Call {
    Call::PrepareReply { peer, slot, trigger, endprep, ballot, vote: None, bar: 0 }
}

pub fn with_vote(call: Call, vote: (u64, Batch)) -> Call {
    let Call::PrepareReply { peer, slot, trigger, endprep, ballot, bar, .. } = call else {
        panic!("only a PrepareReply has a vote");
    };
    Call::PrepareReply { peer, slot, trigger, endprep, ballot, vote: Some(vote), bar }
}

/// A completion at the ballot that the entry was written at.
pub fn done(entry: Entry, slot: u64, ballot: u64) -> Call {
    Call::LogDone { entry, slot, ballot, size: 100 }
}

pub fn timeout(source: u8) -> Call {
    Call::Timeout { source }
}

pub fn notice(peer: u8, ballot: u64, bar: u64) -> Call {
    Call::CommitNotice { peer, ballot, bar }
}

pub fn offer(id: u64, keys: &[u64]) -> Call {
    Call::Offer { batch: Batch::new(id, keys) }
}

pub fn open_read(read: u64, keys: &[u64]) -> Call {
    Call::OpenRead { read, keys: Keys::from_slice(keys) }
}

pub fn read_reply(peer: u8, read: u64, known: &[Known]) -> Call {
    Call::ReadReply { peer, read, known: KnownList::from_slice(known), from_leader: false }
}

/// Member 0 of a group, prepared at ballot 257 with slot `start` in Accepting.
pub fn prepared_leader(group: u8, start: u64) -> Member {
    let mut leader = Member::new(0, group, start);
    leader.does(timeout(0));
    leader.does(done(Entry::PrepareBal, start, 257));
    for peer in 1..=group / 2 {
        leader.does(prepare_reply(peer, 257, start));
    }
    assert_eq!(leader.scalars()[BAL_PREPARED], 257);
    leader
}
