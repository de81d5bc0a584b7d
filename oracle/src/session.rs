//! A replica with its records: every record gets 01's answer, and a refusal changes nothing. The
//! source plays the base kind, the model the strict one.

use crate::action::{Action, ROOM};
use crate::call::Call;
use crate::guard::{self, Ended, Place};
use crate::host::{Replica, actions, recorder};
use crate::model;
use crate::record::Record;
use crate::refuse::{self, MOST_HIGHEST_KEYS};
use crate::shown::Shown;

#[derive(Debug, Clone, PartialEq, Eq)]
pub struct Outcome {
    pub answer: u8,
    pub actions: Vec<Action>,
    /// Where the source panicked, for a 6.
    pub place: Option<Place>,
}

impl Outcome {
    pub(crate) fn refused(answer: u8) -> Self {
        Outcome { answer, actions: Vec::new(), place: None }
    }
}

/// The replica of a trace; none until a first one is made.
#[derive(Default)]
pub struct Session {
    player: Option<Player>,
}

enum Player {
    Rust(Live),
    Model(model::Replica),
}

/// The source's replica in use, and what is needed to have it back as it was before a call.
struct Live {
    replica: Replica,
    copy: Replica,
    since_copy: Vec<Call>,
}

/// So many calls are run again at most where a call is refused after it began.
const CALLS_PER_COPY: usize = 32;

impl Session {
    pub fn replica(&self) -> Option<Shown<'_>> {
        self.player.as_ref().map(|player| match player {
            Player::Rust(live) => Shown::Rust(&live.replica),
            Player::Model(replica) => Shown::Model(replica),
        })
    }

    /// One record of a trace, whole or cut short.
    pub fn feed(&mut self, bytes: &[u8]) -> Outcome {
        match Record::decode(bytes) {
            Some(record) => self.call(&Call::from_record(&record)),
            None => Outcome::refused(13),
        }
    }

    /// Changes the source's replica by hand, as if it had come so.
    pub(crate) fn change(&mut self, change: impl FnOnce(&mut Replica)) {
        if let Some(Player::Rust(live)) = &mut self.player {
            change(&mut live.replica);
            live.copy = live.replica.clone();
            live.since_copy.clear();
        }
    }

    pub fn call(&mut self, call: &Call) -> Outcome {
        if let Call::New { id, group, start, options } = *call {
            if refuse::new_replica_is_outside(id, group, start, options) {
                return Outcome::refused(10);
            }
            self.player = Some(Player::new(id, group, start, options));
            return Outcome { answer: 0, actions: Vec::new(), place: None };
        }
        match &mut self.player {
            // The all-zero record is unfit.
            None => Outcome::refused(1),
            Some(Player::Rust(live)) => live.call(call),
            Some(Player::Model(replica)) => replica.call(call),
        }
    }
}

impl Player {
    /// The numbers are not outside 01's and 02's.
    fn new(id: u8, group: u8, start: u64, options: u64) -> Self {
        if refuse::is_strict(options) {
            let fresh = model::Replica::fresh(id, group, start, options);
            return Player::Model(fresh.expect("the model makes what is not refused"));
        }
        let (urgent, disallow) = (options & 1 != 0, options & 2 != 0);
        Player::Rust(Live::new(Replica::fresh(id, group, start as usize, urgent, disallow)))
    }
}

impl Live {
    fn new(replica: Replica) -> Self {
        Live { copy: replica.clone(), replica, since_copy: Vec::new() }
    }

    fn call(&mut self, call: &Call) -> Outcome {
        if let Some(answer) = refuse::before_running(&self.replica, call) {
            return Outcome::refused(answer);
        }
        let past_the_window = refuse::needs_a_slot_past_the_window(&self.replica, call);
        let ended = guard::attempt(|| call.run(&mut self.replica));
        let actions = actions::take(&self.replica);
        assert_eq!(
            past_the_window,
            ended == Ended::WindowFull,
            "01's 5 and the source's need of a slot differ: {call:?}"
        );
        match ended {
            Ended::WindowFull => self.refuse(5),
            Ended::Panicked(place) => Outcome { place: Some(place), ..self.refuse(6) },
            Ended::Done if self.replica.highest_slot.len() > MOST_HIGHEST_KEYS => self.refuse(7),
            Ended::Done => self.keep(call, 0, actions),
            Ended::Failed(error) if error.is_a_conflict() => {
                assert!(actions.is_empty(), "a conflict gives no actions: {call:?}");
                self.keep(call, 12, actions)
            }
            Ended::Failed(error) => panic!("an error without a number: {}", error.text()),
        }
    }

    fn keep(&mut self, call: &Call, answer: u8, actions: Vec<Action>) -> Outcome {
        assert!(actions.len() <= ROOM, "more actions than 01 has room for: {call:?}");
        assert!(refuse::is_fit(&self.replica), "the source leaves an unfit record: {call:?}");
        assert!(
            actions::commits_have_their_slots_ballots(&self.replica, &actions),
            "a CommitSlot's ballot is not the one that its slot has after the call: {call:?}"
        );
        self.since_copy.push(*call);
        if self.since_copy.len() >= CALLS_PER_COPY {
            self.copy = self.replica.clone();
            self.since_copy.clear();
        }
        Outcome { answer, actions, place: None }
    }

    /// Puts the replica back as it was before the call: the last copy, and the calls since then.
    fn refuse(&mut self, answer: u8) -> Outcome {
        self.replica = self.copy.clone();
        for call in &self.since_copy {
            // A 12 keeps what it merged, so its error is part of the way.
            let _ = call.run(&mut self.replica);
        }
        recorder::take();
        Outcome::refused(answer)
    }
}
