//! What a trace reaches: answers, actions, branches of the four files and of the strict rules, and how
//! deep it goes.

use std::collections::BTreeMap;
use std::io::{self, Read};

use crate::action::KIND_NAMES;
use crate::branches::{BRANCHES, Seen};
use crate::call::Call;
use crate::guard::Place;
use crate::host::Replica;
use crate::model;
use crate::model::branches::STRICT_BRANCHES;
use crate::play::{Played, play};
use crate::record::Record;
use crate::session::Outcome;
use crate::shown::Shown;

pub struct Stats {
    pub records: u64,
    pub replicas: u64,
    pub answers: [u64; 16],
    pub actions: [u64; 13],
    pub branches: Vec<u64>,
    pub strict_branches: Vec<u64>,
    /// Where the source panicked, and how often.
    pub places: BTreeMap<Place, u64>,
    /// Largest numbers met.
    pub depth: Depth,
    before: Option<Before>,
}

/// The replica before the record.
enum Before {
    Rust(Replica),
    Model(model::Replica),
}

/// 14 is never given: neither the source nor the model keeps a summary that could be wrong.
const ANSWERS: [usize; 15] = [0, 1, 2, 3, 4, 5, 6, 7, 8, 9, 10, 11, 12, 13, 15];

#[derive(Default)]
pub struct Depth {
    pub slots: usize,
    pub keys: usize,
    pub reads: usize,
    pub committed: usize,
    pub executed: usize,
    pub rounds: u64,
    pub actions: usize,
}

impl Default for Stats {
    fn default() -> Self {
        Stats {
            records: 0,
            replicas: 0,
            answers: [0; 16],
            actions: [0; 13],
            branches: vec![0; BRANCHES.len()],
            strict_branches: vec![0; STRICT_BRANCHES.len()],
            places: BTreeMap::new(),
            depth: Depth::default(),
            before: None,
        }
    }
}

impl Stats {
    /// Adds a trace.
    pub fn read(&mut self, input: impl Read) -> io::Result<()> {
        self.before = None;
        play(input, |played| {
            self.add(&played);
            Ok(())
        })
    }

    fn add(&mut self, played: &Played) {
        self.records += 1;
        self.answers[usize::from(played.outcome.answer)] += 1;
        for action in &played.outcome.actions {
            self.actions[action.kind as usize - 1] += 1;
        }
        if let Some(place) = played.outcome.place {
            *self.places.entry(place).or_default() += 1;
        }
        let (Some(record), Some(after)) = (Record::decode(played.bytes), played.replica) else {
            return;
        };
        let call = Call::from_record(&record);
        let ran = matches!(played.outcome.answer, 0 | 12);
        if !matches!(call, Call::New { .. }) {
            self.add_branches(&call, after, played.outcome);
        } else if ran {
            self.replicas += 1;
        }
        if ran {
            self.depth.add(played, after);
            self.before = Some(match after {
                Shown::Rust(replica) => Before::Rust(replica.clone()),
                Shown::Model(replica) => Before::Model(replica.clone()),
            });
        }
    }

    /// Of the source what it ran to its end; of a strict replica also 15.
    fn add_branches(&mut self, call: &Call, after: Shown, outcome: &Outcome) {
        match (&self.before, after) {
            (Some(Before::Rust(before)), Shown::Rust(after))
                if matches!(outcome.answer, 0 | 12) =>
            {
                let seen = Seen { call, before, after, outcome };
                for (count, branch) in self.branches.iter_mut().zip(BRANCHES) {
                    *count += u64::from((branch.2)(&seen));
                }
            }
            (Some(Before::Model(before)), Shown::Model(after)) => {
                let seen = model::branches::Seen { call, before, after, outcome };
                for (count, branch) in self.strict_branches.iter_mut().zip(STRICT_BRANCHES) {
                    *count += u64::from((branch.1)(&seen));
                }
            }
            _ => {}
        }
    }

    /// What a full set of traces must reach and this one does not, in words.
    pub fn missing(&self) -> Vec<String> {
        let answers = ANSWERS.into_iter().filter(|&answer| self.answers[answer] == 0);
        let kinds = (0..13).filter(|&kind| self.actions[kind] == 0);
        let names = BRANCHES.iter().map(|branch| branch.1);
        let strict_names = STRICT_BRANCHES.iter().map(|branch| branch.0);
        let counts = self.branches.iter().chain(&self.strict_branches);
        let branches = names.chain(strict_names).zip(counts).filter(|(_, count)| **count == 0);
        answers
            .map(|answer| format!("answer {answer}"))
            .chain(kinds.map(|kind| format!("action {}", KIND_NAMES[kind])))
            .chain(branches.map(|(name, _)| format!("branch: {name}")))
            .collect()
    }

    pub fn report(&self) -> String {
        let mut text = format!("records {:9}\nreplicas {:8}\n", self.records, self.replicas);
        for answer in ANSWERS {
            text += &format!("answer {answer:2} {:8}\n", self.answers[answer]);
        }
        for (kind, count) in self.actions.iter().enumerate() {
            text += &format!("action {:2} {count:8}  {}\n", kind + 1, KIND_NAMES[kind]);
        }
        for (branch, count) in BRANCHES.iter().zip(&self.branches) {
            text += &format!("branch {count:11}  {}: {}\n", branch.0, branch.1);
        }
        for (branch, count) in STRICT_BRANCHES.iter().zip(&self.strict_branches) {
            text += &format!("branch {count:11}  strict: {}\n", branch.0);
        }
        for (place, count) in &self.places {
            text += &format!("six {count:14}  {place}\n");
        }
        text + &self.depth.report()
    }
}

impl Depth {
    fn add(&mut self, played: &Played, replica: Shown) {
        let raise = |most: &mut usize, value: usize| *most = value.max(*most);
        raise(&mut self.slots, replica.slots());
        raise(&mut self.keys, replica.keys());
        raise(&mut self.reads, replica.open_reads());
        raise(&mut self.committed, (replica.commit_bar() - replica.start()) as usize);
        raise(&mut self.executed, (replica.exec_bar() - replica.start()) as usize);
        raise(&mut self.actions, played.outcome.actions.len());
        self.rounds = self.rounds.max(replica.bal_max_seen() / 256);
    }

    fn report(&self) -> String {
        let rows = [
            (self.slots as u64, "slots present"),
            (self.keys as u64, "keys in the highest-slot table"),
            (self.reads as u64, "reads open"),
            (self.committed as u64, "slots below commit_bar"),
            (self.executed as u64, "slots below exec_bar"),
            (self.actions as u64, "actions of one call"),
            (self.rounds, "round of bal_max_seen"),
        ];
        rows.iter().map(|(most, what)| format!("most {most:13}  {what}\n")).collect()
    }
}
