//! Traces that a seed fixes.

mod examples;
mod group;
mod habits;
mod honest;
mod reads;
mod refusals;
mod rng;
mod spoil;
mod strict_edges;
mod strict_wild;
mod two_batches;
mod wild;

use std::io;

pub use examples::example;
use group::World;
use habits::Habits;
pub use honest::honest_run;
pub use refusals::refusals;
pub(crate) use rng::Rng;
pub use strict_edges::strict_edges;
pub use two_batches::{ALL_MARK, TWO_BATCHES, group_of_three, two_batches};

#[derive(Debug, Clone, Copy, PartialEq, Eq)]
pub enum Profile {
    Group,
    Fuzz,
    Reads,
    Mix,
    Writes,
}

pub const PROFILES: [(&str, Profile); 5] = [
    ("group", Profile::Group),
    ("fuzz", Profile::Fuzz),
    ("reads", Profile::Reads),
    ("mix", Profile::Mix),
    ("writes", Profile::Writes),
];

impl Profile {
    pub fn named(name: &str) -> Option<Profile> {
        PROFILES.iter().find(|known| known.0 == name).map(|known| known.1)
    }

    /// Traces with damage also end in a short record, every other time, and begin without a
    /// replica.
    fn is_damaged(self) -> bool {
        matches!(self, Profile::Fuzz | Profile::Mix)
    }
}

/// Writes `count` records of base replicas: what one member of each of many groups received.
pub fn generate(
    seed: u64,
    count: u64,
    profile: Profile,
    write: impl FnMut(&[u8]) -> io::Result<()>,
) -> io::Result<()> {
    generate_kind(seed, count, profile, false, write)
}

/// The same, of groups of either kind.
pub fn generate_kind(
    seed: u64,
    count: u64,
    profile: Profile,
    strict: bool,
    mut write: impl FnMut(&[u8]) -> io::Result<()>,
) -> io::Result<()> {
    let mut rng = Rng::new(seed ^ (profile as u64) << 60 ^ u64::from(strict) << 59);
    let short = profile.is_damaged() && rng.often(500);
    let mut written = 0;
    while profile.is_damaged() && written < count.min(4) {
        write(&wild::before_any_replica(&mut rng))?;
        written += 1;
    }
    while written < count {
        let habits = Habits::draw(&mut rng, profile, strict);
        for record in World::new(&mut rng, habits).run(count - written) {
            written += 1;
            let whole = written < count || !short;
            let length = if whole { record.len() } else { 1 + rng.index(record.len() - 1) };
            write(&record[..length])?;
        }
    }
    Ok(())
}
