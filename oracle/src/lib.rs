//! The Rust of summerset's voting core, run behind the calls, answers and actions of the scope
//! document: unchanged, but for the one branch that `rule` replaces. Beside it stands `model`, a
//! replica written from the documents: it plays the strict kind, which the source lacks.

#[macro_use]
mod host;

pub mod action;
pub mod agree;
pub mod ballots;
pub mod baseline;
pub mod batch;
pub mod branches;
pub mod call;
pub mod digest;
pub mod first_value;
mod foresee;
pub mod generate;
pub mod guard;
pub mod honest;
pub mod merges;
pub mod model;
pub mod play;
pub mod record;
pub mod refuse;
pub mod rule;
pub mod session;
pub mod shown;
pub mod stats;
pub mod tell;

pub use host::Replica;
// The source files name these from the root.
use host::{manager, server, utils};

/// The four modules, and the files that were compiled for them.
pub fn source_files() -> impl Iterator<Item = (&'static str, &'static str)> {
    host::multipaxos::SOURCE_MODULES.into_iter().zip(host::multipaxos::SOURCE_FILES)
}

/// Slots and bars are `usize` in the source and 64-bit numbers in the scope document.
const _: () = assert!(usize::BITS == 64);
