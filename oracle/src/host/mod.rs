//! What the four source files lean on: the types of their `mod.rs`, hubs, errors and macros.

#[macro_use]
mod macros;

pub(crate) mod actions;
mod added;
mod executor;
pub(crate) mod manager;
pub(crate) mod multipaxos;
pub(crate) mod recorder;
pub(crate) mod server;
pub(crate) mod utils;

pub use multipaxos::MultiPaxosReplica as Replica;
