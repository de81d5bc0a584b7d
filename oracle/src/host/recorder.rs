//! One list for all hubs: what the source handed over, as it stands, in its order.

use std::cell::RefCell;

use super::multipaxos::{Ballot, PeerMsg, WalEntry};
use super::server::{ApiReply, ClientId, Command, CommandId, LogActionId, ReplicaId};

pub(crate) enum Given {
    Entry(LogActionId, WalEntry),
    /// The ballot of the CommitSlot entry before it, for its slot.
    CommitBallot(usize, Ballot),
    Message(PeerMsg, ReplicaId),
    Broadcast(PeerMsg),
    Status {
        step_up: bool,
    },
    Command(CommandId, Command),
    Reply(ApiReply, ClientId),
}

thread_local! {
    static LIST: RefCell<Vec<Given>> = const { RefCell::new(Vec::new()) };
}

pub(crate) fn record(given: Given) {
    LIST.with_borrow_mut(|list| list.push(given));
}

/// Hands over what was recorded since the last call and starts anew.
pub(crate) fn take() -> Vec<Given> {
    LIST.take()
}

/// How many actions of 01 were recorded since the last call; starts anew in the same room.
pub(crate) fn count() -> usize {
    LIST.with_borrow_mut(|list| {
        let actions = list.iter().filter(|given| given.begins_an_action()).count();
        list.clear();
        actions
    })
}

impl Given {
    /// One Execute stands for all commands of a batch: its first begins it. A CommitSlot's ballot
    /// belongs to the entry before it.
    fn begins_an_action(&self) -> bool {
        !matches!(self, Given::Command((_, 1..), _) | Given::CommitBallot(..))
    }
}
