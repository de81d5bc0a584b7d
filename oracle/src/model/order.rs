//! The answers that come before the source's own tests: 2, 3, 10, 11, in 01's order.

use super::{Answer, Replica};
use crate::call::Call;

const MOST_READS: usize = 16;

impl Replica {
    pub(super) fn refused_at_once(&self, call: &Call) -> Answer {
        if self.sender_is_wrong(call) {
            return Err(2);
        }
        if ballot_is_not_the_senders(call) {
            return Err(3);
        }
        if self.numbers_are_outside(call) {
            return Err(10);
        }
        if matches!(call, Call::OpenRead { .. }) && self.reads.len() >= MOST_READS {
            return Err(11);
        }
        Ok(())
    }

    /// 01: "sender not a member; or sender is self, except in timeouts and read replies".
    fn sender_is_wrong(&self, call: &Call) -> bool {
        match *call {
            Call::Prepare { peer, .. }
            | Call::PrepareReply { peer, .. }
            | Call::Accept { peer, .. }
            | Call::AcceptReply { peer, .. }
            | Call::CommitNotice { peer, .. } => peer >= self.group || peer == self.id,
            Call::Timeout { source: peer } | Call::ReadReply { peer, .. } => peer >= self.group,
            _ => false,
        }
    }

    /// 01: "new read, list or batch with numbers outside the above, or a read id in use".
    fn numbers_are_outside(&self, call: &Call) -> bool {
        match call {
            Call::PrepareReply { vote: Some((_, batch)), .. }
            | Call::Accept { batch, .. }
            | Call::Offer { batch } => batch.id == 0 && !batch.keys.is_empty(),
            Call::OpenRead { read, keys } => keys.is_empty() || self.reads.contains_key(read),
            _ => false,
        }
    }
}

/// 01: "A ballot's owner is (ballot mod 256) - 1."
fn ballot_is_not_the_senders(call: &Call) -> bool {
    match *call {
        Call::Prepare { peer, ballot, .. }
        | Call::Accept { peer, ballot, .. }
        | Call::CommitNotice { peer, ballot, .. } => {
            (ballot % 256).checked_sub(1) != Some(peer.into())
        }
        _ => false,
    }
}
