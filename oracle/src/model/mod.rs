//! A replica by 01 and 02 alone, as a program of its own: no line of the source stands in it, and 5,
//! 6 and 7 are decided by rule. The strict kind of 02, Wish 6, which the source lacks, is played by
//! it; its base kind is held beside the source (`agree`).
//!
//! The two kinds part where `strict` or one of the `rules` is asked for, and nowhere else.

mod accept;
pub mod agree;
pub mod branches;
mod commit;
mod counting;
mod keys;
mod log_done;
mod offer;
mod order;
mod prepare;
mod prepare_reply;
mod reads;
mod replica;
pub mod rules;
mod step_up;
mod tell;

use crate::action::{Action, ROOM};
use crate::call::Call;
use crate::session::Outcome;

pub use replica::{Following, Leading, Replica, Slot, Status};

/// Done or ignored, or the number of the refusal.
type Answer = Result<(), u8>;

impl Replica {
    /// 01: "All but 0 and 12 change nothing; all but 0 give no actions."
    pub fn call(&mut self, call: &Call) -> Outcome {
        let mut after = self.clone();
        let mut given = Vec::new();
        match after.act(call, &mut given) {
            Ok(()) => {
                assert!(given.len() <= ROOM, "more actions than 01 has room for: {call:?}");
                assert!(after.is_fit(), "the model leaves an unfit record: {call:?}");
                *self = after;
                Outcome { answer: 0, actions: given, place: None }
            }
            Err(answer) => {
                if answer == 12 {
                    *self = after;
                }
                Outcome::refused(answer)
            }
        }
    }

    fn act(&mut self, call: &Call, out: &mut Vec<Action>) -> Answer {
        self.refused_at_once(call)?;
        self.run(call, out)?;
        self.key_table_holds()
    }

    fn run(&mut self, call: &Call, out: &mut Vec<Action>) -> Answer {
        match *call {
            Call::New { .. } => unreachable!("a new replica is no call of an old one"),
            Call::Prepare { peer, trigger, ballot } => self.prepare(peer, trigger, ballot, out),
            Call::PrepareReply { peer, slot, trigger, endprep, ballot, vote, bar } => {
                let reply =
                    prepare_reply::Reply { peer, slot, trigger, endprep, ballot, vote, bar };
                self.prepare_reply(&reply, out)
            }
            Call::Accept { peer, slot, ballot, batch } => {
                self.accept(peer, slot, ballot, batch, out)
            }
            Call::AcceptReply { peer, slot, ballot } => self.accept_reply(peer, slot, ballot, out),
            Call::CommitNotice { ballot, bar, .. } => self.commit_notice(ballot, bar, out),
            Call::Timeout { source } => self.step_up(source, out),
            Call::Offer { batch } => self.offer(batch, out),
            Call::LogDone { entry, slot, ballot, size } => {
                self.log_done(entry, slot, ballot, size, out)
            }
            Call::Executed { slot } => self.executed(slot),
            Call::OpenRead { read, keys } => self.open_read(read, keys.as_slice()),
            Call::ReadReply { peer, read, known, from_leader } => {
                self.read_reply(peer, read, known.as_slice(), from_leader, out)
            }
        }
    }
}
