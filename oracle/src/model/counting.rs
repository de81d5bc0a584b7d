//! 02 (c): how a strict leader notes and counts replies.

use super::prepare_reply::Reply;
use super::rules::Counting;
use super::{Answer, Replica, Status};
use crate::action::Action;

impl Replica {
    pub(super) fn hear_strictly(&mut self, reply: &Reply, out: &mut Vec<Action>) -> Answer {
        // "A leader notes each member's reply per slot, at any status."
        self.present(reply.slot).noted |= 1 << reply.peer;
        if self.is_asked(reply) {
            self.take_vote(reply)?;
        }
        if self.has_told_enough(reply) {
            *self.counted(reply.trigger) |= 1 << reply.peer;
        }
        // "Whenever the arriving member counts and a quorum is counted, all Preparing slots from
        // trigger on enter Accept."
        let counted = *self.counted(reply.trigger);
        let arriving_counts = counted >> reply.peer & 1 == 1;
        if arriving_counts && counted.count_ones() >= self.quorum() {
            self.enter_accept(reply, out)?;
        }
        Ok(())
    }

    /// "A member counts once some reply of its with endprep e arrives when slot e exists at the
    /// leader and every slot from trigger to e that is Preparing there has been noted from that
    /// member; self uses its own endprep."
    fn has_told_enough(&self, reply: &Reply) -> bool {
        let e = reply.endprep;
        let exists = self.slot(e).is_some();
        match self.rules.counting {
            Counting::AsAsked => exists && self.is_noted_up_to(e, reply),
            Counting::SlotNeedNotExist => self.is_noted_up_to(e.min(self.log_end() - 1), reply),
            Counting::NotesNotNeeded => exists,
            Counting::ToTheLeadersEnd => {
                self.is_noted_up_to(self.own_endprep(reply.trigger), reply)
            }
            Counting::AsIn01 => reply.slot == e,
        }
    }

    /// Every slot from trigger to this one that is Preparing has been noted from the member.
    fn is_noted_up_to(&self, end: u64, reply: &Reply) -> bool {
        let noted = |number: u64| {
            self.slot(number).is_some_and(|slot| {
                slot.status != Status::Preparing || slot.noted >> reply.peer & 1 == 1
            })
        };
        (reply.trigger..=end).all(noted)
    }

    fn own_endprep(&self, trigger: u64) -> u64 {
        let leading = self.slot(trigger).and_then(|slot| slot.leading);
        leading.expect("the trigger slot has bookkeeping").endprep
    }
}
