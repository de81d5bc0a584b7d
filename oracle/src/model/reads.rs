//! Reads: opening one, merging replies, answering.

use super::{Answer, Replica};
use crate::action::Action;
use crate::call::Known;

#[derive(Debug, Clone, PartialEq, Eq)]
pub struct Read {
    pub acks: u64,
    /// Each key, with the best answer so far.
    pub keys: Vec<(u64, Known)>,
}

impl Replica {
    /// 01: a read "opens with no acknowledgements and with nothing known per key".
    pub(super) fn open_read(&mut self, read: u64, keys: &[u64]) -> Answer {
        let keys = keys.iter().map(|&key| (key, Known::Nothing)).collect();
        self.reads.insert(read, Read { acks: 0, keys });
        Ok(())
    }

    pub(super) fn read_reply(
        &mut self,
        peer: u8,
        read: u64,
        known: &[Known],
        from_leader: bool,
        out: &mut Vec<Action>,
    ) -> Answer {
        let quorum = self.quorum();
        // 01: "An unknown read id is ignored."
        let Some(open) = self.reads.get_mut(&read) else { return Ok(()) };
        if from_leader {
            // 01: "replaces the list and answers at once, for as many keys as both lists have".
            self.answer(read, known, out);
            return Ok(());
        }
        if open.acks >> peer & 1 == 1 {
            return Ok(());
        }
        if known.len() != open.keys.len() {
            return Err(6);
        }
        for ((_, held), told) in open.keys.iter_mut().zip(known) {
            *held = merged(*held, *told)?;
        }
        open.acks |= 1 << peer;
        if open.acks.count_ones() >= quorum {
            let best: Vec<Known> = open.keys.iter().map(|(_, best)| *best).collect();
            self.answer(read, &best, out);
        }
        Ok(())
    }

    /// 01: "nothing = not found (tag 0), slot alone = retry naming the leader (1), value = the value
    /// (2); the read closes".
    fn answer(&mut self, read: u64, best: &[Known], out: &mut Vec<Action>) {
        let leader = self.leader.map_or(255, u64::from);
        let Some(open) = self.reads.remove(&read) else { return };
        for (place, known) in best.iter().take(open.keys.len()).enumerate() {
            let (tag, content) = match *known {
                Known::Nothing => (0, 0),
                Known::Slot(_) => (1, leader),
                Known::Value(_, value) => (2, value),
            };
            out.push(Action::read_answer(read, place as u64, tag, content));
        }
    }
}

/// 01's merge of one key, with 02, Wish 2: a value over nothing is kept; 12 at a conflict.
fn merged(held: Known, told: Known) -> Result<Known, u8> {
    let told_wins = match (held, told) {
        (_, Known::Nothing) => false,
        (Known::Nothing, _) => true,
        (Known::Slot(old) | Known::Value(old, _), Known::Slot(new)) => new > old,
        (Known::Slot(old), Known::Value(new, _)) => new >= old,
        (Known::Value(old, one), Known::Value(new, two)) => {
            if old == new && one != two {
                return Err(12);
            }
            new > old
        }
    };
    Ok(if told_wins { told } else { held })
}
