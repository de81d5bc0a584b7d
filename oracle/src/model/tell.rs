//! The told text of a model's replica: for the base kind that of the source, for the strict kind with
//! one more number at the end of `S` and of each `I`.

use super::reads::Read;
use super::{Replica, Slot, Status};
use crate::batch::Batch;
use crate::call::Known;
use crate::tell::Text;

impl Replica {
    /// bal_max_seen, accept_bar, commit_bar, exec_bar: the last four of `replay`'s line.
    pub(crate) fn line(&self) -> [u64; 4] {
        [self.bal_max_seen, self.accept_bar, self.commit_bar, self.exec_bar]
    }

    pub(crate) fn tell(&self, text: &mut Text) {
        text.row('S', &self.scalars());
        text.row('F', &self.summary());
        for (member, bar) in self.peer_accept.iter().enumerate() {
            if let Some(bar) = bar {
                text.row('P', &[member as u64, *bar]);
            }
        }
        for (number, slot) in (self.start..).zip(&self.slots) {
            text.row('I', &slot.numbers(number, self.strict));
        }
        for (key, slot) in &self.keys {
            text.row('K', &[*key, *slot]);
        }
        for (id, read) in &self.reads {
            text.row('R', &read.numbers(*id));
        }
    }

    fn scalars(&self) -> Vec<u64> {
        let mut row = vec![
            self.id.into(),
            self.group.into(),
            self.quorum().into(),
            self.start,
            self.urgent.into(),
            self.disallow.into(),
            self.leader.map_or(255, u64::from),
            self.bal_prep_sent,
            self.bal_prepared,
        ];
        row.extend(self.line());
        row.extend([self.wal_offset, self.peer_accept_max]);
        row.extend([self.slots.len(), self.keys.len(), self.reads.len()].map(|count| count as u64));
        row.extend(self.strict.then_some(self.lead_trigger));
        row
    }

    /// 02, Wish 1: "the first slot not committed", and "how many slots at or above commit_bar have
    /// status Accepting".
    pub fn summary(&self) -> [u64; 2] {
        let open = self.slots.iter().position(|slot| !slot.is_committed());
        let first = self.start + open.unwrap_or(self.slots.len()) as u64;
        let counted = (self.start..).zip(&self.slots).filter(|(number, slot)| {
            *number >= self.commit_bar && slot.status == Status::Accepting
        });
        [first, counted.count() as u64]
    }
}

impl Slot {
    fn numbers(&self, number: u64, strict: bool) -> Vec<u64> {
        let mut row = vec![number, self.ballot, self.status as u64];
        row.extend([u64::from(self.external), self.wal_offset]);
        row.extend(batch_numbers(&self.batch));
        row.push(self.vote.0);
        row.extend(batch_numbers(&self.vote.1));
        row.extend(self.leading.map_or([0; 6], |own| {
            [1, own.trigger, own.endprep, own.prepare_acks, own.prepare_max_bal, own.accept_acks]
        }));
        row.extend(
            self.following
                .map_or([0; 4], |asked| [1, asked.source.into(), asked.trigger, asked.endprep]),
        );
        row.extend(strict.then_some(self.noted));
        row
    }
}

impl Read {
    fn numbers(&self, id: u64) -> Vec<u64> {
        let mut row = vec![id, self.acks, self.keys.len() as u64];
        for (key, best) in &self.keys {
            row.push(*key);
            row.extend(match *best {
                Known::Nothing => [0, 0, 0],
                Known::Slot(slot) => [1, slot, 0],
                Known::Value(slot, value) => [2, slot, value],
            });
        }
        row
    }
}

/// Batch id, key count, eight keys.
fn batch_numbers(batch: &Batch) -> [u64; 10] {
    let mut row = [0; 10];
    row[0] = batch.id;
    row[1] = batch.keys.len() as u64;
    row[2..2 + batch.keys.len()].copy_from_slice(batch.keys.as_slice());
    row
}
