//! The highest-slot table.

use super::{Answer, Replica};
use crate::batch::Batch;

const MOST_KEYS: usize = 256;

impl Replica {
    /// 01: "`refresh_highest_slot` keeps the larger slot per key."
    pub(super) fn refresh_keys(&mut self, slot: u64, batch: &Batch) {
        for &key in batch.keys.as_slice() {
            let highest = self.keys.entry(key).or_insert(slot);
            *highest = slot.max(*highest);
        }
    }

    /// 01, "7 last": "the call would add more new keys than the table has free".
    pub(super) fn key_table_holds(&self) -> Answer {
        if self.keys.len() > MOST_KEYS { Err(7) } else { Ok(()) }
    }
}
