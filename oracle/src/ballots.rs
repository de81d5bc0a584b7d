//! 02, Wish 5: "two runs whose completions differ only in that field agree", of base replicas. The
//! trace of the second one: every log completion that a base replica gets names another ballot, and
//! nothing else is changed. A strict replica looks at the ballot (Wish 6), so its completions stay.

use std::io::{self, Read, Write};

use crate::generate::Rng;
use crate::play::each_record;
use crate::record::Record;
use crate::refuse;

const NEW: u8 = 0;
const LOG_DONE: u8 = 8;

/// Writes the trace with another ballot in each well-formed log completion of a base replica; the
/// seed fixes which.
pub fn other_ballots(seed: u64, trace: impl Read, output: &mut impl Write) -> io::Result<()> {
    let mut rng = Rng::new(seed);
    let (mut last, mut strict) = (0, false);
    each_record(trace, |bytes| {
        let Some(record) = Record::decode(bytes) else {
            output.write_all(bytes)?;
            return Ok(true);
        };
        let Record { peer, sub, slot, trigger, .. } = record;
        if record.kind == NEW && !refuse::new_replica_is_outside(peer, sub, slot, trigger) {
            strict = refuse::is_strict(trigger);
        }
        if record.kind == LOG_DONE && !strict {
            let ballot = another(&mut rng, record.ballot, last);
            output.write_all(&Record { ballot, ..record }.encode())?;
        } else {
            output.write_all(bytes)?;
        }
        last = record.ballot;
        Ok(true)
    })
}

/// Smaller, larger, from nowhere, or what the record before it names: after a newer Prepare or
/// Accept that is the slot's own.
fn another(rng: &mut Rng, old: u64, last: u64) -> u64 {
    let (next, anything) = (old.wrapping_add(1), rng.next());
    let drawn = rng.pick(&[0, next, old.wrapping_add(256), u64::MAX, anything, last, last]);
    if drawn == old { next } else { drawn }
}
