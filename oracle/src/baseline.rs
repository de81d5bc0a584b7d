//! The source as a plain optimised program: no copies, no panics caught, every refusal foreseen.
//! Its lines are `replay`'s; what it takes is what our own `replay` is measured by.

use std::io::{self, Read, Write};

use crate::call::Call;
use crate::foresee;
use crate::host::{Replica, recorder};
use crate::record::{RECORD_BYTES, Record};
use crate::refuse;
use crate::shown::Shown;
use crate::tell::Text;

/// Input and output go through buffers of this size.
pub const BUFFER: usize = 64 * 1024;
/// Seven numbers of at most 20 digits, each with the blank or line feed after it.
const LONGEST_LINE: usize = 7 * 21;

pub fn replay(mut input: impl Read, mut output: impl Write) -> io::Result<()> {
    let mut block = vec![0; BUFFER];
    let mut text = Text { bytes: Vec::with_capacity(BUFFER) };
    let mut replica = None;
    let mut number = 0;
    loop {
        let length = crate::play::fill(&mut input, &mut block)?;
        if length == 0 {
            output.write_all(&text.bytes)?;
            return output.flush();
        }
        for bytes in block[..length].chunks(RECORD_BYTES) {
            number += 1;
            let (answer, actions) = feed(&mut replica, bytes).ok_or_else(|| strict(number))?;
            if text.bytes.len() + LONGEST_LINE > BUFFER {
                output.write_all(&text.bytes)?;
                text.bytes.clear();
            }
            text.line(number, answer, actions, replica.as_ref().map(Shown::Rust));
        }
    }
}

/// The strict kind has no source that could be measured.
fn strict(number: u64) -> io::Error {
    let text =
        format!("record {number} makes a strict replica; the baseline knows the base kind only");
    io::Error::new(io::ErrorKind::Unsupported, text)
}

/// One record: its answer and the number of its actions; nothing where it makes a strict replica.
fn feed(replica: &mut Option<Replica>, bytes: &[u8]) -> Option<(u8, usize)> {
    let Some(record) = Record::decode(bytes) else { return Some((13, 0)) };
    let call = Call::from_record(&record);
    if let Call::New { id, group, start, options } = call {
        if refuse::new_replica_is_outside(id, group, start, options) {
            return Some((10, 0));
        }
        if refuse::is_strict(options) {
            return None;
        }
        let (urgent, disallow) = (options & 1 != 0, options & 2 != 0);
        *replica = Some(Replica::fresh(id, group, start as usize, urgent, disallow));
        return Some((0, 0));
    }
    let Some(replica) = replica else { return Some((1, 0)) };
    let refusal = refuse::before_running(replica, &call);
    if let Some(answer) = refusal.or_else(|| foresee::refusal(replica, &call)) {
        return Some((answer, 0));
    }
    let answer = match call.run(replica) {
        Ok(()) => 0,
        Err(error) if error.is_a_conflict() => 12,
        Err(error) => panic!("an error without a number: {}", error.text()),
    };
    Some((answer, recorder::count()))
}
