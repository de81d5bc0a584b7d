//! Steps through a trace: whole records, then what is left over as a short one.

use std::io::{self, Read};

use crate::record::RECORD_BYTES;
use crate::session::{Outcome, Session};
use crate::shown::Shown;

/// What one record did.
pub struct Played<'a> {
    pub number: u64,
    pub bytes: &'a [u8],
    pub outcome: &'a Outcome,
    pub replica: Option<Shown<'a>>,
}

pub fn play(input: impl Read, mut each: impl FnMut(Played) -> io::Result<()>) -> io::Result<()> {
    let mut session = Session::default();
    let mut number = 0;
    each_record(input, |bytes| {
        number += 1;
        let outcome = session.feed(bytes);
        each(Played { number, bytes, outcome: &outcome, replica: session.replica() })?;
        Ok(true)
    })
}

/// The records of a trace, for as long as `each` asks for the next one.
pub(crate) fn each_record(
    mut input: impl Read,
    mut each: impl FnMut(&[u8]) -> io::Result<bool>,
) -> io::Result<()> {
    let mut bytes = [0; RECORD_BYTES];
    loop {
        let length = fill(&mut input, &mut bytes)?;
        if length == 0 || !each(&bytes[..length])? {
            return Ok(());
        }
    }
}

/// Reads until the bytes are full or the input ends.
pub(crate) fn fill(input: &mut impl Read, bytes: &mut [u8]) -> io::Result<usize> {
    let mut length = 0;
    while length < bytes.len() {
        match input.read(&mut bytes[length..]) {
            Ok(0) => break,
            Ok(more) => length += more,
            Err(error) if error.kind() == io::ErrorKind::Interrupted => {}
            Err(error) => return Err(error),
        }
    }
    Ok(length)
}
