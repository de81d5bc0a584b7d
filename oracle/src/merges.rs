//! The merges of a trace's reads: one read after another, each at a fresh replica of nine members
//! that hears of too few of them to answer, and what the Rust knows of the read after each reply.

use std::collections::HashMap;
use std::io::{self, Read, Write};

use crate::call::{Call, KnownList};
use crate::host::Replica;
use crate::play::{Played, play};
use crate::record::Record;
use crate::session::Session;
use crate::shown::Shown;
use crate::tell::Text;

/// A read's group: its quorum is five.
const NEW: Call = Call::New { id: 0, group: 9, start: 0, options: 0 };
/// So many senders are acknowledged at most: one more would close the read.
const MOST_MERGED: u8 = 4;

/// A read that the trace opened, and every reply to it that is not marked from the leader.
struct Opened {
    open: Call,
    read: u64,
    replies: Vec<KnownList>,
}

/// Writes a trace of the merges: for each opened read that was replied to, a new replica, the
/// read, and its replies, each from the next member, until the read would close.
pub fn merges_of(input: impl Read, output: &mut impl Write) -> io::Result<()> {
    for opened in opened_reads(input)? {
        if opened.replies.is_empty() {
            continue;
        }
        let mut session = Session::default();
        let mut give = |call: Call| -> io::Result<u8> {
            output.write_all(&call.to_record().encode())?;
            Ok(session.call(&call).answer)
        };
        give(NEW)?;
        give(opened.open)?;
        let (read, mut merged) = (opened.read, 0);
        for known in opened.replies {
            if merged < MOST_MERGED {
                let reply = Call::ReadReply { peer: merged, read, known, from_leader: false };
                merged += u8::from(give(reply)? == 0);
            }
        }
    }
    Ok(())
}

fn opened_reads(input: impl Read) -> io::Result<Vec<Opened>> {
    let mut all: Vec<Opened> = Vec::new();
    let mut last: HashMap<u64, usize> = HashMap::new();
    play(input, |played| {
        match call_of(&played) {
            Some(Call::New { .. }) if played.outcome.answer == 0 => last.clear(),
            Some(open @ Call::OpenRead { read, .. }) if played.outcome.answer == 0 => {
                last.insert(read, all.len());
                all.push(Opened { open, read, replies: Vec::new() });
            }
            Some(Call::ReadReply { read, known, from_leader: false, .. }) => {
                if let Some(&place) = last.get(&read) {
                    all[place].replies.push(known);
                }
            }
            _ => {}
        }
        Ok(())
    })?;
    Ok(all)
}

/// A line for each read opened and each reply merged: the answer, and what the Rust knows of the
/// read's keys after it. A reply that is not merged, or closes the read, is an error.
pub fn tell_merges(input: impl Read, output: &mut impl Write) -> io::Result<()> {
    let mut text = Text::default();
    let mut merged = 0;
    play(input, |played| {
        let read = match call_of(&played) {
            Some(Call::OpenRead { read, .. }) => {
                merged = 0;
                read
            }
            Some(Call::ReadReply { read, from_leader: false, .. }) => {
                merged += u8::from(played.outcome.answer == 0);
                read
            }
            _ => return Ok(()),
        };
        let name = Replica::read_name(read);
        if played.replica.is_some_and(Shown::is_strict) {
            return Err(strict(played.number));
        }
        let replica = played.replica.and_then(Shown::rust);
        let open = replica.and_then(|replica| replica.quorum_reads.get(&name));
        let Some(open) = open.filter(|open| open.rq_acks.count() == merged) else {
            let text = format!("record {}: no merge into an open read", played.number);
            return Err(io::Error::new(io::ErrorKind::InvalidData, text));
        };
        text.bytes.clear();
        text.tally_line(played.outcome.answer, open);
        output.write_all(&text.bytes)
    })
}

fn strict(number: u64) -> io::Error {
    let text = format!("record {number} meets a strict replica; merges knows the base kind only");
    io::Error::new(io::ErrorKind::Unsupported, text)
}

fn call_of(played: &Played) -> Option<Call> {
    Record::decode(played.bytes).map(|record| Call::from_record(&record))
}
