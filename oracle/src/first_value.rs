//! 02, Wish 2, beside the Rust as it is: at which records a program that keeps the first value parts
//! from it, and a trace without them.

use std::io::{self, BufRead, Read, Write};

use crate::agree::{Difference, THE_OTHER, in_words, player};
use crate::call::{Call, Known};
use crate::host::Replica;
use crate::host::multipaxos::Knowledge;
use crate::play::each_record;
use crate::record::Record;
use crate::session::Session;
use crate::shown::Shown;
use crate::tell::Text;
use crate::utils::Bitmap;

/// "a value that meets an empty tally": a reply that is merged tells a value of a key of which
/// nothing is held, and no key before it conflicts.
pub fn value_meets_nothing(replica: &Replica, call: &Call) -> bool {
    let Call::ReadReply { peer, read, known, from_leader: false } = call else { return false };
    let Some(open) = replica.quorum_reads.get(&Replica::read_name(*read)) else { return false };
    let (told, held) = (known.as_slice(), &open.max_replies);
    open.rq_acks.get(*peer) == Ok(false)
        && told.len() == held.len()
        && told
            .iter()
            .zip(held)
            .take_while(|(told, held)| !conflict(told, held))
            .any(|(told, held)| matches!((told, held), (Known::Value(..), None)))
}

fn conflict(told: &Known, held: &Knowledge) -> bool {
    match (told, held) {
        (Known::Value(slot, value), Some((at, Some(held)))) => {
            *slot == *at as u64 && value.to_string() != *held
        }
        _ => false,
    }
}

/// A strict replica has one rule, the new one: it is played alike on both sides, and nothing parts.
fn meets_nothing_here(session: &Session, bytes: &[u8]) -> bool {
    let call = Record::decode(bytes).map(|record| Call::from_record(&record));
    let replica = session.replica().and_then(Shown::rust);
    replica.zip(call).is_some_and(|(replica, call)| value_meets_nothing(replica, &call))
}

/// Writes the trace without the replies in which a value meets nothing held.
pub fn without_first_values(trace: impl Read, mut output: impl Write) -> io::Result<()> {
    let mut session = Session::default();
    each_record(trace, |bytes| {
        if !meets_nothing_here(&session, bytes) {
            session.feed(bytes);
            output.write_all(bytes)?;
        }
        Ok(true)
    })
}

/// A program's text of a trace beside the Rust as it is.
#[derive(Debug, Default, PartialEq, Eq)]
pub struct Departures {
    pub records: u64,
    /// A value meets nothing held: told otherwise, from the same state before.
    pub first_values: u64,
    /// Told otherwise where none does, by a Rust that went its own way since an earlier one.
    pub later: u64,
}

/// What is wrong with the text, and the record.
pub struct Wrong {
    pub what: &'static str,
    pub difference: Difference,
}

pub const NOT_TOLD: &str = "a value meets nothing held, and the text is the old rule's";
pub const TOLD_HERE: &str = "no value meets nothing held, and the text is another";
pub const MORE_THAN_READS: &str = "a value meets nothing held, and more than the reads differs";
pub const PAST_THE_END: &str = "the text goes on past the trace";

/// The Rust plays each record from what the other program held before it: where the text differs,
/// the Rust takes the other's open reads over. So no difference is inherited, and the text must
/// differ exactly at the records where a value meets nothing held, in the answer, the actions and
/// the reads. A second Rust, which takes nothing over, counts what is told otherwise later on.
pub fn departs(
    trace: impl Read,
    mut theirs: impl BufRead,
) -> io::Result<Result<Departures, Wrong>> {
    let (mut following, mut apart) = (Session::default(), Session::default());
    let mut seen = Departures::default();
    let mut wrong = None;
    each_record(trace, |bytes| {
        seen.records += 1;
        let other = next_record(&mut theirs)?;
        let meets = meets_nothing_here(&following, bytes);
        let ours = told(&mut following, seen.records, bytes);
        let differs = ours != other;
        let what = if meets && !differs {
            Some(NOT_TOLD)
        } else if differs && !meets {
            Some(TOLD_HERE)
        } else if meets && !take_reads(&mut following, &other) {
            Some(MORE_THAN_READS)
        } else {
            None
        };
        wrong = what.map(|what| wrong_at(what, seen.records, bytes, ours, other.clone()));
        let otherwise = told(&mut apart, seen.records, bytes) != other;
        seen.first_values += u64::from(meets);
        seen.later += u64::from(otherwise && !meets);
        Ok(wrong.is_none())
    })?;
    if wrong.is_none() {
        let more = next_record(&mut theirs)?;
        let after = seen.records + 1;
        wrong = (!more.is_empty()).then(|| wrong_at(PAST_THE_END, after, b"", String::new(), more));
    }
    Ok(wrong.map_or(Ok(seen), Err))
}

impl Wrong {
    pub fn report(&self) -> String {
        let Difference { number, record, .. } = &self.difference;
        let differs = match record {
            Some(record) if self.what == NOT_TOLD => {
                format!("record {number} does not differ: {record}\n")
            }
            _ => self.difference.report(),
        };
        format!("{differs}{}\n", self.what)
    }
}

fn wrong_at(what: &'static str, number: u64, bytes: &[u8], ours: String, theirs: String) -> Wrong {
    let record = (!bytes.is_empty()).then(|| in_words(bytes));
    let whose = [player(None), THE_OTHER];
    Wrong { what, difference: Difference { number, record, whose, ours, theirs } }
}

/// Plays a record and tells it.
fn told(session: &mut Session, number: u64, bytes: &[u8]) -> String {
    let outcome = session.feed(bytes);
    let mut text = Text::default();
    text.told(number, &outcome, session.replica());
    String::from_utf8(text.bytes).expect("the told text is ASCII")
}

/// Takes the open reads of a told text over; whether the whole state is now the one told.
fn take_reads(session: &mut Session, told: &str) -> bool {
    session.change(|replica| {
        replica.quorum_reads.clear();
        for line in told.lines().filter_map(|line| line.strip_prefix("R ")) {
            take_read(replica, line);
        }
    });
    let mut text = Text::default();
    if let Some(replica) = session.replica() {
        text.state(replica);
    }
    let state = told.lines().skip_while(|line| !line.starts_with('S'));
    state.eq(String::from_utf8_lossy(&text.bytes).lines())
}

/// One line of a told text: id, acknowledged members, key count, then key, tag, slot, value of each.
/// A line of another form gives another read, or none, which the told state then shows.
fn take_read(replica: &mut Replica, line: &str) {
    let numbers: Vec<u64> = line.split(' ').filter_map(|word| word.parse().ok()).collect();
    let [read, acks, _, entries @ ..] = numbers.as_slice() else { return };
    let (entries, _) = entries.as_chunks::<4>();
    let keys: Vec<u64> = entries.iter().map(|&[key, ..]| key).collect();
    replica.open_read(*read, &keys);
    let members = (0..replica.population).filter(|member| acks >> member & 1 == 1).collect();
    if let Some(open) = replica.quorum_reads.get_mut(&Replica::read_name(*read)) {
        open.rq_acks = Bitmap::from((replica.population, members));
        let known = entries.iter().map(|&[_, tag, slot, value]| Known::of(&[tag, slot, value]));
        open.max_replies = known.map(|known| known.knowledge()).collect();
    }
}

/// The lines up to the next one that begins with a digit; nothing at the end.
fn next_record(theirs: &mut impl BufRead) -> io::Result<String> {
    let mut record = Vec::new();
    loop {
        theirs.read_until(b'\n', &mut record)?;
        if theirs.fill_buf()?.first().is_none_or(u8::is_ascii_digit) {
            return Ok(String::from_utf8_lossy(&record).into_owned());
        }
    }
}
