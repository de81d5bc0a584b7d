//! Another program's told text beside the source's, or the model's where the replica is strict: the
//! first record that differs, in words.

use std::io::{self, BufRead, Read};

use crate::call::Call;
use crate::play::{Played, fill, play};
use crate::record::{RECORD_BYTES, Record};
use crate::shown::Shown;
use crate::tell::Text;

pub enum Agreement {
    /// So many records, and nothing after them.
    Whole(u64),
    Differs(Difference),
}

/// The first record that is told otherwise; none where the other text goes on past the trace.
pub struct Difference {
    pub number: u64,
    pub record: Option<String>,
    /// Whose texts the two are.
    pub whose: [&'static str; 2],
    pub ours: String,
    pub theirs: String,
}

/// Plays the trace and reads the other program's text of it in step.
pub fn agree(trace: impl Read, mut theirs: impl BufRead) -> io::Result<Agreement> {
    let mut text = Text::default();
    let mut other = Vec::new();
    let mut last = 0;
    let mut found = None;
    play(trace, |played| {
        last = played.number;
        text.bytes.clear();
        text.told(played.number, played.outcome, played.replica);
        other.resize(text.bytes.len(), 0);
        let length = fill(&mut theirs, &mut other)?;
        other.truncate(length);
        if other != text.bytes {
            found = Some(difference(&played, &text, &mut other, &mut theirs)?);
            return Err(io::Error::other(STOP));
        }
        Ok(())
    })
    .or_else(|error| if found.is_some() { Ok(()) } else { Err(error) })?;
    match found {
        Some(difference) => Ok(Agreement::Differs(difference)),
        None => past_the_end(last, theirs),
    }
}

/// The one way out of the middle of a trace; never seen outside.
const STOP: &str = "the first difference was found";

fn difference(
    played: &Played,
    text: &Text,
    other: &mut Vec<u8>,
    theirs: &mut impl BufRead,
) -> io::Result<Difference> {
    finish_record(other, theirs)?;
    Ok(Difference {
        number: played.number,
        record: Some(in_words(played.bytes)),
        whose: [player(played.replica), THE_OTHER],
        ours: String::from_utf8_lossy(&text.bytes).into_owned(),
        theirs: String::from_utf8_lossy(other).into_owned(),
    })
}

pub(crate) const THE_OTHER: &str = "the other";

/// Who plays it.
pub(crate) fn player(replica: Option<Shown>) -> &'static str {
    if replica.is_some_and(Shown::is_strict) { "the model" } else { "the Rust" }
}

/// More text than the trace has records.
fn past_the_end(records: u64, mut theirs: impl BufRead) -> io::Result<Agreement> {
    let mut other = Vec::new();
    finish_record(&mut other, &mut theirs)?;
    if other.is_empty() {
        return Ok(Agreement::Whole(records));
    }
    Ok(Agreement::Differs(Difference {
        number: records + 1,
        record: None,
        whose: [player(None), THE_OTHER],
        ours: String::new(),
        theirs: String::from_utf8_lossy(&other).into_owned(),
    }))
}

/// Text without lines is cut here.
const LONGEST_RECORD: u64 = 1 << 18;

/// Cuts or completes the text to one record: its first line, and all lines up to the next that
/// begins with a digit.
fn finish_record(text: &mut Vec<u8>, rest: &mut impl BufRead) -> io::Result<()> {
    let mut rest = rest.take(LONGEST_RECORD);
    let mut line = 0;
    loop {
        let Some(length) = text[line..].iter().position(|&byte| byte == b'\n') else {
            if rest.read_until(b'\n', text)? == 0 {
                return Ok(());
            }
            continue;
        };
        line += length + 1;
        if line == text.len() && rest.read_until(b'\n', text)? == 0 {
            return Ok(());
        }
        if text[line].is_ascii_digit() {
            text.truncate(line);
            return Ok(());
        }
    }
}

pub fn in_words(bytes: &[u8]) -> String {
    if let Some(record) = Record::decode(bytes) {
        return format!("{:?}", Call::from_record(&record));
    }
    if bytes.len() < RECORD_BYTES {
        return format!("a short record of {} bytes", bytes.len());
    }
    let record = Record::fields(bytes);
    let sum = if record.encode() == *bytes { "right" } else { "wrong" };
    let Record { kind, peer, sub, count, .. } = record;
    format!("a malformed record: kind {kind}, peer {peer}, sub {sub}, count {count}, sum {sum}")
}

impl Difference {
    /// The record, both texts without the lines that they share at both ends, and the numbers
    /// that differ by name.
    pub fn report(&self) -> String {
        let mut report = match &self.record {
            Some(record) => format!("record {} differs: {record}\n", self.number),
            None => format!("the trace has {} records, the text goes on\n", self.number - 1),
        };
        let (ours, theirs): (Vec<&str>, Vec<&str>) =
            (self.ours.lines().collect(), self.theirs.lines().collect());
        let before = ours.iter().zip(&theirs).take_while(|(one, two)| one == two).count();
        let (ours, theirs) = (&ours[before..], &theirs[before..]);
        let pairs = ours.iter().rev().zip(theirs.iter().rev());
        let after = pairs.take_while(|(one, two)| one == two).count();
        let (ours, theirs) = (&ours[..ours.len() - after], &theirs[..theirs.len() - after]);
        report += &format!("lines alike before and after: {before} and {after}\n");
        report += &lines(self.whose[0], ours);
        report += &lines(self.whose[1], theirs);
        for (one, two) in ours.iter().zip(theirs) {
            report += &named_differences(self.whose, one, two);
        }
        if ours == theirs {
            report += "only the end of the last line differs\n";
        }
        report
    }
}

fn lines(whose: &str, lines: &[&str]) -> String {
    if lines.is_empty() {
        return format!("{whose}: no more lines\n");
    }
    lines.iter().map(|line| format!("{whose}: {}\n", line.escape_debug())).collect()
}

const ANSWER: &str = "number answer actions bal_max_seen accept_bar commit_bar exec_bar";
const ACTION: &str = "kind member slot trigger endprep ballot voted_ballot batch_id bar key_count \
    key_1 key_2 key_3 key_4 key_5 key_6 key_7 key_8";
const SCALARS: &str = "id group quorum start urgent disallow leader bal_prep_sent bal_prepared \
    bal_max_seen accept_bar commit_bar exec_bar wal_offset peer_accept_max slots keys reads";
const SUMMARY: &str = "first_not_committed accepting_from_commit_bar";
const SLOT: &str = "slot ballot status external wal_offset \
    batch_id key_count key_1 key_2 key_3 key_4 key_5 key_6 key_7 key_8 \
    voted_ballot voted_batch_id voted_key_count voted_key_1 voted_key_2 voted_key_3 voted_key_4 \
    voted_key_5 voted_key_6 voted_key_7 voted_key_8 \
    leading leading_trigger leading_endprep prepare_acks prepare_max_bal accept_acks \
    following source following_trigger following_endprep";

/// What a strict replica tells beside these.
const STRICT_SCALAR: &str = "leaders_trigger";
const STRICT_SLOT: &str = "noted";

/// Two lines of one kind and place, number by number.
fn named_differences(whose: [&str; 2], ours: &str, theirs: &str) -> String {
    let (ours, theirs): (Vec<&str>, Vec<&str>) =
        (ours.split(' ').collect(), theirs.split(' ').collect());
    let (letter, names, strict_name) = match ours[0] {
        "A" => (1, ACTION, None),
        "S" => (1, SCALARS, Some(STRICT_SCALAR)),
        "F" => (1, SUMMARY, None),
        "I" => (1, SLOT, Some(STRICT_SLOT)),
        "P" | "K" | "R" | "Z" => return String::new(),
        _ => (0, ANSWER, None),
    };
    let mut names: Vec<&str> = names.split_whitespace().collect();
    names.extend(strict_name.filter(|_| ours.len() > names.len() + letter));
    let alike = letter == 0 || ours[0] == theirs[0];
    if !alike || ours.len() != theirs.len() || ours.len() != names.len() + letter {
        return String::new();
    }
    let place = if ours[0] == "I" { format!("slot {}: ", ours[1]) } else { String::new() };
    let numbers = names.iter().zip(ours[letter..].iter().zip(&theirs[letter..]));
    numbers
        .filter(|(_, (one, two))| one != two)
        .map(|(name, (one, two))| {
            format!("{place}{name} is {one} in {}, {two} in {}\n", whose[0], whose[1])
        })
        .collect()
}

#[cfg(test)]
mod tests {
    use super::*;
    use crate::generate::example;

    fn worked_example() -> Vec<u8> {
        example("worked").expect("it is there")
    }

    fn told() -> String {
        let mut text = Text::default();
        play(worked_example().as_slice(), |played| {
            text.told(played.number, played.outcome, played.replica);
            Ok(())
        })
        .expect("memory is read");
        String::from_utf8(text.bytes).expect("ASCII")
    }

    fn found(other: &str) -> Difference {
        match agree(worked_example().as_slice(), other.as_bytes()).expect("memory is read") {
            Agreement::Whole(records) => panic!("{records} records agree"),
            Agreement::Differs(difference) => difference,
        }
    }

    #[test]
    fn the_own_text_agrees() {
        let whole = agree(worked_example().as_slice(), told().as_bytes()).expect("memory is read");
        assert!(matches!(whole, Agreement::Whole(5)));
        assert!(matches!(agree(&b""[..], &b""[..]), Ok(Agreement::Whole(0))));
    }

    #[test]
    fn every_changed_character_is_found_in_its_record() {
        let told = told();
        let mut number = 0;
        let mut at = 0;
        for line in told.split_inclusive('\n') {
            number += u64::from(line.as_bytes()[0].is_ascii_digit());
            for place in at..at + line.len() {
                let mut other = told.clone().into_bytes();
                other[place] = b'x';
                let difference = found(std::str::from_utf8(&other).expect("ASCII"));
                assert_eq!(difference.number, number);
            }
            at += line.len();
        }
        assert_eq!(number, 5);
    }

    #[test]
    fn a_text_that_ends_early_or_goes_on_differs() {
        let told = told();
        for length in 0..told.len() {
            found(&told[..length]);
        }
        let more = found(&format!("{told}6 0 0 0 0 0 0\nZ\n7"));
        assert_eq!((more.number, more.theirs.as_str()), (6, "6 0 0 0 0 0 0\nZ\n"));
    }

    #[test]
    fn the_report_names_what_differs() {
        let told = told();
        let other = told.replacen("3 0 2 257 0 0 0", "3 0 1 257 0 0 0", 1);
        let report = found(&other).report();
        assert!(report.contains("record 3 differs: LogDone { entry: PrepareBal, slot: 0"));
        assert!(report.contains("actions is 2 in the Rust, 1 in the other"), "{report}");
    }

    #[test]
    fn the_report_names_both_numbers_of_the_summary() {
        let report = found(&told().replacen("F 0 1", "F 1 0", 1)).report();
        assert!(report.contains("record 3 differs: LogDone"), "{report}");
        let named = "first_not_committed is 0 in the Rust, 1 in the other\n\
            accepting_from_commit_bar is 1 in the Rust, 0 in the other\n";
        assert!(report.ends_with(named), "{report}");
    }
}
