//! What demand 3 does not promise: the stored traces `late-0` to `late-2` are one run of three
//! members in which slot 1 is committed with two batches at two ballots.

use std::fs;
use std::path::{Path, PathBuf};

use oracle::call::{Call, Entry};
use oracle::play::play;
use oracle::record::{RECORD_BYTES, Record};
use oracle::tell::Text;

fn trace_of(member: u8) -> PathBuf {
    Path::new(env!("CARGO_MANIFEST_DIR")).join(format!("samples/late-{member}.trace"))
}

/// The told text of a member's trace, record by record.
fn told(member: u8) -> Vec<String> {
    let mut records = Vec::new();
    play(fs::File::open(trace_of(member)).expect("a trace"), |played| {
        let mut text = Text::default();
        text.told(played.number, played.outcome, played.replica);
        records.push(String::from_utf8(text.bytes).expect("ASCII"));
        Ok(())
    })
    .expect("the trace is read");
    records
}

/// Ballot, status and batch id of slot 1 after the last record.
fn slot_one(records: &[String]) -> (u64, u64, u64) {
    let line = records.last().expect("a record").lines().find(|line| line.starts_with("I 1 "));
    let numbers: Vec<u64> = line
        .expect("slot 1")
        .split(' ')
        .skip(1)
        .map(|word| word.parse().expect("a number"))
        .collect();
    (numbers[1], numbers[2], numbers[5])
}

fn actions(records: &[String], kind: u64) -> usize {
    let start = format!("A {kind} ");
    records.iter().flat_map(|record| record.lines()).filter(|line| line.starts_with(&start)).count()
}

#[test]
fn one_slot_is_committed_with_two_batches_at_two_ballots() {
    let (one, two) = (told(1), told(2));
    assert_eq!(slot_one(&one), (514, 3, 0), "member 1 commits the empty batch");
    assert_eq!(slot_one(&two), (771, 3, 7), "member 2 commits batch 7");
    assert_eq!((actions(&one, 3), actions(&two, 3)), (1, 1), "each with one CommitSlot");
}

/// Member 2's accept entry was written at ballot 257; its completion says so, and the answer that
/// comes of it is at 514, the slot's.
#[test]
fn the_late_completion_names_its_entrys_ballot() {
    let trace = fs::read(trace_of(2)).expect("a trace");
    let late = Record::decode(&trace[3 * RECORD_BYTES..4 * RECORD_BYTES]).expect("a record");
    let entry = Call::LogDone { entry: Entry::AcceptData, slot: 1, ballot: 257, size: 40 };
    assert_eq!(Call::from_record(&late), entry);
    let records = told(2);
    assert!(records[1].contains("\nA 2 0 1 0 0 257 "));
    assert!(records[3].contains("\nA 7 1 1 0 0 514 "));
}

/// Every message that a member gets in these traces, some member sends in them.
#[test]
fn no_message_is_made_up() {
    let all = [told(0), told(1), told(2)];
    let sent = |member: usize, line: &str| {
        all[member].iter().any(|record| record.lines().any(|said| said.starts_with(line)))
    };
    // kind, member, slot, trigger, endprep, ballot
    assert!(
        sent(0, "A 4 255 0 0 0 257 ")
            && sent(1, "A 4 255 0 0 0 514 ")
            && sent(2, "A 4 255 0 0 0 771 ")
    );
    assert!(
        sent(1, "A 5 0 0 0 0 257 0 ")
            && sent(0, "A 5 1 0 0 1 514 0 ")
            && sent(0, "A 5 1 1 0 1 514 0 ")
    );
    assert!(sent(0, "A 5 2 1 0 1 771 0 "));
    assert!(sent(0, "A 6 255 1 0 0 257 0 7 0 1 5 ") && sent(2, "A 6 255 1 0 0 771 0 7 0 1 5 "));
    assert!(sent(2, "A 7 1 1 0 0 514 ") && sent(0, "A 7 2 1 0 0 771 "));
}
