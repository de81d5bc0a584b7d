//! `crates/merges`: its input and its output are what the oracle makes of the stored reads now, by the
//! new rule, and they hold every case of a merge.
#![cfg(not(feature = "old-rule"))]

use std::collections::BTreeSet;
use std::fs;
use std::path::{Path, PathBuf};

use oracle::branches::BRANCHES;
use oracle::call::{Call, Known, KnownList};
use oracle::merges::{merges_of, tell_merges};
use oracle::record::{RECORD_BYTES, Record};
use oracle::stats::Stats;

/// The last lines of the program's output, by 01: counts over 8, which no trace can name.
const OVERLONG: &[u8] = include_bytes!("../samples/merges.overlong");

fn stored(name: &str) -> Vec<u8> {
    let program = Path::new(env!("CARGO_MANIFEST_DIR")).join("../crates/merges");
    read(program.join(name))
}

/// The lines of the stored trace.
fn stored_lines() -> Vec<u8> {
    stored("stdout").strip_suffix(OVERLONG).expect("the lines of counts over 8").to_vec()
}

fn read(path: PathBuf) -> Vec<u8> {
    fs::read(&path).unwrap_or_else(|error| panic!("{}: {error}", path.display()))
}

fn told(trace: &[u8]) -> Vec<u8> {
    let mut lines = Vec::new();
    tell_merges(trace, &mut lines).expect("a trace of merges");
    lines
}

#[test]
fn the_programs_files_are_what_the_oracle_makes() {
    let sample = Path::new(env!("CARGO_MANIFEST_DIR")).join("samples/reads-28.trace");
    let mut trace = Vec::new();
    merges_of(&*read(sample), &mut trace).expect("a trace");
    assert!(trace == stored("stdin"), "crates/merges/stdin is stale: oracle/make-samples");
    assert!(told(&trace) == stored_lines(), "crates/merges/stdout is stale: oracle/make-samples");
}

#[test]
fn they_hold_hundreds_of_merges_and_every_branch_of_one() {
    let mut stats = Stats::default();
    stats.read(&*stored("stdin")).expect("a trace");
    let replies = stats.records - 2 * stats.replicas;
    assert!(replies >= 300, "only {replies} merges");
    assert!(stats.answers[6] >= 10 && stats.answers[12] >= 10, "{:?}", stats.answers);
    for (branch, count) in BRANCHES.iter().zip(&stats.branches) {
        let is_a_merge = ["slot alone", "value over", "the same value", "another value"];
        if branch.0 == "quorumread" && is_a_merge.iter().any(|start| branch.1.starts_with(start)) {
            assert!(*count > 0, "no merge: {}", branch.1);
        }
    }
}

/// The tag, slot and value of each key of a line.
fn keys_of(line: &str) -> Vec<[u64; 3]> {
    let numbers: Vec<u64> = line.split(' ').map(|word| word.parse().expect("a number")).collect();
    numbers[2..].chunks(3).map(|key| [key[0], key[1], key[2]]).collect()
}

#[test]
fn every_pair_of_the_three_cases_is_merged() {
    let (trace, lines) = (stored("stdin"), String::from_utf8(stored_lines()).expect("ASCII"));
    let mut lines = lines.lines();
    let mut pairs = BTreeSet::new();
    let mut held: Vec<[u64; 3]> = Vec::new();
    for bytes in trace.chunks(RECORD_BYTES) {
        let record = Record::decode(bytes).expect("a whole record");
        if record.kind == 0 {
            continue;
        }
        let line = lines.next().expect("a line for each record but the new replicas");
        if record.kind == 11 && line.starts_with("0 ") {
            pairs.extend(held.iter().zip(&record.entries).map(|(held, told)| (held[0], told[0])));
        }
        held = keys_of(line);
    }
    assert_eq!(lines.next(), None);
    let all = (0..3).flat_map(|held| (0..3).map(move |told| (held, told)));
    assert_eq!(pairs, all.collect());
}

/// A read of one key at a group of three, and replies from 0, 1, ..
fn small(senders: &[u8]) -> Vec<u8> {
    let known = KnownList::from_slice(&[Known::Slot(5)]);
    let open = Record { kind: 10, slot: 7, count: 1, ..Record::default() };
    let new = Call::New { id: 0, group: 3, start: 0, options: 0 };
    let mut trace = [new.to_record(), open].map(|record| record.encode()).concat();
    for &peer in senders {
        let reply = Call::ReadReply { peer, read: 7, known, from_leader: false };
        trace.extend(reply.to_record().encode());
    }
    trace
}

#[test]
fn a_reply_that_is_not_merged_into_an_open_read_is_an_error() {
    assert_eq!(told(&small(&[1])), b"0 1 0 0 0\n0 1 1 5 0\n");
    // The second member closes it; a member that was heard is not merged.
    for senders in [&[1, 2][..], &[1, 1]] {
        let error = tell_merges(&*small(senders), &mut Vec::new()).expect_err("no merge");
        assert_eq!(error.to_string(), "record 4: no merge into an open read");
    }
}

#[test]
fn a_read_is_followed_past_the_quorum_of_its_own_group_and_not_past_four() {
    let mut trace = Vec::new();
    merges_of(&*small(&[1, 1, 2, 0, 1, 2]), &mut trace).expect("a trace");
    assert_eq!(trace.len(), (2 + 4) * RECORD_BYTES);
    assert_eq!(told(&trace), b"0 1 0 0 0\n0 1 1 5 0\n0 1 1 5 0\n0 1 1 5 0\n0 1 1 5 0\n");
}
