//! The commands as a user meets them.

use std::io::Write;
use std::process::{Command, Output, Stdio};

use oracle::call::Call;
use oracle::generate::example;
use oracle::record::Record;

fn oracle(words: &[&str], input: &[u8]) -> Output {
    let mut child = Command::new(env!("CARGO_BIN_EXE_oracle"))
        .args(words)
        .stdin(Stdio::piped())
        .stdout(Stdio::piped())
        .stderr(Stdio::piped())
        .spawn()
        .expect("the oracle starts");
    let mut stdin = child.stdin.take().expect("a pipe");
    let input = input.to_vec();
    // A command that refuses its words may close the pipe first.
    let writer = std::thread::spawn(move || drop(stdin.write_all(&input)));
    let output = child.wait_with_output().expect("the oracle ends");
    writer.join().expect("the writer ends");
    output
}

fn printed(words: &[&str], input: &[u8]) -> String {
    let output = oracle(words, input);
    assert!(output.status.success(), "{output:?}");
    String::from_utf8(output.stdout).expect("the text is ASCII")
}

fn worked_example() -> Vec<u8> {
    example("worked").expect("it is there")
}

fn bytes(calls: &[Call]) -> Vec<u8> {
    calls.iter().flat_map(|call| call.to_record().encode()).collect()
}

#[test]
fn the_worked_example_prints_01s_lines() {
    let lines =
        "1 0 0 0 0 0 0\n2 0 4 257 0 0 0\n3 0 2 257 0 0 0\n4 0 1 257 1 0 0\n5 0 0 257 1 1 0\n";
    assert_eq!(printed(&["replay"], &worked_example()), lines);
}

#[test]
fn tell_begins_each_record_with_its_replay_line() {
    let told = printed(&["tell"], &worked_example());
    let digits: String =
        told.split_inclusive('\n').filter(|line| line.as_bytes()[0].is_ascii_digit()).collect();
    assert_eq!(digits, printed(&["replay"], &worked_example()));
}

#[test]
fn empty_input_prints_nothing() {
    assert_eq!(printed(&["replay"], b""), "");
    assert_eq!(printed(&["tell"], b""), "");
}

#[test]
fn malformed_records_are_13_and_reading_goes_on() {
    let good = worked_example();
    let mut trace = good[..512].to_vec();
    let well = Call::Timeout { source: 0 }.to_record();
    let mut wrong_sum = well.encode();
    wrong_sum[4] ^= 1;
    trace.extend(wrong_sum);
    let ill = [
        Record { kind: 12, ..well },
        Record { count: 9, ..well },
        Record { kind: 2, sub: 2, ..well },
        Record { kind: 8, sub: 0, ..well },
        Record { kind: 8, sub: 4, ..well },
        Record { kind: 11, sub: 2, ..well },
        Record { kind: 11, count: 1, entries: [[3, 0, 0]; 8], ..well },
    ];
    trace.extend(ill.iter().flat_map(Record::encode));
    trace.extend(&good[512..]);
    trace.extend([0; 255]);
    let lines: Vec<String> = printed(&["replay"], &trace).lines().map(String::from).collect();
    assert_eq!(lines.len(), 14);
    for number in 3..=10 {
        assert_eq!(lines[number - 1], format!("{number} 13 0 257 0 0 0"));
    }
    assert_eq!(lines[12], "13 0 0 257 1 1 0");
    assert_eq!(lines[13], "14 13 0 257 1 1 0");
}

#[test]
fn tags_past_the_count_and_unused_fields_are_passed_by() {
    let mut read = Record { kind: 11, count: 1, entries: [[3, 5, 5]; 8], ..Record::default() };
    read.entries[0] = [0, 7, 7];
    let timeout = Record { kind: 6, sub: 200, count: 8, slot: 9, bar: 9, ..Record::default() };
    let mut trace = worked_example()[..256].to_vec();
    trace.extend(read.encode());
    trace.extend(timeout.encode());
    assert_eq!(printed(&["replay"], &trace), "1 0 0 0 0 0 0\n2 0 0 0 0 0 0\n3 0 4 257 0 0 0\n");
}

#[test]
fn before_a_first_replica_the_record_is_all_zero() {
    let mut trace = bytes(&[Call::Timeout { source: 0 }]);
    trace.push(0);
    assert_eq!(printed(&["tell"], &trace), "1 1 0 0 0 0 0\nZ\n2 13 0 0 0 0 0\nZ\n");
}

#[test]
fn a_seed_and_a_profile_fix_a_trace() {
    for profile in ["group", "fuzz", "reads", "mix"] {
        for kind in [&[][..], &["--strict"]] {
            let gen_with = |seed| {
                let words = [&["gen", seed, "700", "--profile", profile], kind].concat();
                oracle(&words, b"").stdout
            };
            let trace = gen_with("3");
            assert_eq!(trace.len().div_ceil(256), 700);
            assert_eq!(trace, gen_with("3"));
            assert_ne!(trace, gen_with("4"));
        }
    }
}

#[test]
fn the_baseline_prints_replays_lines() {
    let trace = oracle(&["gen", "8", "2000", "--profile", "mix"], b"").stdout;
    assert_eq!(printed(&["baseline"], &trace), printed(&["replay"], &trace));
    assert_eq!(printed(&["baseline"], b""), "");
}

#[test]
fn agree_counts_the_records_or_shows_the_first_that_differs() {
    let sample = concat!(env!("CARGO_MANIFEST_DIR"), "/samples/mix-77.trace");
    let trace = std::fs::read(sample).expect("a sample");
    let told = printed(&["tell"], &trace);
    assert_eq!(printed(&["agree", sample], told.as_bytes()), "2500 records agree\n");
    let line = told.match_indices("\n1203 ").next().expect("record 1203").0 + 1;
    let mut other = told.into_bytes();
    other[line + 5] ^= 1;
    let output = oracle(&["agree", sample], &other);
    assert_eq!(output.status.code(), Some(1));
    let said = String::from_utf8_lossy(&output.stdout);
    assert!(said.starts_with("record 1203 differs: "), "{said}");
    assert!(said.contains("\nanswer is "), "{said}");
}

#[test]
fn a_strict_replica_is_not_for_the_baseline_and_not_for_merges() {
    let edges = example("strict-edges").expect("it is there");
    let read = Record { kind: 10, slot: 7, count: 1, ..Record::default() };
    let asked = [&edges[256..512], &read.encode()[..]].concat();
    for (words, trace) in [("baseline", &edges), ("merges", &asked)] {
        let output = oracle(&[words], trace);
        assert_eq!(output.status.code(), Some(2), "{words}");
        let said = String::from_utf8_lossy(&output.stderr);
        assert!(said.ends_with("knows the base kind only\n"), "{said}");
        assert_eq!(said.lines().count(), 1);
    }
}

/// A completion of a strict replica keeps its ballot.
#[test]
fn the_other_ballots_are_those_of_base_replicas() {
    let (base, strict) = (worked_example(), example("strict-edges").expect("it is there"));
    let trace = [&strict[256 * 5..], &base, &strict[256 * 6..]].concat();
    let other = oracle(&["other-ballots", "3"], &trace).stdout;
    let changed: Vec<usize> = (0..trace.len() / 256)
        .filter(|place| trace[256 * place..][..256] != other[256 * place..][..256])
        .collect();
    let from = strict.len() / 256 - 5;
    assert_eq!(changed, [from + 2, from + 3, from + 4]);
}

#[test]
fn a_seed_fixes_the_other_ballots() {
    let trace = worked_example();
    let with = |seed| oracle(&["other-ballots", seed], &trace).stdout;
    assert_eq!(with("3").len(), trace.len());
    assert_eq!(with("3"), with("3"));
    assert_ne!(with("3"), with("4"));
    assert_eq!(printed(&["tell"], &with("3")), printed(&["tell"], &trace));
}

#[test]
fn a_trace_that_is_not_there_is_an_error() {
    for command in ["stats", "agree"] {
        let output = oracle(&[command, "no/such.trace"], b"");
        assert_eq!(output.status.code(), Some(1));
        assert!(output.stdout.is_empty());
        assert!(String::from_utf8_lossy(&output.stderr).contains("no/such.trace"));
    }
}

#[test]
fn bad_usage_is_an_error() {
    let bad: [&[&str]; 28] = [
        &[],
        &["--old-rule"],
        &["departs"],
        &["departs", "one.trace", "two.trace"],
        &["without-first-values", "trace"],
        &["other-ballots"],
        &["other-ballots", "one"],
        &["other-ballots", "1", "trace"],
        &["merges", "trace"],
        &["merges-of", "trace"],
        &["baseline", "trace"],
        &["agree"],
        &["agree", "one.trace", "two.trace"],
        &["play"],
        &["replay", "trace"],
        &["tell", "-"],
        &["example"],
        &["example", "2"],
        &["gen"],
        &["gen", "1", "2"],
        &["gen", "1", "2", "--profile"],
        &["gen", "one", "2", "--profile", "mix"],
        &["gen", "1", "-2", "--profile", "mix"],
        &["gen", "1", "2", "--profile", "all"],
        &["gen", "1", "2", "--strict"],
        &["gen", "1", "2", "--profile", "mix", "--base"],
        &["gen", "1", "2", "--profile", "mix", "--strict", "--strict"],
        &["model-agree", "trace"],
    ];
    for words in bad {
        let output = oracle(words, b"");
        assert_eq!(output.status.code(), Some(2), "{words:?}");
        assert!(output.stdout.is_empty(), "{words:?}");
        assert!(String::from_utf8_lossy(&output.stderr).contains("usage:"), "{words:?}");
    }
}
