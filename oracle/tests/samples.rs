//! The stored samples: the oracle still says of them what is stored, and they reach everything.

mod common;

use std::fs;
use std::path::{Path, PathBuf};

use common::told_text;
use oracle::digest::Digest;
use oracle::generate::example;
use oracle::play::play;
use oracle::rule::OLD_RULE;
use oracle::stats::Stats;
use oracle::tell::Text;

fn folder() -> PathBuf {
    Path::new(env!("CARGO_MANIFEST_DIR")).join("samples")
}

fn traces() -> Vec<PathBuf> {
    let mut traces: Vec<PathBuf> = fs::read_dir(folder())
        .expect("the samples")
        .map(|entry| entry.expect("a sample").path())
        .filter(|path| path.extension().is_some_and(|end| end == "trace"))
        .collect();
    traces.sort();
    assert!(traces.len() >= 6, "samples are missing");
    traces
}

/// What the old rule says otherwise of a trace stands apart.
fn stored(trace: &Path, extension: &str) -> String {
    let path = trace.with_extension(extension);
    let old = folder().join("old-rule").join(path.file_name().expect("a sample"));
    let path = if OLD_RULE && old.exists() { old } else { path };
    fs::read_to_string(&path).unwrap_or_else(|error| panic!("{}: {error}", path.display()))
}

#[test]
fn replay_and_digest_are_as_stored() {
    for trace in traces() {
        let (mut lines, mut digest) = (Text::default(), Digest::default());
        play(fs::File::open(&trace).expect("a trace"), |played| {
            lines.replay_line(played.number, played.outcome, played.replica);
            digest.add(&played);
            Ok(())
        })
        .expect("the trace is read");
        let name = trace.display();
        assert!(lines.bytes == stored(&trace, "replay").as_bytes(), "{name}: replay differs");
        assert!(digest.finish() == stored(&trace, "digest"), "{name}: the told text differs");
    }
}

#[test]
fn the_traces_made_by_hand_are_as_stored() {
    let of_one = ["worked", "keys", "refusals", "first-value", "strict-edges"].map(String::from);
    let runs = ["late", "two-batches", "strict-two-batches"];
    let of_three = runs.iter().flat_map(|run| (0..3).map(move |member| format!("{run}-{member}")));
    for name in of_one.into_iter().chain(of_three) {
        let stored = fs::read(folder().join(&name).with_extension("trace")).expect("a trace");
        assert!(example(&name).expect("it is there") == stored, "{name}: the trace differs");
    }
}

/// Three are stored whole; the second by the new rule.
#[test]
fn the_told_text_is_as_stored() {
    let by_both = ["worked", "strict-edges"];
    let by_the_new = (!OLD_RULE).then_some("first-value");
    for name in by_both.into_iter().chain(by_the_new) {
        let trace = folder().join(name).with_extension("trace");
        let text = told_text(fs::File::open(&trace).expect("a trace"));
        assert_eq!(text, stored(&trace, "tell"));
    }
}

#[test]
fn together_they_reach_every_answer_action_and_branch() {
    let mut stats = Stats::default();
    for trace in traces() {
        stats.read(fs::File::open(trace).expect("a trace")).expect("the trace is read");
    }
    assert_eq!(stats.missing(), Vec::<String>::new());
    assert_eq!((stats.depth.slots, stats.depth.keys, stats.depth.reads), (64, 256, 16));
    assert_eq!((stats.depth.committed, stats.depth.executed), (64, 64));
    assert_eq!(stats.depth.actions, 191);
}
