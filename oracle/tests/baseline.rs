//! The baseline says of every record what the checked oracle says. These tests keep the source's
//! asserts on, so a 6 that was not foreseen also ends the baseline itself.

use std::fs;
use std::path::Path;

use oracle::baseline;
use oracle::generate::{PROFILES, generate};
use oracle::play::play;
use oracle::record::{RECORD_BYTES, Record};
use oracle::tell::Text;

fn lines_of_replay(trace: &[u8]) -> Vec<u8> {
    let mut text = Text::default();
    play(trace, |played| {
        text.replay_line(played.number, played.outcome, played.replica);
        Ok(())
    })
    .expect("memory is read");
    text.bytes
}

fn lines_of_baseline(trace: &[u8]) -> Vec<u8> {
    let mut lines = Vec::new();
    baseline::replay(trace, &mut lines).expect("memory takes it");
    lines
}

fn assert_alike(name: &str, trace: &[u8]) {
    let (one, two) = (lines_of_replay(trace), lines_of_baseline(trace));
    let differ = one.split(|&byte| byte == b'\n').zip(two.split(|&byte| byte == b'\n'));
    for (one, two) in differ {
        assert!(
            one == two,
            "{name}: replay says {}, the baseline {}",
            String::from_utf8_lossy(one),
            String::from_utf8_lossy(two)
        );
    }
    assert_eq!(one.len(), two.len(), "{name}");
}

#[test]
fn on_traces_of_every_profile() {
    for (name, profile) in PROFILES {
        for seed in 31..34 {
            let mut trace = Vec::new();
            generate(seed, 3_000, profile, |record| {
                trace.extend_from_slice(record);
                Ok(())
            })
            .expect("memory takes it");
            assert_alike(&format!("{name} {seed}"), &trace);
        }
    }
}

/// The trace with every strict replica made as a base one.
fn in_base_kind(trace: &[u8]) -> Vec<u8> {
    let mut base = Vec::with_capacity(trace.len());
    for bytes in trace.chunks(RECORD_BYTES) {
        match Record::decode(bytes) {
            Some(record) if record.kind == 0 && (4..8).contains(&record.trigger) => {
                base.extend(Record { trigger: record.trigger - 4, ..record }.encode());
            }
            _ => base.extend(bytes),
        }
    }
    base
}

/// They hold every answer, 5, 6 and 7 among them.
#[test]
fn on_the_stored_samples() {
    let samples = Path::new(env!("CARGO_MANIFEST_DIR")).join("samples");
    let mut seen = 0;
    for entry in fs::read_dir(samples).expect("the samples") {
        let path = entry.expect("a sample").path();
        if path.extension().is_some_and(|end| end == "trace") {
            let trace = in_base_kind(&fs::read(&path).expect("a trace"));
            assert_alike(&path.display().to_string(), &trace);
            seen += 1;
        }
    }
    assert!(seen >= 6, "samples are missing");
}

#[test]
fn a_strict_replica_is_none_of_its_own() {
    let sample = Path::new(env!("CARGO_MANIFEST_DIR")).join("samples/strict-edges.trace");
    let trace = fs::read(sample).expect("a trace");
    let error = baseline::replay(trace.as_slice(), Vec::new()).expect_err("it is strict");
    assert_eq!(error.kind(), std::io::ErrorKind::Unsupported);
    assert!(error.to_string().starts_with("record 2 makes a strict replica"), "{error}");
}

/// A trace's end at, before and after the end of a block that is read at once.
#[test]
fn on_traces_around_a_blocks_end() {
    let mut trace = Vec::new();
    generate(5, 515, PROFILES[0].1, |record| {
        trace.extend_from_slice(record);
        Ok(())
    })
    .expect("memory takes it");
    for length in [0, 1, 255, 256, 65_535, 65_536, 65_537, 131_071, 131_072, 131_073] {
        assert_alike(&format!("{length} bytes"), &trace[..length]);
    }
}
