//! The model beside the Rust, in base kind: on the stored samples, on made traces of both kinds, and
//! that a difference is found and told.
#![cfg(not(feature = "old-rule"))]

use std::fs;
use std::path::Path;

use oracle::agree::Agreement;
use oracle::call::Call;
use oracle::generate::{PROFILES, example, generate_kind};
use oracle::model::agree::{Player, model_agree};
use oracle::record::{RECORD_BYTES, Record};
use oracle::session::{Outcome, Session};
use oracle::shown::Shown;
use oracle::tell::Text;

fn agreeing(name: &str, trace: &[u8]) -> u64 {
    match model_agree(trace).expect("memory is read") {
        Agreement::Whole(records) => records,
        Agreement::Differs(difference) => panic!("{name}: {}", difference.report()),
    }
}

#[test]
fn on_the_stored_samples() {
    let samples = Path::new(env!("CARGO_MANIFEST_DIR")).join("samples");
    let mut records = 0;
    for entry in fs::read_dir(samples).expect("the samples") {
        let path = entry.expect("a sample").path();
        if path.extension().is_some_and(|end| end == "trace") {
            let name = path.display().to_string();
            records += agreeing(&name, &fs::read(&path).expect("a trace"));
        }
    }
    assert!(records > 17_000, "only {records} records");
}

/// Traces of strict groups are played in base kind as well.
#[test]
fn on_traces_of_every_profile_and_kind() {
    for (name, profile) in PROFILES {
        for strict in [false, true] {
            let mut trace = Vec::new();
            generate_kind(51, 4_000, profile, strict, |record| {
                trace.extend_from_slice(record);
                Ok(())
            })
            .expect("memory takes it");
            assert_eq!(agreeing(name, &trace), 4_000);
        }
    }
}

/// What a player of its own tells of a trace.
fn told(trace: &[u8], mut feed: impl FnMut(&[u8]) -> (Outcome, Option<Vec<u8>>)) -> Vec<u8> {
    let mut all = Vec::new();
    for bytes in trace.chunks(RECORD_BYTES) {
        let (outcome, state) = feed(bytes);
        all.extend(format!("{} {:?}\n", outcome.answer, outcome.actions).into_bytes());
        all.extend(state.unwrap_or_default());
    }
    all
}

fn state(replica: Option<Shown>) -> Option<Vec<u8>> {
    let mut text = Text::default();
    text.state(replica?);
    Some(text.bytes)
}

/// A session gives its strict replicas to the model: the model alone says the same of them.
#[test]
fn strict_replicas_are_played_by_it() {
    let trace = example("strict-edges").expect("it is there");
    let (mut session, mut player) = (Session::default(), Player::default());
    let one = told(&trace, |bytes| (session.feed(bytes), state(session.replica())));
    let two = told(&trace, |bytes| (player.feed(bytes), state(player.replica())));
    assert!(one == two);
}

/// The two kinds part in the edges of the strict rules, and only there is one more number told.
#[test]
fn the_kind_changes_what_is_told() {
    let strict = example("strict-edges").expect("it is there");
    let mut base = Vec::new();
    for bytes in strict.chunks(RECORD_BYTES) {
        let mut record = Record::decode(bytes).expect("a record");
        if record.kind == 0 {
            record.trigger %= 4;
        }
        base.extend(record.encode());
    }
    let answers = |trace: &[u8]| -> Vec<u8> {
        let mut player = Player::default();
        trace.chunks(RECORD_BYTES).map(|bytes| player.feed(bytes).answer).collect()
    };
    let (one, two) = (answers(&strict), answers(&base));
    assert!(one.contains(&15) && !two.contains(&15));
    assert!(one.iter().zip(&two).filter(|(one, two)| one != two).count() >= 6);
}

#[test]
fn a_new_replica_is_10_where_the_session_says_so() {
    let (mut session, mut player) = (Session::default(), Player::default());
    for group in 0..=12 {
        for id in [0, 1, 2, 8, 9] {
            for options in [0, 3, 4, 7, 8, 12, u64::MAX] {
                for start in [0, 1 << 32, (1 << 32) + 1] {
                    let call = Call::New { id, group, start, options };
                    let bytes = call.to_record().encode();
                    assert_eq!(session.feed(&bytes), player.feed(&bytes), "{call:?}");
                    assert_eq!(state(session.replica()), state(player.replica()), "{call:?}");
                }
            }
        }
    }
}
