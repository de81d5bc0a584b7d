//! Generated traces: what the profiles reach together, and that a refusal changes nothing. Strict
//! replicas have one rule of reads, so their long traces are run by the new one alone.

use oracle::call::Call;
use oracle::generate::{PROFILES, Profile, generate, generate_kind};
use oracle::model::branches::STRICT_BRANCHES;
use oracle::record::{RECORD_BYTES, Record};
use oracle::rule::OLD_RULE;
use oracle::session::Session;
use oracle::stats::Stats;
use oracle::tell::Text;

fn trace(seed: u64, count: u64, profile: Profile) -> Vec<u8> {
    let mut bytes = Vec::new();
    generate(seed, count, profile, |record| {
        bytes.extend_from_slice(record);
        Ok(())
    })
    .expect("memory takes it");
    bytes
}

fn strict_trace(seed: u64, count: u64, profile: Profile) -> Vec<u8> {
    let mut bytes = Vec::new();
    generate_kind(seed, count, profile, true, |record| {
        bytes.extend_from_slice(record);
        Ok(())
    })
    .expect("memory takes it");
    bytes
}

/// A trace of base replicas, then one of strict ones.
fn both_kinds(seed: u64, count: u64, profile: Profile) -> Vec<Vec<u8>> {
    let traces = [trace(seed, count, profile), strict_trace(seed, count / 2, profile)];
    let records = traces.iter().flat_map(|trace| trace.chunks(RECORD_BYTES));
    records.map(<[u8]>::to_vec).collect()
}

fn is_strict(missing: &str) -> bool {
    let names = STRICT_BRANCHES.iter().map(|branch| branch.0);
    missing == "answer 15" || names.into_iter().any(|name| missing == format!("branch: {name}"))
}

fn state(session: &Session) -> Vec<u8> {
    let mut text = Text::default();
    if let Some(replica) = session.replica() {
        text.state(replica);
    }
    text.bytes
}

#[test]
fn together_they_reach_every_answer_action_and_branch() {
    let mut stats = Stats::default();
    for (_, profile) in PROFILES {
        stats.read(trace(7, 40_000, profile).as_slice()).expect("memory is read");
        let count = if OLD_RULE { 0 } else { 8_000 };
        stats.read(strict_trace(7, count, profile).as_slice()).expect("memory is read");
    }
    let strict = stats.missing().iter().filter(|what| is_strict(what)).count();
    assert_eq!(stats.missing().len(), if OLD_RULE { strict } else { 0 }, "{:?}", stats.missing());
    assert_eq!((stats.depth.slots, stats.depth.keys, stats.depth.reads), (64, 256, 16));
}

#[test]
fn a_refusal_changes_nothing_and_gives_nothing() {
    for (name, profile) in PROFILES {
        let mut session = Session::default();
        let mut refused = 0;
        for record in &both_kinds(11, 6_000, profile) {
            let before = state(&session);
            let outcome = session.feed(record);
            if !matches!(outcome.answer, 0 | 12) {
                refused += 1;
                assert!(state(&session) == before, "{name}: {:?}", Record::fields(record));
                assert!(outcome.actions.is_empty());
            }
        }
        assert!(refused > 20, "{name} refuses too little to tell: {refused}");
    }
}

/// A replica that never met the refused calls ends where one ends that met and refused them.
#[test]
fn refused_records_can_be_left_out() {
    for (name, profile) in PROFILES {
        let (mut all, mut accepted) = (Session::default(), Session::default());
        for record in &both_kinds(12, 6_000, profile) {
            let outcome = all.feed(record);
            if matches!(outcome.answer, 0 | 12) {
                assert!(accepted.feed(record) == outcome, "{name}: {:?}", Record::fields(record));
            }
        }
        assert!(state(&all) == state(&accepted), "{name}");
    }
}

#[test]
fn a_call_and_its_record_mean_the_same() {
    for record in trace(13, 4_000, Profile::Group).chunks(RECORD_BYTES) {
        let read = Record::decode(record).expect("an honest trace is well formed");
        assert_eq!(Call::from_record(&read).to_record(), read);
        assert_eq!(read.encode(), record);
    }
}

/// Every group size, option and kind of start comes up.
#[test]
fn groups_are_of_every_size_and_option() {
    let bytes = trace(14, 40_000, Profile::Group);
    let new: Vec<Record> =
        bytes.chunks(RECORD_BYTES).map(Record::fields).filter(|record| record.kind == 0).collect();
    for group in [1, 3, 5, 7, 9] {
        assert!(new.iter().any(|record| record.sub == group), "group {group}");
    }
    for options in 0..4 {
        assert!(new.iter().any(|record| record.trigger == options), "options {options}");
    }
    assert!(new.iter().any(|record| record.slot == 0));
    assert!(new.iter().any(|record| record.slot == 1 << 32));
}

/// A strict trace has strict groups alone, of every size.
#[cfg(not(feature = "old-rule"))]
#[test]
fn strict_groups_are_of_every_size_and_option() {
    let bytes = strict_trace(14, 40_000, Profile::Group);
    let new: Vec<Record> =
        bytes.chunks(RECORD_BYTES).map(Record::fields).filter(|record| record.kind == 0).collect();
    assert!(new.iter().all(|record| (4..8).contains(&record.trigger)));
    for group in [1, 3, 5, 7, 9] {
        assert!(new.iter().any(|record| record.sub == group), "group {group}");
    }
    for options in 4..8 {
        assert!(new.iter().any(|record| record.trigger == options), "options {options}");
    }
}
