//! 02, Wish 5: a CommitSlot has its slot's ballot, and a completion its entry's; which one that is
//! makes no difference.

mod common;

use std::collections::BTreeSet;

use common::*;
use oracle::action::{Action, Kind};
use oracle::ballots::other_ballots;
use oracle::batch::Batch;
use oracle::call::{Call, Entry};
use oracle::generate::{PROFILES, Profile, example, generate};
use oracle::play::play;
use oracle::record::{RECORD_BYTES, Record};

fn made(profile: Profile) -> Vec<u8> {
    let mut trace = Vec::new();
    generate(17, 3_000, profile, |record| {
        trace.extend_from_slice(record);
        Ok(())
    })
    .expect("memory takes it");
    trace
}

/// Those made by hand that hold a completion.
fn made_by_hand() -> Vec<(&'static str, Vec<u8>)> {
    let names = ["worked", "keys", "refusals", "late-0", "late-1", "late-2"];
    names.map(|name| (name, example(name).expect("it is there"))).to_vec()
}

/// Damaged records are in some, and a short one.
fn traces() -> Vec<(&'static str, Vec<u8>)> {
    let mut traces = made_by_hand();
    traces.extend(PROFILES.map(|(name, profile)| (name, made(profile))));
    let short = traces.iter().filter(|(_, trace)| trace.len() % RECORD_BYTES != 0);
    assert!(short.count() > 0, "no trace ends in a short record");
    traces
}

fn with_other_ballots(seed: u64, trace: &[u8]) -> Vec<u8> {
    let mut other = Vec::new();
    other_ballots(seed, trace, &mut other).expect("memory takes it");
    other
}

#[test]
fn every_completion_names_another_ballot_and_nothing_else_is_changed() {
    for (name, trace) in traces() {
        let other = with_other_ballots(5, &trace);
        assert_eq!(other.len(), trace.len(), "{name}");
        let mut changed = 0;
        for (old, new) in trace.chunks(RECORD_BYTES).zip(other.chunks(RECORD_BYTES)) {
            let Some(record) = Record::decode(old).filter(|record| record.kind == 8) else {
                assert_eq!(old, new, "{name}");
                continue;
            };
            let named = Record::decode(new).expect("well formed, its sum right");
            assert_ne!(named.ballot, record.ballot, "{name}");
            assert_eq!(Record { ballot: record.ballot, ..named }, record, "{name}");
            changed += 1;
        }
        assert!(changed > 0, "{name}: no completion");
    }
}

#[test]
fn traces_that_differ_in_it_alone_are_told_alike() {
    for (name, trace) in traces() {
        let told = told_text(trace.as_slice());
        for seed in 1..4 {
            let other = with_other_ballots(seed, &trace);
            assert!(told_text(other.as_slice()) == told, "{name}, seed {seed}");
        }
    }
}

/// What a completion says of its entry, by 01's kind.
fn entry_of(action: &Action) -> Option<(u64, u64, u64)> {
    let logged = matches!(action.kind, Kind::PrepareBal | Kind::AcceptData | Kind::CommitSlot);
    logged.then_some((action.kind as u64, action.slot, action.ballot))
}

/// A group reports only entries that it was given, late and repeated, each with its own ballot; the
/// traces made by hand, too.
#[test]
fn an_honest_completion_is_of_an_entry_that_was_given() {
    let mut traces = made_by_hand();
    let honest = [Profile::Group, Profile::Reads, Profile::Writes];
    traces.extend(honest.map(|profile| ("made", made(profile))));
    for (name, trace) in traces {
        let (mut given, mut finished) = (BTreeSet::new(), 0);
        play(trace.as_slice(), |played| {
            match Record::decode(played.bytes).map(|record| Call::from_record(&record)) {
                Some(Call::New { .. }) if played.outcome.answer == 0 => given.clear(),
                Some(Call::LogDone { entry, slot, ballot, .. }) => {
                    let entry = (entry as u64, slot, ballot);
                    assert!(given.contains(&entry), "{name}, record {}: {entry:?}", played.number);
                    finished += 1;
                }
                _ => {}
            }
            given.extend(played.outcome.actions.iter().filter_map(entry_of));
            Ok(())
        })
        .expect("memory is read");
        assert!(finished > 0, "{name}: no completion");
    }
}

/// The slot and ballot of each CommitSlot among the actions.
fn commits(actions: &[Action]) -> Vec<(u64, u64)> {
    let commits = actions.iter().filter(|action| action.kind == Kind::CommitSlot);
    commits.map(|commit| (commit.slot, commit.ballot)).collect()
}

/// By a member's reply, and by the own log.
#[test]
fn a_leaders_commit_slot_has_its_slots_ballot() {
    let mut leader = prepared_leader(3, 0);
    leader.does(offer(7, &[]));
    leader.does(done(Entry::AcceptData, 0, 257));
    assert_eq!(commits(&leader.does(accept_reply(2, 257, 0))), [(0, 257)]);
    leader.does(accept_reply(2, 257, 1));
    assert_eq!(commits(&leader.does(done(Entry::AcceptData, 1, 9))), [(1, 257)]);
}

/// The slots' ballot is the second leader's, where the entries of the first are not finished yet.
#[test]
fn a_followers_commit_slots_have_their_slots_ballot() {
    let mut member = Member::new(2, 3, 0);
    for (peer, ballot) in [(0, 257), (1, 514)] {
        member.does(accept(peer, ballot, 0, Batch::new(4, &[])));
        member.does(accept(peer, ballot, 1, Batch::new(5, &[])));
    }
    member.does(done(Entry::AcceptData, 0, 257));
    assert_eq!(commits(&member.does(notice(1, 514, 2))), [(0, 514), (1, 514)]);
}
