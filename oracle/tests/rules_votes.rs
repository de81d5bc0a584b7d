//! What 02's rules (a), (b) and (d) are for, by honest runs without them beside the same runs with all
//! rules. It hangs on no rule of reads, so it is run once.
#![cfg(not(feature = "old-rule"))]

#[path = "common/weakened.rs"]
mod weakened;

use oracle::action::Kind::*;
use oracle::generate::{TWO_BATCHES, honest_run};
use oracle::honest::Event::{self, *};
use oracle::honest::Group;
use oracle::model::rules::Rules;
use oracle::model::{Replica, Status};
use weakened::*;

const NO_TEST_OF_PREPARES: Rules = Rules { prepares_at_the_slots_ballot: false, ..Rules::STRICT };
const NO_TEST_OF_THE_VOTE: Rules = Rules { accepts_at_the_votes_ballot: false, ..Rules::STRICT };
const NO_TEST_OF_ACCEPTS: Rules =
    Rules { accepts_at_the_slots_ballot: false, ..NO_TEST_OF_THE_VOTE };
const NO_OWN_VOTES: Rules = Rules { own_votes: false, ..Rules::STRICT };
const COMMITTED_FALLS: Rules = Rules { committed_stays: false, ..Rules::STRICT };

/// Random schedules of so many members; `look` sees the group before each event.
fn random_runs(
    members: u8,
    rules: Rules,
    mut look: impl FnMut(&Group<Replica>),
) -> Vec<Vec<Event>> {
    let run = |seed| {
        let mut group = group_of(members, rules);
        honest_run(seed, &mut group, 60, |group| {
            look(group);
            true
        })
    };
    (0..2_000).map(run).collect()
}

/// In each of them one slot has one batch, and 15 is never given.
fn random_runs_keep_wish_7(rules: Rules) {
    for members in [3, 5] {
        let mut marks = 0;
        random_runs(members, rules, |group| {
            assert!(group.keeps_wish_7(), "{:?}", group.calls);
            marks = marks.max(group.marks.len());
        });
        assert!(marks > 2, "hardly a slot is marked");
    }
}

/// (a), accept entries: member 0 answers member 1 for an entry of its own older ballot.
#[test]
fn without_a_for_accept_entries_one_slot_has_two_batches() {
    let late_entry = Finishes(0, AcceptData, 1, 257);
    breaks_only_without(NO_TEST_OF_ACCEPTS, &TWO_BATCHES, late_entry);
    // The slot's ballot it is.
    let slots_alone = Rules { accepts_at_the_slots_ballot: false, ..Rules::STRICT };
    breaks_only_without(slots_alone, &TWO_BATCHES, late_entry);
}

/// (a), the vote's ballot: with (b) an accept entry at the slot's ballot is the slot's vote.
#[test]
fn without_the_votes_ballot_nothing_changes_by_itself() {
    for run in random_runs(3, NO_TEST_OF_THE_VOTE, |_| {}) {
        let [without, with] =
            [NO_TEST_OF_THE_VOTE, Rules::STRICT].map(|rules| played(3, rules, &run));
        assert_eq!((without.given, without.calls), (with.given, with.calls));
    }
}

/// (a), prepare entries: member 2 promises 258 with no entry of 258 finished. That a slot then gets two
/// batches takes a member that loses what it had not finished, which is not among these runs.
#[test]
fn without_a_for_prepare_entries_a_promise_is_told_before_it_is_written() {
    let run = [
        StepsUp(0),
        StepsUp(1),
        Hears(2, 0, Prepare, 0, 257),
        Hears(2, 1, Prepare, 0, 258),
        Finishes(2, PrepareBal, 0, 257),
    ];
    let promised = |rules| played(3, rules, &run).sent(2, 1, PrepareReply, 0, 258).is_some();
    assert!(promised(NO_TEST_OF_PREPARES));
    assert!(!promised(Rules::STRICT));
    random_runs_keep_wish_7(NO_TEST_OF_PREPARES);
}

/// A group of one saves batch 7.
const ALONE: [Event; 5] = [
    StepsUp(0),
    Finishes(0, PrepareBal, 0, 257),
    Finishes(0, AcceptData, 0, 257),
    IsOffered(0, 7),
    Finishes(0, AcceptData, 1, 257),
];

#[test]
fn without_b_a_group_of_one_never_commits() {
    let saved = |rules| -> Vec<u64> {
        played(1, rules, &ALONE).marks.iter().map(|mark| mark.batch.id).collect()
    };
    assert_eq!(saved(NO_OWN_VOTES), []);
    assert_eq!(saved(Rules::STRICT), [0, 7]);
    random_runs(1, NO_OWN_VOTES, |group| assert_eq!(group.marks, []));
}

#[test]
fn without_b_marks_still_agree() {
    random_runs_keep_wish_7(NO_OWN_VOTES);
}

/// Member 2 counts itself for batch 7, and has no vote to tell of: member 1, which leads next by its
/// replies, enters slot 1 with nothing.
const UNRECORDED: [Event; 21] = [
    StepsUp(2),
    Finishes(2, PrepareBal, 0, 259),
    Hears(1, 2, Prepare, 0, 259),
    Finishes(1, PrepareBal, 0, 259),
    Hears(2, 1, PrepareReply, 0, 259),
    IsOffered(2, 7),
    Finishes(2, AcceptData, 1, 259),
    Hears(0, 2, Accept, 1, 259),
    Finishes(0, AcceptData, 1, 259),
    Hears(2, 0, AcceptReply, 1, 259),
    StepsUp(1),
    Finishes(1, PrepareBal, 0, 514),
    Hears(2, 1, Prepare, 0, 514),
    Finishes(2, PrepareBal, 0, 514),
    Finishes(2, PrepareBal, 1, 514),
    Hears(1, 2, PrepareReply, 1, 514),
    Hears(1, 2, PrepareReply, 0, 514),
    Finishes(1, AcceptData, 1, 514),
    Hears(0, 1, Accept, 1, 514),
    Finishes(0, AcceptData, 1, 514),
    Hears(1, 0, AcceptReply, 1, 514),
];

#[test]
fn without_b_and_the_votes_ballot_one_slot_has_two_batches() {
    let rules = Rules { own_votes: false, ..NO_TEST_OF_THE_VOTE };
    let mut group = group_of(3, rules);
    assert!(UNRECORDED.iter().all(|event| group.happens(*event) == Some(0)));
    assert_eq!(group.two_batches(), Some(1));
    // Either of the two is enough against it.
    for rules in [NO_OWN_VOTES, NO_TEST_OF_THE_VOTE, Rules::STRICT] {
        assert!(played(3, rules, &UNRECORDED).keeps_wish_7(), "{rules:?}");
    }
}

/// Member 1 has learned from member 0 that slot 0 is committed, and gets the Prepare of member 2, which
/// has not.
const LEARNED: [Event; 13] = [
    StepsUp(0),
    Finishes(0, PrepareBal, 0, 257),
    Hears(1, 0, Prepare, 0, 257),
    Finishes(1, PrepareBal, 0, 257),
    Hears(0, 1, PrepareReply, 0, 257),
    Finishes(0, AcceptData, 0, 257),
    Hears(1, 0, Accept, 0, 257),
    Finishes(1, AcceptData, 0, 257),
    Hears(0, 1, AcceptReply, 0, 257),
    Finishes(0, CommitSlot, 0, 257),
    Hears(1, 0, CommitNotice, 0, 257),
    StepsUp(2),
    Hears(1, 2, Prepare, 0, 259),
];

/// Slot 0's status at member 1, and its first slot not committed.
fn learned(rules: Rules, events: usize) -> (Status, u64) {
    let group = played(3, rules, &LEARNED[..events]);
    let learner = &group.members[1];
    (learner.slot(0).expect("slot 0").status, learner.summary()[0])
}

#[test]
fn without_d_a_learner_forgets() {
    for rules in [COMMITTED_FALLS, Rules::STRICT] {
        assert_eq!(learned(rules, 12), (Status::Committed, 1));
    }
    assert_eq!(learned(COMMITTED_FALLS, 13), (Status::Preparing, 0));
    assert_eq!(learned(Rules::STRICT, 13), (Status::Committed, 1));
}

/// The first slot not committed falls at some member.
fn forgets(rules: Rules, run: &[Event]) -> bool {
    let mut group = group_of(3, rules);
    let mut before = [0; 3];
    run.iter().any(|event| {
        group.happens(*event);
        let now = [0, 1, 2].map(|member: usize| group.members[member].summary()[0]);
        let falls = (0..3).any(|member| now[member] < before[member]);
        before = now;
        falls
    })
}

#[test]
fn without_d_marks_still_agree_and_the_first_open_slot_falls() {
    random_runs_keep_wish_7(COMMITTED_FALLS);
    let forgetting = |rules| random_runs(3, rules, |_| {}).iter().any(|run| forgets(rules, run));
    assert!(forgetting(COMMITTED_FALLS));
    assert!(!forgetting(Rules::STRICT));
}
