//! 02, Wish 6: both sides of each edge of the strict rules, and what holds of every trace of strict
//! replicas. It hangs on no rule of reads, so it is run once.
#![cfg(not(feature = "old-rule"))]

mod common;

use common::*;
use oracle::action::Kind;
use oracle::batch::Batch;
use oracle::call::{Call, Entry};
use oracle::generate::{PROFILES, Profile, generate_kind, strict_edges};
use oracle::session::Session;
use oracle::shown::Shown;

const STRICT: u64 = 4;
const VOTED_BALLOT: usize = 15;
const VOTED_BATCH: usize = 16;
const PREPARE_ACKS: usize = 29;
const NOTED: usize = 36;
const LEADERS_TRIGGER: usize = 18;
const PREPARING: u64 = 1;
const ACCEPTING: u64 = 2;
const COMMITTED: u64 = 3;
const EXECUTED: u64 = 4;

fn batch(id: u64) -> Batch {
    Batch::new(id, &[id])
}

fn follower() -> Member {
    Member::with_options(2, 3, 0, STRICT)
}

/// Member 0 leads at 513 from slot 0, with slots 0 to 2 accepted from member 1 before.
fn leader() -> Member {
    let mut leader = Member::with_options(0, 3, 0, STRICT);
    for slot in 0..3 {
        leader.does(accept(1, 258, slot, batch(slot + 1)));
    }
    leader.does(timeout(1));
    assert_eq!(leader.scalars()[BAL_PREP_SENT], 513);
    leader
}

/// The same with its own entries finished.
fn durable_leader() -> Member {
    let mut leader = leader();
    for slot in 0..3 {
        leader.does(done(Entry::PrepareBal, slot, 513));
    }
    assert_eq!(counted(&leader), 0b001);
    leader
}

/// The members counted, at trigger slot 0.
fn counted(leader: &Member) -> u64 {
    leader.slots()[0][PREPARE_ACKS]
}

fn noted(leader: &Member, place: usize) -> u64 {
    leader.slots()[place][NOTED]
}

/// A reply of trigger 0.
fn from(peer: u8, slot: u64, endprep: u64) -> Call {
    spanning_reply(peer, 513, slot, 0, endprep)
}

#[test]
fn the_sample_is_answered_as_its_list_says() {
    let mut session = Session::default();
    for (place, (call, answer)) in strict_edges().into_iter().enumerate() {
        assert_eq!(session.call(&call).answer, answer, "record {}: {call:?}", place + 1);
    }
}

#[test]
fn four_more_makes_a_strict_replica_and_one_more_number_is_told() {
    for options in 0..8 {
        let member = Member::with_options(2, 3, 0, options);
        let strict = options >= STRICT;
        assert_eq!(member.0.replica().is_some_and(Shown::is_strict), strict);
        assert_eq!(member.scalars().len(), 18 + usize::from(strict));
        assert_eq!(member.scalars()[4..6], [options & 1, options >> 1 & 1]);
        let mut asked = member;
        asked.does(prepare(0, 257, 0));
        assert_eq!(asked.slots()[0].len(), 36 + usize::from(strict));
    }
    follower().refuses(10, Call::New { id: 2, group: 3, start: 0, options: 8 });
}

/// (a), a follower's prepare entry.
#[test]
fn a_prepare_completion_is_answered_at_the_slots_ballot_alone() {
    let mut member = follower();
    member.does(prepare(0, 257, 0));
    member.does(prepare(1, 258, 0));
    assert_eq!(member.does(done(Entry::PrepareBal, 0, 257)), []);
    assert_eq!(member.does(done(Entry::PrepareBal, 0, 259)), []);
    assert_eq!(kinds(&member.does(done(Entry::PrepareBal, 0, 258))), [Kind::PrepareReply]);
}

/// (a), a follower's accept entry; the bar moves at any.
#[test]
fn an_accept_completion_is_answered_at_the_slots_and_the_votes_ballot_alone() {
    let mut member = follower();
    member.does(accept(0, 257, 0, batch(1)));
    assert_eq!(kinds(&member.does(done(Entry::AcceptData, 0, 257))), [Kind::AcceptReply]);
    member.does(prepare(1, 258, 0));
    assert_eq!(member.does(done(Entry::AcceptData, 0, 257)), []);
    assert_eq!(member.does(done(Entry::AcceptData, 0, 258)), []);
    member.does(accept(1, 258, 0, batch(2)));
    assert_eq!(member.does(done(Entry::AcceptData, 0, 257)), []);
    assert_eq!(kinds(&member.does(done(Entry::AcceptData, 0, 258))), [Kind::AcceptReply]);
}

#[test]
fn bars_and_sizes_move_at_a_completion_that_says_nothing() {
    let mut member = follower();
    member.does(accept(0, 257, 0, batch(1)));
    assert_eq!(
        member.does(Call::LogDone { entry: Entry::AcceptData, slot: 0, ballot: 9, size: 7 }),
        []
    );
    assert_eq!((member.scalars()[10], member.scalars()[13]), (1, 7));
    member.refuses(6, Call::LogDone { entry: Entry::AcceptData, slot: 0, ballot: 9, size: 6 });
    member.refuses(4, done(Entry::AcceptData, 1, 9));
}

/// (a) at a leader, and (b).
#[test]
fn a_group_of_one_votes_for_itself_by_quorum_and_by_offer() {
    let mut alone = Member::with_options(0, 1, 0, STRICT);
    alone.does(timeout(0));
    assert_eq!(alone.does(done(Entry::PrepareBal, 0, 256)), []);
    assert_eq!(noted(&alone, 0), 0);
    let entering = alone.does(done(Entry::PrepareBal, 0, 257));
    assert_eq!(kinds(&entering), [Kind::AcceptData, Kind::Accept]);
    assert_eq!(alone.slots()[0][VOTED_BALLOT], 257);
    alone.does(offer(7, &[7]));
    assert_eq!(alone.slots()[1][VOTED_BALLOT..=VOTED_BATCH], [257, 7]);
    for slot in 0..2 {
        assert_eq!(alone.does(done(Entry::AcceptData, slot, 256)), []);
        let marks = alone.does(done(Entry::AcceptData, slot, 257));
        assert_eq!(kinds(&marks), [Kind::CommitSlot]);
    }
}

/// (c): the last missing note counts, on whichever slot it comes.
#[test]
fn a_member_counts_when_its_last_note_comes() {
    for order in [[0, 1, 2], [2, 1, 0], [1, 0, 2]] {
        let mut leader = durable_leader();
        assert_eq!(leader.does(from(1, order[0], 2)), []);
        assert_eq!(leader.does(from(1, order[1], 2)), []);
        assert_eq!(counted(&leader), 0b001);
        assert_eq!(leader.does(from(1, order[2], 2)).len(), 6);
        assert_eq!(counted(&leader), 0b011);
    }
}

/// (c): e is the arriving reply's.
#[test]
fn a_shorter_log_counts_by_its_own_end() {
    let mut leader = durable_leader();
    assert_eq!(leader.does(from(2, 1, 1)), []);
    assert_eq!(kinds(&leader.does(from(2, 0, 0))).len(), 6);
    assert_eq!((counted(&leader), leader.status(2), noted(&leader, 2)), (0b101, ACCEPTING, 1));
}

#[test]
fn slot_e_must_exist_at_the_leader() {
    let mut leader = durable_leader();
    for slot in 0..3 {
        assert_eq!(leader.does(from(1, slot, 3)), []);
    }
    assert_eq!(counted(&leader), 0b001);
    // The slot of this reply is e: it is appended first, and then it exists.
    let appended = leader.does(from(1, 3, 3));
    assert_eq!((appended.len(), appended[0].kind), (1 + 8, Kind::PrepareBal));
    assert_eq!((counted(&leader), leader.status(3)), (0b011, ACCEPTING));
}

#[test]
fn self_counts_by_its_own_endprep_in_any_order() {
    let mut leader = leader();
    leader.does(done(Entry::PrepareBal, 2, 513));
    leader.does(done(Entry::PrepareBal, 0, 513));
    assert_eq!(leader.does(done(Entry::PrepareBal, 1, 258)), []);
    assert_eq!((counted(&leader), noted(&leader, 1)), (0, 0));
    leader.does(done(Entry::PrepareBal, 1, 513));
    assert_eq!((counted(&leader), noted(&leader, 1)), (1, 1));
    // A slot that was appended lies past it.
    leader.does(from(1, 3, 9));
    leader.does(done(Entry::PrepareBal, 3, 513));
    assert_eq!(noted(&leader, 3), 0b010);
}

#[test]
fn a_reply_is_noted_at_any_status_and_its_vote_taken_while_preparing() {
    let mut leader = durable_leader();
    leader.does(with_vote(from(1, 1, 2), (300, batch(9))));
    assert_eq!(leader.slots()[1][5], 9);
    leader.does(from(2, 0, 0));
    assert_eq!(leader.status(1), ACCEPTING);
    leader.does(with_vote(from(2, 1, 2), (400, batch(8))));
    assert_eq!((leader.slots()[1][5], noted(&leader, 1)), (9, 0b111));
    leader.does(done(Entry::AcceptData, 0, 513));
    leader.does(accept_reply(1, 513, 0));
    assert_eq!(leader.status(0), COMMITTED);
    leader.does(from(1, 0, 2));
    assert_eq!((leader.status(0), noted(&leader, 0)), (COMMITTED, 0b111));
}

/// (c): "Whenever the arriving member counts", newly or not.
#[test]
fn appended_slots_enter_by_a_counted_member_and_not_by_another() {
    let mut leader = durable_leader();
    leader.does(from(1, 0, 0));
    assert_eq!((counted(&leader), leader.scalars()[BAL_PREPARED]), (0b011, 513));
    assert_eq!(kinds(&leader.does(from(2, 3, 4))), [Kind::PrepareBal]);
    assert_eq!(kinds(&leader.does(from(2, 2, 4))), []);
    assert_eq!(leader.status(3), PREPARING);
    assert_eq!(kinds(&leader.does(from(1, 0, 0))), [Kind::AcceptData, Kind::Accept]);
    assert_eq!(leader.status(3), ACCEPTING);
    let counts_with_it = leader.does(from(2, 4, 4));
    assert_eq!(kinds(&counts_with_it), [Kind::PrepareBal, Kind::AcceptData, Kind::Accept]);
    assert_eq!(counted(&leader), 0b111);
    // Once counted, counted.
    leader.does(from(2, 0, 20));
    assert_eq!(counted(&leader), 0b111);
}

#[test]
fn another_trigger_is_ignored_before_6_and_after_4() {
    let mut leader = leader();
    leader.ignores(spanning_reply(1, 513, 1, 1, 2));
    leader.ignores(spanning_reply(1, 513, 0, 1, 2));
    leader.ignores(spanning_reply(1, 513, 9, 9, 2));
    leader.refuses(6, spanning_reply(1, 513, 3, 0, 2));
    leader.does(prepare(2, 515, 0));
    leader.refuses(4, spanning_reply(1, 513, 1, 1, 2));
    leader.refuses(4, spanning_reply(1, 513, 0, 0, 2));
}

/// The trigger is the last step-up's, and notes are of this lead; those of committed slots stay.
#[test]
fn a_step_up_sets_the_trigger_and_clears_the_notes_of_what_it_prepares() {
    let mut leader = durable_leader();
    for slot in 0..3 {
        leader.does(from(1, slot, 2));
    }
    leader.does(done(Entry::AcceptData, 0, 513));
    leader.does(accept_reply(1, 513, 0));
    assert_eq!(leader.scalars()[LEADERS_TRIGGER], 0);
    leader.does(timeout(0));
    assert_eq!(leader.scalars()[LEADERS_TRIGGER], 1);
    assert_eq!([0, 1, 2].map(|place| noted(&leader, place)), [0b011, 0, 0]);
    // Without slot 1's reply of this lead member 1 does not count.
    leader.does(spanning_reply(1, 769, 2, 1, 2));
    assert_eq!(leader.slots()[1][PREPARE_ACKS], 0);
    leader.does(spanning_reply(1, 769, 1, 1, 2));
    assert_eq!(leader.slots()[1][PREPARE_ACKS], 0b010);
    // A leader that is deposed keeps its trigger and its notes.
    leader.does(prepare(2, 1027, 1));
    assert_eq!(leader.scalars()[LEADERS_TRIGGER], 1);
    assert_eq!([0, 1, 2].map(|place| noted(&leader, place)), [0b011, 0b010, 0b010]);
}

/// Member 2 with slot 0 Executed and slot 1 Committed at 257.
fn committed_follower() -> Member {
    let mut member = follower();
    for slot in 0..2 {
        member.does(accept(0, 257, slot, batch(slot + 1)));
    }
    member.does(done(Entry::AcceptData, 0, 257));
    member.does(notice(0, 257, 2));
    member.does(Call::Executed { slot: 0 });
    assert_eq!((member.status(0), member.status(1)), (EXECUTED, COMMITTED));
    member
}

/// (d).
#[test]
fn prepare_and_accept_keep_a_committed_slot() {
    let mut member = committed_follower();
    assert_eq!(kinds(&member.does(prepare(1, 258, 0))), [Kind::PrepareBal, Kind::PrepareBal]);
    assert_eq!((member.status(0), member.status(1)), (EXECUTED, COMMITTED));
    assert_eq!((member.slots()[0][1], member.slots()[1][1]), (258, 258));
    assert_eq!(kinds(&member.does(done(Entry::PrepareBal, 1, 258))), [Kind::PrepareReply]);
    for slot in 0..2 {
        assert_eq!(kinds(&member.does(accept(1, 258, slot, batch(slot + 1)))), [Kind::AcceptData]);
        assert_eq!(member.slots()[slot as usize][VOTED_BALLOT], 258);
    }
    assert_eq!((member.status(0), member.status(1)), (EXECUTED, COMMITTED));
    assert_eq!(member.summary(), "F 2 0");
    assert_eq!(kinds(&member.does(done(Entry::AcceptData, 1, 258))), [Kind::AcceptReply]);
}

#[test]
fn another_batch_for_a_committed_slot_is_15() {
    let mut member = committed_follower();
    for (slot, other) in
        [(0, batch(9)), (1, batch(9)), (1, Batch::new(2, &[])), (1, Batch::default())]
    {
        member.refuses(15, accept(0, 257, slot, other));
        member.refuses(15, accept(1, 514, slot, other));
    }
    member.refuses(3, accept(1, 257, 1, batch(9)));
    member.refuses(10, accept(0, 257, 1, Batch::new(0, &[9])));
    member.refuses(5, accept(0, 257, 64, batch(9)));
    member.does(accept(0, 257, 2, batch(9)));
    member.does(accept(0, 257, 2, batch(8)));
    member.does(prepare(1, 514, 2));
    member.ignores(accept(0, 257, 1, batch(9)));
    member.ignores(accept(0, 257, 0, batch(9)));
}

/// A leader is not deposed by what is refused.
#[test]
fn fifteen_leaves_a_leader_in_place() {
    let mut leader = committed_follower();
    leader.does(timeout(0));
    assert_eq!(leader.scalars()[LEADERS_TRIGGER], 2);
    leader.refuses(15, accept(0, 769, 1, batch(9)));
    assert_eq!(leader.scalars()[LEADER], 2);
    assert_eq!(
        kinds(&leader.does(accept(0, 769, 1, batch(2)))),
        [Kind::StatusDown, Kind::AcceptData]
    );
}

/// READINGS of Wish 1 and (d): in the strict kind nothing makes the first slot not committed fall.
/// The generators themselves stop where an honest group meets 15 or marks one slot twice.
#[test]
fn the_first_open_slot_never_falls_and_honest_groups_never_meet_15() {
    for (name, profile) in PROFILES {
        let mut session = Session::default();
        let (mut first, mut fifteens) = (0, 0);
        generate_kind(23, 15_000, profile, true, |bytes| {
            let outcome = session.feed(bytes);
            let replica = session.replica().and_then(Shown::model).map(|strict| strict.summary());
            let now = replica.map_or(0, |[first, _]| first);
            let new = bytes[0] == 0;
            assert!(new || now >= first, "{name}: {first} falls to {now}");
            first = now;
            fifteens += u64::from(outcome.answer == 15);
            Ok(())
        })
        .expect("nothing is written");
        let honest = !matches!(profile, Profile::Fuzz | Profile::Mix);
        assert_eq!(fifteens == 0, honest, "{name}: {fifteens} times 15");
    }
}
