//! Which answer comes first where several are due, and what each refusal leaves as it was.

mod common;

use common::*;
use oracle::action::Kind;
use oracle::batch::Batch;
use oracle::call::{Call, Entry, Known, KnownList};
use oracle::session::Session;

/// A batch that is none: id 0 with a key.
fn no_batch() -> Batch {
    Batch::new(0, &[1])
}

#[test]
fn without_a_replica_every_call_is_1() {
    let mut session = Session::default();
    for call in [timeout(9), prepare(9, 0, 0), offer(0, &[1]), open_read(0, &[])] {
        assert_eq!(session.call(&call).answer, 1);
    }
    assert!(session.replica().is_none());
}

#[test]
fn a_new_replica_outside_the_numbers_is_10_and_keeps_the_old() {
    let mut member = Member::new(0, 3, 5);
    let new = |id, group, start, options| Call::New { id, group, start, options };
    for group in (0..=255).filter(|group| ![1, 3, 5, 7, 9].contains(group)) {
        member.refuses(10, new(0, group, 0, 0));
    }
    member.refuses(10, new(3, 3, 0, 0));
    member.refuses(10, new(0, 3, (1 << 32) + 1, 0));
    member.refuses(10, new(0, 3, 0, 8));
    member.does(new(8, 9, 1 << 32, 3));
    assert_eq!(member.scalars()[..6], [8, 9, 5, 1 << 32, 1, 1]);
}

#[test]
fn sender_then_owner_then_batch_then_slot() {
    let mut member = Member::new(2, 3, 5);
    member.refuses(2, accept(2, 257, 0, no_batch()));
    member.refuses(3, accept(0, 258, 0, no_batch()));
    member.refuses(3, accept(0, 256, 0, no_batch()));
    member.refuses(10, accept(0, 257, 0, no_batch()));
    member.ignores(accept(0, 257, 4, Batch::default()));
    member.refuses(5, accept(0, 257, 69, Batch::default()));
    member.does(accept(0, 257, 68, Batch::default()));
}

#[test]
fn a_prepare_reply_where_self_does_not_lead_is_4_from_start_on() {
    let mut member = Member::new(2, 3, 5);
    let ill = with_vote(prepare_reply(0, 0, 5), (0, no_batch()));
    member.refuses(10, ill);
    member.ignores(prepare_reply(0, 0, 4));
    member.ignores(prepare_reply(0, 1, 5));
    member.refuses(4, prepare_reply(0, 0, 5));
    member.refuses(4, spanning_reply(0, 0, u64::MAX, 9, 7));
}

#[test]
fn a_prepare_replys_own_tests_in_their_order() {
    let mut leader = Member::new(0, 3, 5);
    leader.does(timeout(0));
    leader.refuses(6, spanning_reply(1, 257, 6, 7, 9));
    leader.refuses(6, spanning_reply(1, 257, 80, 5, 79));
    leader.refuses(6, spanning_reply(1, 257, 80, 4, 80));
    leader.refuses(6, spanning_reply(1, 257, 80, 6, 80));
    leader.refuses(5, spanning_reply(1, 257, 69, 5, 69));
    // An empty vote at ballot 0 is tested, never adopted.
    leader.does(with_vote(spanning_reply(1, 257, 6, 5, 9), (0, Batch::new(3, &[1]))));
    assert_eq!(leader.slots().len(), 2);
    assert_eq!(leader.slots()[1][5], 0);
}

#[test]
fn a_trigger_without_bookkeeping_leaves_the_peer_table() {
    let mut leader = Member::new(0, 3, 0);
    leader.does(accept(1, 258, 0, Batch::default()));
    leader.does(notice(1, 258, 1));
    leader.does(timeout(1));
    let ballot = leader.scalars()[BAL_PREP_SENT];
    leader.ignores(spanning_reply(1, ballot, 0, 0, 90));
    leader.ignores(spanning_reply(1, ballot, 80, 0, 90));
}

#[test]
fn the_largest_call_gives_191_actions() {
    let mut leader = Member::new(0, 3, 0);
    leader.does(timeout(0));
    leader.does(done(Entry::PrepareBal, 0, 257));
    let actions = leader.does(spanning_reply(1, 257, 63, 0, 63));
    assert_eq!(actions.len(), 191);
    assert_eq!(actions.iter().filter(|action| action.kind == Kind::PrepareBal).count(), 63);
}

#[test]
fn accept_replies_and_completions_past_the_log_end_are_4() {
    let mut leader = prepared_leader(3, 5);
    leader.ignores(accept_reply(1, 257, 4));
    leader.ignores(accept_reply(1, 258, 6));
    leader.refuses(4, accept_reply(1, 257, 6));
    for entry in [Entry::PrepareBal, Entry::AcceptData, Entry::CommitSlot] {
        let finished = |slot, size| Call::LogDone { entry, slot, ballot: 257, size };
        leader.ignores(finished(4, 0));
        leader.refuses(4, finished(6, 0));
        leader.refuses(4, finished((1 << 62) + 5, 0));
        leader.refuses(6, finished(5, 99));
    }
    leader.ignores(Call::Executed { slot: 4 });
    leader.refuses(4, Call::Executed { slot: 6 });
}

#[test]
fn an_offer_is_10_then_9_then_5_then_7() {
    let mut member = Member::new(0, 3, 0);
    member.refuses(10, offer(0, &[1]));
    member.refuses(9, offer(1, &[]));
    member.does(timeout(0));
    member.refuses(9, offer(1, &[]));
    let mut leader = prepared_leader(3, 0);
    // 32 batches of 8 new keys fill the table of 256.
    for batch in 1..=32 {
        let keys: Vec<u64> = (0..8).map(|key| batch * 8 + key).collect();
        leader.does(offer(batch, &keys));
    }
    leader.refuses(7, offer(33, &[8, 1, 1]));
    leader.does(offer(33, &[8, 263, 8]));
    leader.refuses(7, accept(1, 514, 0, Batch::new(1, &[u64::MAX])));
    for batch in 34..=63 {
        leader.does(offer(batch, &[]));
    }
    leader.refuses(5, offer(64, &[1]));
}

#[test]
fn a_step_up_is_ignored_then_8_then_5() {
    let mut member = Member::new(2, 3, 0);
    member.refuses(2, timeout(3));
    member.does(prepare(0, u64::MAX - 254, 0));
    member.ignores(timeout(1));
    member.refuses(8, timeout(0));
    let mut silent = Member::with_options(2, 3, 0, 2);
    silent.ignores(timeout(2));
    // In the round before the last a step-up still makes a ballot.
    let mut late = Member::new(2, 3, 0);
    late.does(prepare(0, u64::MAX - 254 - 256, 0));
    late.does(timeout(0));
    assert_eq!(late.scalars()[BAL_MAX_SEEN], u64::MAX - 252);
}

#[test]
fn a_step_up_below_exec_bar_is_8() {
    let mut member = Member::new(0, 1, 0);
    member.does(timeout(0));
    for entry in [Entry::PrepareBal, Entry::AcceptData, Entry::CommitSlot] {
        member.does(done(entry, 0, 257));
    }
    member.does(Call::Executed { slot: 0 });
    assert_eq!(member.scalars()[EXEC_BAR], 1);
    let mut follower = Member::new(2, 3, 0);
    follower.does(accept(0, 257, 0, Batch::default()));
    follower.does(notice(0, 257, 1));
    follower.does(done(Entry::AcceptData, 0, 257));
    follower.does(done(Entry::CommitSlot, 0, 257));
    follower.does(Call::Executed { slot: 0 });
    assert_eq!(follower.scalars()[EXEC_BAR], 1);
    follower.does(prepare(0, 257, 0));
    follower.refuses(8, timeout(0));
}

#[test]
fn a_full_committed_window_has_no_slot_for_a_step_up() {
    let mut member = Member::new(2, 3, 0);
    for slot in 0..64 {
        member.does(accept(0, 257, slot, Batch::default()));
    }
    member.does(notice(0, 257, 64));
    member.refuses(5, timeout(0));
}

#[test]
fn a_commit_notice_needs_the_slot_below_its_bar() {
    let mut member = Member::new(2, 3, 5);
    member.does(prepare(0, 257, 5));
    member.refuses(5, notice(0, 257, 70));
    member.does(notice(0, 257, 69));
    assert_eq!(member.slots().len(), 64);
    member.ignores(notice(1, 258, 70));
}

#[test]
fn opening_a_read_is_10_then_11() {
    let mut member = Member::new(2, 3, 0);
    member.refuses(10, open_read(0, &[]));
    for read in 0..16 {
        member.does(open_read(read, &[1]));
    }
    member.refuses(10, open_read(3, &[1]));
    member.refuses(11, open_read(16, &[1]));
}

#[test]
fn a_read_replys_own_tests_in_their_order() {
    let mut member = Member::new(2, 3, 0);
    member.refuses(2, read_reply(3, 7, &[Known::Nothing]));
    member.ignores(read_reply(2, 7, &[Known::Nothing]));
    member.does(open_read(7, &[1, 2]));
    member.does(read_reply(2, 7, &[Known::Slot(4), Known::Slot(4)]));
    member.ignores(read_reply(2, 7, &[Known::Nothing]));
    member.refuses(6, read_reply(0, 7, &[Known::Nothing]));
    let known = KnownList::from_slice(&[Known::Value(0, 8)]);
    let marked = Call::ReadReply { peer: 2, read: 7, known, from_leader: true };
    let actions = member.does(marked);
    assert_eq!(actions.len(), 1);
    assert_eq!(actions[0].numbers()[..6], [13, 0, 7, 0, 2, 8]);
    assert_eq!(member.reads().len(), 0);
}

#[test]
fn a_conflict_keeps_the_merges_before_it() {
    let mut member = Member::new(2, 5, 0);
    member.does(open_read(7, &[1, 2, 3]));
    member.does(read_reply(0, 7, &[Known::Slot(4), Known::Slot(4), Known::Slot(4)]));
    member.does(read_reply(1, 7, &[Known::Nothing, Known::Value(4, 1), Known::Nothing]));
    let conflict = [Known::Value(6, 2), Known::Value(4, 2), Known::Value(9, 2)];
    assert_eq!(member.call(read_reply(3, 7, &conflict)), (12, Vec::new()));
    assert_eq!(member.reads(), [[7, 3, 3, 1, 2, 6, 2, 2, 2, 4, 1, 3, 1, 4, 0]]);
    // The copy that a refusal brings back holds those merges, too.
    member.refuses(6, read_reply(4, 7, &[Known::Nothing]));
    assert_eq!(member.reads()[0][5..7], [6, 2]);
}
