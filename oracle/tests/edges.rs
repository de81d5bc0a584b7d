//! 01, "Both sides of each edge": group 3, fresh, id 2, start 0 unless said.

mod common;

use common::*;
use oracle::action::Kind;
use oracle::call::Known;
use oracle::rule::OLD_RULE;

fn fresh() -> Member {
    Member::new(2, 3, 0)
}

#[test]
fn prepare_makes_slots_and_one_entry_and_again() {
    let mut member = fresh();
    for _ in 0..2 {
        let actions = member.does(prepare(0, 257, 2));
        assert_eq!(member.slots().len(), 3);
        assert_eq!(kinds(&actions), [Kind::PrepareBal]);
        assert_eq!((actions[0].slot, actions[0].ballot), (2, 257));
    }
}

#[test]
fn a_larger_ballot_acts_and_the_smaller_one_no_more() {
    let mut member = fresh();
    member.does(prepare(0, 257, 2));
    assert_eq!(kinds(&member.does(prepare(1, 258, 2))), [Kind::PrepareBal]);
    member.ignores(prepare(0, 257, 2));
}

#[test]
fn trigger_63_acts() {
    let mut member = fresh();
    assert_eq!(kinds(&member.does(prepare(0, 257, 63))), [Kind::PrepareBal]);
    assert_eq!(member.slots().len(), 64);
}

#[test]
fn trigger_64_is_5() {
    fresh().refuses(5, prepare(0, 257, 64));
}

#[test]
fn trigger_64_at_an_old_ballot_is_ignored() {
    let mut member = fresh();
    member.does(prepare(1, 258, 0));
    member.ignores(prepare(0, 257, 64));
}

#[test]
fn a_ballot_of_another_owner_is_3() {
    fresh().refuses(3, prepare(0, 258, 0));
}

#[test]
fn self_and_strangers_are_2() {
    fresh().refuses(2, prepare(2, 259, 0));
    fresh().refuses(2, prepare(3, 260, 0));
}

#[test]
fn in_a_group_of_5_the_third_accept_reply_commits() {
    let mut leader = prepared_leader(5, 0);
    assert_eq!(leader.does(accept_reply(1, 257, 0)), []);
    assert_eq!(leader.does(accept_reply(2, 257, 0)), []);
    leader.ignores(accept_reply(2, 257, 0));
    assert_eq!(leader.status(0), 2);
    assert_eq!(kinds(&leader.does(accept_reply(3, 257, 0))), [Kind::CommitSlot]);
    assert_eq!(leader.status(0), 3);
}

/// 02: it "holds the value"; by the old rule "the slot alone".
#[test]
fn slot_and_value_into_an_empty_tally() {
    let mut member = fresh();
    member.does(open_read(7, &[40]));
    member.does(read_reply(0, 7, &[Known::Value(5, 9)]));
    let held = if OLD_RULE { [7, 1, 1, 40, 1, 5, 0] } else { [7, 1, 1, 40, 2, 5, 9] };
    assert_eq!(member.reads(), [held]);
}

#[test]
fn a_timeout_from_1_while_0_leads_changes_nothing() {
    let mut member = fresh();
    member.does(prepare(0, 257, 0));
    assert_eq!(member.scalars()[LEADER], 0);
    member.ignores(timeout(1));
}
