//! Honest groups of strict replicas with fewer rules than 02's.
#![allow(dead_code)]

use oracle::honest::{Event, Group};
use oracle::model::Replica;
use oracle::model::rules::Rules;

/// Strict and urgent: leaders tell at once how far all is committed.
const OPTIONS: u64 = 4 + 1;

pub fn group_of(members: u8, rules: Rules) -> Group<Replica> {
    let fresh =
        |id| Replica { rules, ..Replica::fresh(id, members, 0, OPTIONS).expect("a member") };
    Group::of((0..members).map(fresh).collect())
}

/// The schedule, each event that can happen.
pub fn played(members: u8, rules: Rules, run: &[Event]) -> Group<Replica> {
    let mut group = group_of(members, rules);
    for event in run {
        group.happens(*event);
    }
    group
}

/// Without the rule every event of the schedule happens and is answered 0, and one slot is marked with
/// two batches. With all rules the same schedule keeps 02's Wish 7: from `parting` on it goes another
/// way.
pub fn breaks_only_without(rules: Rules, run: &[Event], parting: Event) {
    let mut without = group_of(3, rules);
    for event in run {
        assert_eq!(without.happens(*event), Some(0), "{event:?}");
    }
    assert!(without.two_batches().is_some(), "{:?}", without.marks);
    assert!(played(3, Rules::STRICT, run).keeps_wish_7());
    assert_eq!(first_other(rules, run), Some(parting));
}

/// The first event that is answered otherwise, or gives something else, with all rules.
fn first_other(rules: Rules, run: &[Event]) -> Option<Event> {
    let (mut without, mut with) = (group_of(3, rules), group_of(3, Rules::STRICT));
    let other = |event: &&Event| {
        without.happens(**event) != with.happens(**event) || without.given != with.given
    };
    run.iter().find(other).copied()
}
