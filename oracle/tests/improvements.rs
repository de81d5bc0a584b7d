//! 01, "Errors that look like improvements": the source does none of them.

mod common;

use common::*;
use oracle::action::Kind;
use oracle::batch::Batch;
use oracle::call::{Call, Entry};

/// Member 2 of 3 with slot 0 committed at ballot 257.
fn committed_follower() -> Member {
    let mut member = Member::new(2, 3, 0);
    member.does(accept(0, 257, 0, Batch::new(9, &[1])));
    member.does(notice(0, 257, 1));
    assert_eq!(member.status(0), 3);
    member
}

#[test]
fn prepare_puts_a_committed_slot_back() {
    let mut member = committed_follower();
    member.does(prepare(1, 258, 0));
    assert_eq!(member.status(0), 1);
}

#[test]
fn a_repeated_accept_puts_a_committed_slot_back() {
    let mut member = committed_follower();
    member.does(accept(0, 257, 0, Batch::new(9, &[1])));
    assert_eq!(member.status(0), 2);
}

#[test]
fn the_peer_table_is_updated_before_the_status_is_tested() {
    let mut leader = prepared_leader(3, 0);
    assert_eq!(leader.status(0), 2);
    assert_eq!(leader.peer_bar(2), Some(u64::MAX));
    leader.does(prepare_reply(2, 257, 0));
    assert_eq!(leader.peer_bar(2), Some(0));
}

#[test]
fn a_member_whose_last_reply_is_for_a_committed_slot_is_not_counted() {
    let mut leader = Member::new(0, 3, 0);
    leader.does(accept(1, 258, 0, Batch::new(1, &[])));
    leader.does(accept(1, 258, 1, Batch::new(2, &[])));
    leader.does(notice(1, 258, 2));
    leader.does(accept(1, 258, 0, Batch::new(1, &[])));
    assert_eq!((leader.status(0), leader.status(1)), (2, 3));
    leader.does(timeout(1));
    let ballot = leader.scalars()[BAL_PREP_SENT];
    leader.does(Call::LogDone { entry: Entry::PrepareBal, slot: 0, ballot, size: 1 });
    // Member 1 answers slot 0, then slot 1, its endprep: committed here, so it does not count.
    leader.does(spanning_reply(1, ballot, 0, 0, 1));
    assert_eq!(leader.does(spanning_reply(1, ballot, 1, 0, 1)), []);
    assert_eq!(leader.status(0), 1);
    // With endprep 0 it would have counted.
    assert_eq!(
        kinds(&leader.does(spanning_reply(1, ballot, 0, 0, 0))),
        [Kind::AcceptData, Kind::Accept]
    );
}
