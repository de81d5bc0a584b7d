//! An honest group meets 6: a leader deposed by an Accept whose Prepare was lost finishes its own
//! old PrepareBal, and its answer fails the new leader's debug_assert.

mod common;

use common::*;
use oracle::action::{Action, Kind};
use oracle::batch::Batch;
use oracle::call::{Call, Entry};

/// The action of this kind that names the slot, which an honest member gave.
fn sent(actions: &[Action], kind: Kind, slot: u64) -> Action {
    *actions.iter().find(|sent| sent.kind == kind && sent.slot == slot).expect("it was sent")
}

fn as_accept(from: u8, action: Action) -> Call {
    Call::Accept { peer: from, slot: action.slot, ballot: action.ballot, batch: action.batch }
}

fn as_prepare(from: u8, actions: &[Action]) -> Call {
    let sent = sent(actions, Kind::Prepare, 0);
    Call::Prepare { peer: from, trigger: sent.trigger, ballot: sent.ballot }
}

fn as_prepare_reply(from: u8, action: Action) -> Call {
    Call::PrepareReply {
        peer: from,
        slot: action.slot,
        trigger: action.trigger,
        endprep: action.endprep,
        ballot: action.ballot,
        vote: (action.voted_ballot > 0).then_some((action.voted_ballot, action.batch)),
        bar: action.bar,
    }
}

#[test]
fn a_deposed_leader_answers_with_its_old_entry() {
    let mut members = [Member::new(0, 3, 0), Member::new(1, 3, 0), Member::new(2, 3, 0)];

    // Member 2 leads with slot 0, and offers slot 1; both its Accepts reach everybody.
    let step_up = members[2].does(timeout(2));
    members[2].does(done(Entry::PrepareBal, 0, 259));
    members[0].does(as_prepare(2, &step_up));
    members[1].does(as_prepare(2, &step_up));
    let reply = members[0].does(done(Entry::PrepareBal, 0, 259))[0];
    let first = members[2].does(as_prepare_reply(0, reply));
    let second = members[2].does(Call::Offer { batch: Batch::new(5, &[1]) });
    for member in [0, 1] {
        members[member].does(as_accept(2, sent(&first, Kind::Accept, 0)));
        members[member].does(as_accept(2, sent(&second, Kind::Accept, 1)));
    }

    // Member 0 steps up over both slots; its entries are not finished yet.
    let old = members[0].does(timeout(2));
    assert_eq!(old.iter().filter(|action| action.kind == Kind::PrepareBal).count(), 2);

    // Member 1 steps up too; its Prepare reaches member 2 and is lost to member 0.
    let new = members[1].does(timeout(2));
    members[1].does(done(Entry::PrepareBal, 0, 514));
    members[1].does(done(Entry::PrepareBal, 1, 514));
    members[2].does(as_prepare(1, &new));
    let replies = [0, 1]
        .map(|slot| members[2].does(done(Entry::PrepareBal, slot, 514)).pop().expect("a reply"));
    members[1].does(as_prepare_reply(2, replies[0]));
    let accepts = members[1].does(as_prepare_reply(2, replies[1]));

    // Its Accept for slot 1 deposes member 0, which then finishes its own old entry.
    let deposed = members[0].does(as_accept(1, sent(&accepts, Kind::Accept, 1)));
    assert_eq!(deposed[0].kind, Kind::StatusDown);
    let written = sent(&old, Kind::PrepareBal, 1).ballot;
    let late = members[0].does(done(Entry::PrepareBal, 1, written))[0];
    assert_eq!((late.kind, late.member, late.slot), (Kind::PrepareReply, 1, 1));
    assert_eq!((late.trigger, late.endprep), (0, 0));
    assert_eq!(late.ballot, members[1].scalars()[BAL_PREP_SENT]);
    members[1].refuses(6, as_prepare_reply(0, late));
}

#[test]
fn at_slot_0_the_same_reply_passes_the_asserts() {
    let mut leader = prepared_leader(3, 0);
    leader.does(spanning_reply(2, 257, 0, 0, 0));
    assert_eq!(leader.peer_bar(2), Some(0));
}

#[test]
fn a_read_id_used_again_gets_6_from_a_late_reply() {
    let mut member = Member::new(2, 3, 0);
    member.does(open_read(7, &[1]));
    let late = read_reply(0, 7, &[oracle::call::Known::Nothing]);
    member.does(read_reply(1, 7, &[oracle::call::Known::Nothing]));
    assert_eq!(kinds(&member.does(late)), [Kind::ReadAnswer]);
    member.does(open_read(7, &[1, 2]));
    member.refuses(6, late);
}
