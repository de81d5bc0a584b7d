//! 02, Wish 7: a run of three members in which one slot is marked with two batches, if they are base
//! replicas; the same run of strict ones marks it with one. Every message is one that a member sent,
//! and every completion is of an entry that the member was given, with its own ballot
//! (`src/honest.rs`). The stored traces `two-batches-0` to `-2` and `strict-two-batches-0` to `-2` are
//! what the members received. It hangs on no rule of reads, so it is run once.
#![cfg(not(feature = "old-rule"))]

use std::fs;
use std::path::Path;

use oracle::action::Kind::*;
use oracle::generate::{ALL_MARK, TWO_BATCHES, group_of_three, two_batches};
use oracle::honest::Event::*;
use oracle::honest::{Group, Player};
use oracle::session::Session;
use oracle::tell::Text;

const COMMITTED: u64 = 3;

/// Slot 1's batch, where the member has marked it, by its told text.
fn marked(group: &Group<Session>, member: usize) -> Option<u64> {
    let mut text = Text::default();
    text.state(group.members[member].shown());
    let told = String::from_utf8(text.bytes).expect("the text is ASCII");
    let slot = told.lines().find(|line| line.starts_with("I 1 "))?;
    let numbers: Vec<u64> =
        slot.split(' ').skip(1).map(|word| word.parse().expect("a number")).collect();
    (numbers[2] >= COMMITTED).then_some(numbers[5])
}

fn all_marked(group: &Group<Session>) -> [Option<u64>; 3] {
    [0, 1, 2].map(|member| marked(group, member))
}

#[test]
fn base_members_mark_one_slot_with_two_batches() {
    let mut group = group_of_three(false);
    for event in TWO_BATCHES {
        assert_eq!(group.happens(event), Some(0), "{event:?}");
    }
    assert_eq!(all_marked(&group), [Some(7), Some(8), None]);
    assert_eq!(group.two_batches(), Some(1));
}

/// All else happens as it does among base members; the late answer is not sent.
#[test]
fn strict_members_mark_it_with_one() {
    let mut group = group_of_three(true);
    for event in TWO_BATCHES {
        let late_answer = event == Hears(1, 0, AcceptReply, 1, 258);
        assert_eq!(group.happens(event), (!late_answer).then_some(0), "{event:?}");
    }
    assert_eq!(all_marked(&group), [Some(7), None, None]);
    assert!(group.keeps_wish_7());
}

/// It goes on: the others learn of batch 7 by member 0's Accept and notice.
#[test]
fn strict_members_come_to_mark_the_same_batch() {
    let mut group = group_of_three(true);
    for event in TWO_BATCHES {
        group.happens(event);
    }
    for event in ALL_MARK {
        assert_eq!(group.happens(event), Some(0), "{event:?}");
    }
    assert_eq!(all_marked(&group), [Some(7); 3]);
    assert!(group.keeps_wish_7());
}

/// Member 2 has not heard that slot 1 is marked, and prepares it anew: at member 1 it stays marked, and
/// member 2's own Accept names the same batch.
#[test]
fn a_marked_slot_stays_so_under_the_next_leader() {
    let mut group = group_of_three(true);
    for &event in TWO_BATCHES.iter().chain(&ALL_MARK[..8]) {
        group.happens(event);
    }
    assert_eq!(all_marked(&group), [Some(7), Some(7), None]);
    for event in [
        StepsUp(2),
        Hears(1, 2, Prepare, 0, 771),
        Finishes(1, PrepareBal, 0, 771),
        Finishes(1, PrepareBal, 1, 771),
        Finishes(2, PrepareBal, 0, 771),
        Finishes(2, PrepareBal, 1, 771),
        Hears(2, 1, PrepareReply, 0, 771),
        Hears(2, 1, PrepareReply, 1, 771),
        Hears(1, 2, Accept, 1, 771),
    ] {
        assert_eq!(group.happens(event), Some(0), "{event:?}");
        assert_eq!(marked(&group, 1), Some(7), "{event:?}");
    }
}

/// Beside the traces stands whose record comes when, with words for the chart: a line of words, a line
/// of members.
#[test]
fn the_stored_order_is_that_of_the_run() {
    let samples = Path::new(env!("CARGO_MANIFEST_DIR")).join("samples");
    for (name, strict) in [("two-batches", false), ("strict-two-batches", true)] {
        let text =
            fs::read_to_string(samples.join(name).with_extension("order")).expect("an order");
        let members = text.lines().skip(1).step_by(2).flat_map(|line| line.split(' '));
        let stored: Vec<usize> =
            members.map(|member| member.parse().expect("a member's number")).collect();
        let run = two_batches(strict);
        let made: Vec<usize> = [0, 1, 2].into_iter().chain(run.calls.iter().map(|c| c.0)).collect();
        assert_eq!(stored, made, "{name}");
    }
}
