//! What the words of 02's rule (c) are for: without each of them some honest run marks one slot with
//! two batches, and the same run with the rule as it is does not. The runs were found by random
//! schedules and shortened, the last one by hand. It hangs on no rule of reads, so it is run once.
#![cfg(not(feature = "old-rule"))]

#[path = "common/weakened.rs"]
mod weakened;

use oracle::action::Kind::*;
use oracle::generate::honest_run;
use oracle::honest::Event::{self, *};
use oracle::model::rules::{Counting, Rules};
use weakened::*;

fn counting(counting: Counting) -> Rules {
    Rules { counting, ..Rules::STRICT }
}

/// Member 1 leads with a log that is shorter than member 2's: member 2's first reply, for slot 0, says
/// that it holds slots up to 1, and slot 1 is not at the leader yet. There member 2 has voted for
/// batch 7, which is committed.
const SHORT_LEADER: [Event; 20] = [
    StepsUp(0),
    Finishes(0, PrepareBal, 0, 257),
    Hears(1, 0, Prepare, 0, 257),
    Finishes(1, PrepareBal, 0, 257),
    Hears(0, 1, PrepareReply, 0, 257),
    IsOffered(0, 7),
    Finishes(0, AcceptData, 1, 257),
    Hears(2, 0, Accept, 1, 257),
    Finishes(2, AcceptData, 1, 257),
    Hears(0, 2, AcceptReply, 1, 257),
    StepsUp(1),
    Finishes(1, PrepareBal, 0, 514),
    Hears(2, 1, Prepare, 0, 514),
    Finishes(2, PrepareBal, 0, 514),
    Hears(1, 2, PrepareReply, 0, 514),
    IsOffered(1, 8),
    Finishes(1, AcceptData, 1, 514),
    Hears(2, 1, Accept, 1, 514),
    Finishes(2, AcceptData, 1, 514),
    Hears(1, 2, AcceptReply, 1, 514),
];

/// Member 1's reply for its last slot, 2, overtakes the one for slot 1, where batch 7 is committed:
/// the leader, member 0, has both slots now and knows of no vote in slot 1.
const OVERTAKEN_REPLY: [Event; 20] = [
    StepsUp(1),
    Finishes(1, PrepareBal, 0, 258),
    Hears(0, 1, Prepare, 0, 258),
    Finishes(0, PrepareBal, 0, 258),
    Hears(1, 0, PrepareReply, 0, 258),
    IsOffered(1, 7),
    Finishes(1, AcceptData, 1, 258),
    Hears(2, 1, Accept, 1, 258),
    Finishes(2, AcceptData, 1, 258),
    Hears(1, 2, AcceptReply, 1, 258),
    IsOffered(1, 8),
    StepsUp(0),
    Finishes(0, PrepareBal, 0, 513),
    Hears(1, 0, Prepare, 0, 513),
    Finishes(1, PrepareBal, 2, 513),
    Hears(0, 1, PrepareReply, 2, 513),
    Finishes(0, AcceptData, 1, 513),
    Hears(2, 0, Accept, 1, 513),
    Finishes(2, AcceptData, 1, 513),
    Hears(0, 2, AcceptReply, 1, 513),
];

/// Member 0 notes its own answer for slot 1 in its lead at 769, without a vote there. Then it votes for
/// the empty batch, which member 1 commits at 1026. In the lead at 1281 the old note stands for its
/// answer, so that vote is not heard, and member 2's older one, batch 7, is taken.
const OLD_NOTE: [Event; 35] = [
    StepsUp(2),
    Finishes(2, PrepareBal, 0, 259),
    Hears(0, 2, Prepare, 0, 259),
    Finishes(0, PrepareBal, 0, 259),
    Hears(2, 0, PrepareReply, 0, 259),
    IsOffered(2, 7),
    // Member 0 hears of slot 1.
    StepsUp(0),
    Hears(2, 0, Prepare, 0, 513),
    Finishes(2, PrepareBal, 1, 513),
    Hears(0, 2, PrepareReply, 1, 513),
    // The note.
    StepsUp(0),
    Finishes(0, PrepareBal, 1, 769),
    // Member 1 leads by member 0's answer, and commits slot 1.
    Hears(1, 0, Prepare, 0, 769),
    StepsUp(1),
    Finishes(1, PrepareBal, 0, 1026),
    Hears(0, 1, Prepare, 0, 1026),
    Finishes(0, PrepareBal, 0, 1026),
    Finishes(0, PrepareBal, 1, 1026),
    Hears(1, 0, PrepareReply, 0, 1026),
    Hears(1, 0, PrepareReply, 1, 1026),
    Finishes(1, AcceptData, 1, 1026),
    Hears(0, 1, Accept, 1, 1026),
    Finishes(0, AcceptData, 1, 1026),
    Hears(1, 0, AcceptReply, 1, 1026),
    // Member 0 leads by member 2's answer, and its own for slot 0 alone.
    StepsUp(0),
    Finishes(0, PrepareBal, 0, 1281),
    Hears(2, 0, Prepare, 0, 1281),
    Finishes(2, PrepareBal, 0, 1281),
    Finishes(2, PrepareBal, 1, 1281),
    Hears(0, 2, PrepareReply, 1, 1281),
    Hears(0, 2, PrepareReply, 0, 1281),
    Finishes(0, AcceptData, 1, 1281),
    Hears(2, 0, Accept, 1, 1281),
    Finishes(2, AcceptData, 1, 1281),
    Hears(0, 2, AcceptReply, 1, 1281),
];

#[test]
fn without_slot_e_exists() {
    let first_reply = Hears(1, 2, PrepareReply, 0, 514);
    breaks_only_without(counting(Counting::SlotNeedNotExist), &SHORT_LEADER, first_reply);
}

#[test]
fn with_the_leaders_own_endprep_for_e() {
    let first_reply = Hears(1, 2, PrepareReply, 0, 514);
    breaks_only_without(counting(Counting::ToTheLeadersEnd), &SHORT_LEADER, first_reply);
}

#[test]
fn without_the_notes() {
    let last_slot = Hears(0, 1, PrepareReply, 2, 513);
    breaks_only_without(counting(Counting::NotesNotNeeded), &OVERTAKEN_REPLY, last_slot);
}

#[test]
fn with_the_counting_of_01() {
    let last_slot = Hears(0, 1, PrepareReply, 2, 513);
    breaks_only_without(counting(Counting::AsIn01), &OVERTAKEN_REPLY, last_slot);
}

#[test]
fn with_notes_that_outlive_the_lead() {
    let rules = Rules { fresh_notes: false, ..Rules::STRICT };
    breaks_only_without(rules, &OLD_NOTE, Hears(0, 2, PrepareReply, 0, 1281));
}

/// Random schedules tell: each weaker counting breaks Wish 7 in some of them, the right one in none.
#[test]
fn random_schedules_find_each_weakening_and_nothing_else() {
    let breaks = |way: Counting| {
        (0..10_000).any(|seed| {
            let mut group = group_of(3, counting(way));
            honest_run(seed, &mut group, 60, |group| group.keeps_wish_7());
            !group.keeps_wish_7()
        })
    };
    for way in [
        Counting::SlotNeedNotExist,
        Counting::NotesNotNeeded,
        Counting::ToTheLeadersEnd,
        Counting::AsIn01,
    ] {
        assert!(breaks(way), "{way:?}");
    }
    assert!(!breaks(Counting::AsAsked));
}
