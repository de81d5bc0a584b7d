//! 02, Wish 1: the told summary on runs made by hand; and over generated traces, which calls make the
//! first slot not committed fall, and which slots commit_bar passes.

mod common;

use std::collections::BTreeMap;

use common::*;
use oracle::batch::Batch;
use oracle::call::{Call, Entry};
use oracle::generate::{Profile, generate};
use oracle::record::Record;
use oracle::rule::OLD_RULE;
use oracle::session::Session;
use oracle::tell::Text;

const ACCEPTING: u64 = 2;
const COMMITTED: u64 = 3;

fn batch(slot: u64) -> Batch {
    Batch::new(slot + 1, &[])
}

/// Member 2 of 3 with slots 0 to 2 in Accepting at ballot 257, and accept_bar past them.
fn accepting_follower() -> Member {
    let mut member = Member::new(2, 3, 0);
    for slot in 0..3 {
        member.does(accept(0, 257, slot, batch(slot)));
    }
    member.does(done(Entry::AcceptData, 0, 257));
    member
}

/// The same with all three committed; commit_bar stays at 0.
fn committed_follower() -> Member {
    let mut member = accepting_follower();
    member.does(notice(0, 257, 3));
    assert_eq!(member.scalars()[COMMIT_BAR], 0);
    member
}

/// The same with commit_bar past them.
fn passed_follower() -> Member {
    let mut member = committed_follower();
    member.does(done(Entry::CommitSlot, 0, 257));
    assert_eq!(member.scalars()[COMMIT_BAR], 3);
    member
}

#[test]
fn a_fresh_replica_has_its_start_and_none() {
    for start in [0, 5, 1 << 32] {
        assert_eq!(Member::new(2, 3, start).summary(), format!("F {start} 0"));
    }
}

#[test]
fn it_is_told_after_the_scalars_of_every_record_with_a_replica() {
    let calls = [timeout(0), Call::New { id: 2, group: 3, start: 5, options: 0 }, timeout(7)];
    let trace: Vec<u8> = calls.iter().flat_map(|call| call.to_record().encode()).collect();
    let told = told_text(trace.as_slice());
    let (none, some) = told.split_once("2 0 0 0 5 5 5\n").expect("the new replica");
    assert_eq!(none, "1 1 0 0 0 0 0\nZ\n");
    let (made, refused) = some.split_once("3 2 0 0 5 5 5\n").expect("a refusal");
    assert_eq!(made, refused);
    let letters: String = made.lines().map(|line| &line[..1]).collect();
    assert_eq!(letters, "SFPP");
    assert!(made.contains("\nF 5 0\n"), "{made}");
}

#[test]
fn slots_are_named_by_number_and_with_no_open_one_it_is_the_log_end() {
    let mut member = Member::new(2, 3, 5);
    member.does(accept(0, 257, 5, batch(5)));
    assert_eq!(member.summary(), "F 5 1");
    member.does(notice(0, 257, 6));
    assert_eq!(member.summary(), "F 6 0");
    member.does(accept(0, 257, 6, batch(6)));
    assert_eq!(member.summary(), "F 6 1");
    member.does(notice(0, 257, 7));
    assert_eq!(member.summary(), "F 7 0");
}

#[test]
fn null_and_preparing_slots_are_not_committed_and_not_accepting() {
    let mut member = Member::new(2, 3, 0);
    member.does(accept(0, 257, 0, batch(0)));
    member.does(notice(0, 257, 1));
    member.does(accept(0, 257, 2, batch(2)));
    assert_eq!((member.status(0), member.status(1), member.status(2)), (3, 0, 2));
    assert_eq!(member.summary(), "F 1 1");
    member.does(prepare(1, 514, 1));
    assert_eq!((member.status(1), member.status(2)), (1, 1));
    assert_eq!(member.summary(), "F 1 0");
}

#[test]
fn an_executed_slot_is_committed() {
    let mut member = passed_follower();
    assert_eq!(member.summary(), "F 3 0");
    member.does(Call::Executed { slot: 0 });
    assert_eq!((member.status(0), member.status(1)), (4, 3));
    assert_eq!(member.summary(), "F 3 0");
}

#[test]
fn a_prepare_makes_it_fall() {
    let mut member = committed_follower();
    assert_eq!(member.summary(), "F 3 0");
    member.does(prepare(1, 514, 1));
    assert_eq!(member.summary(), "F 1 0");
    member.does(prepare(1, 514, 0));
    assert_eq!(member.summary(), "F 0 0");
}

#[test]
fn a_repeated_accept_makes_it_fall() {
    let mut member = committed_follower();
    assert_eq!(member.summary(), "F 3 0");
    member.does(accept(0, 257, 1, batch(1)));
    assert_eq!(member.summary(), "F 1 1");
    member.does(accept(0, 257, 2, batch(2)));
    assert_eq!(member.summary(), "F 1 2");
    member.does(accept(0, 257, 0, batch(0)));
    assert_eq!(member.summary(), "F 0 3");
}

#[test]
fn an_accepting_slot_below_commit_bar_is_not_counted_and_one_at_it_is() {
    let mut member = passed_follower();
    member.does(accept(0, 257, 2, batch(2)));
    assert_eq!(member.status(2), ACCEPTING);
    assert_eq!(member.summary(), "F 2 0");
    member.does(accept(0, 257, 3, batch(3)));
    assert_eq!(member.summary(), "F 2 1");
}

#[test]
fn a_commit_notice_lowers_the_count_from_the_front() {
    let mut member = accepting_follower();
    assert_eq!(member.summary(), "F 0 3");
    member.does(notice(0, 257, 2));
    assert_eq!(member.summary(), "F 2 1");
    member.does(notice(0, 257, 3));
    assert_eq!(member.summary(), "F 3 0");
}

/// A slot past an open one may be committed first: the count falls, and the first stays.
#[test]
fn a_quorum_of_accept_replies_lowers_the_count() {
    let mut leader = prepared_leader(3, 0);
    assert_eq!(leader.summary(), "F 0 1");
    leader.does(offer(7, &[]));
    assert_eq!(leader.summary(), "F 0 2");
    leader.does(accept_reply(1, 257, 1));
    assert_eq!(leader.summary(), "F 0 2");
    leader.does(accept_reply(2, 257, 1));
    assert_eq!(leader.summary(), "F 0 1");
    leader.does(accept_reply(1, 257, 0));
    leader.does(done(Entry::AcceptData, 0, 257));
    assert_eq!(leader.summary(), "F 2 0");
}

#[test]
fn a_step_up_takes_slots_out_of_accepting_and_a_quorum_of_replies_puts_them_in() {
    let mut leader = accepting_follower();
    leader.does(timeout(0));
    assert_eq!(leader.summary(), "F 0 0");
    let ballot = leader.scalars()[BAL_PREP_SENT];
    leader.does(spanning_reply(0, ballot, 2, 0, 2));
    assert_eq!(leader.summary(), "F 0 0");
    leader.does(spanning_reply(1, ballot, 2, 0, 2));
    assert_eq!(leader.summary(), "F 0 3");
}

/// What is told of the slots after a record.
struct Slots {
    start: u64,
    commit_bar: u64,
    first: u64,
    accepting: u64,
    statuses: Vec<u64>,
}

impl Slots {
    fn told(session: &Session) -> Option<Slots> {
        let mut text = Text::default();
        text.state(session.replica()?);
        let text = String::from_utf8(text.bytes).expect("the text is ASCII");
        let number = |letter, place| {
            let mut line = numbers(&text, letter).next().expect("a line");
            line.nth(place).expect("a number")
        };
        Some(Slots {
            start: number('S', START),
            commit_bar: number('S', COMMIT_BAR),
            first: number('F', 0),
            accepting: number('F', 1),
            statuses: numbers(&text, 'I').map(|mut slot| slot.nth(2).expect("a status")).collect(),
        })
    }

    /// Each slot's number and status.
    fn by_number(&self) -> impl Iterator<Item = (u64, u64)> {
        (self.start..).zip(self.statuses.iter().copied())
    }
}

/// The numbers of each line that has this letter.
fn numbers(text: &str, letter: char) -> impl Iterator<Item = impl Iterator<Item = u64>> {
    let lines = text.lines().filter_map(move |line| line.strip_prefix(letter));
    lines.map(|line| line.split(' ').skip(1).map(|word| word.parse().expect("a number")))
}

/// A record that meets a replica and makes no new one; the kind is none where it is malformed.
struct Step<'a> {
    kind: Option<u8>,
    answer: u8,
    before: &'a Slots,
    after: &'a Slots,
}

/// Goes through 20,000 records of each of four profiles.
fn each_step(mut each: impl FnMut(Step)) {
    for profile in [Profile::Group, Profile::Fuzz, Profile::Reads, Profile::Mix] {
        let mut session = Session::default();
        let mut before = None;
        generate(21, 20_000, profile, |bytes| {
            let answer = session.feed(bytes).answer;
            let kind = Record::decode(bytes).map(|record| record.kind);
            let after = Slots::told(&session);
            let starts_anew = (kind, answer) == (Some(0), 0);
            if let (false, Some(before), Some(after)) = (starts_anew, &before, &after) {
                each(Step { kind, answer, before, after });
            }
            before = after;
            Ok(())
        })
        .expect("nothing is written");
    }
}

#[test]
fn it_is_what_a_walk_over_the_told_slots_finds() {
    each_step(|Step { after, .. }| {
        let open = after.by_number().find(|&(_, status)| status < COMMITTED);
        let log_end = after.start + after.statuses.len() as u64;
        assert_eq!(after.first, open.map_or(log_end, |(slot, _)| slot));
        let from_commit_bar = after.by_number().filter(|&(slot, _)| slot >= after.commit_bar);
        let accepting = from_commit_bar.filter(|&(_, status)| status == ACCEPTING);
        assert_eq!(after.accepting, accepting.count() as u64);
    });
}

/// 02: "A Prepare or a repeated Accept can make it fall."
#[test]
fn it_falls_in_prepares_and_accepts_that_are_done_and_in_no_other_call() {
    let mut falls = BTreeMap::new();
    each_step(|Step { kind, answer, before, after }| {
        if after.first < before.first {
            *falls.entry((kind, answer)).or_insert(0) += 1;
        }
    });
    // The generators look at which reads are open, so the two rules have other traces.
    let (prepares, accepts) = if OLD_RULE { (60, 9) } else { (55, 11) };
    assert_eq!(falls, BTreeMap::from([((Some(1), 0), prepares), ((Some(3), 0), accepts)]));
}

/// So a slot in Accepting, once counted, is not lost from the count by a move of commit_bar.
#[test]
fn commit_bar_never_falls_and_passes_only_slots_that_were_committed_before() {
    let (mut by_one, mut by_several) = (0, 0);
    each_step(|Step { before, after, .. }| {
        assert!(before.commit_bar <= after.commit_bar);
        let passed = before.commit_bar..after.commit_bar;
        let statuses = before.by_number().filter(|(slot, _)| passed.contains(slot));
        let committed = statuses.filter(|&(_, status)| status >= COMMITTED).count() as u64;
        let rise = after.commit_bar - before.commit_bar;
        assert_eq!(committed, rise);
        by_one += u64::from(rise == 1);
        by_several += u64::from(rise > 1);
    });
    assert_eq!((by_one, by_several), if OLD_RULE { (650, 275) } else { (789, 288) });
}
