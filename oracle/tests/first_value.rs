//! 02, Wish 2: the cases of a value that meets nothing held, by the new rule and by the old; and what
//! a comparison of a program of the new rule with the Rust as it is must find.

mod common;

use common::*;
use oracle::action::{Action, Kind};
use oracle::call::Known::{self, Nothing, Slot, Value};
use oracle::rule::OLD_RULE;

/// A read of one key at member 2 of 3 gets two replies: what is held between them, and the tag and
/// value of the answer.
fn answered(first: Known, second: Known) -> ([u64; 3], [u64; 2]) {
    let mut member = Member::new(2, 3, 0);
    member.does(open_read(7, &[40]));
    assert_eq!(member.does(read_reply(0, 7, &[first])), []);
    let held = member.reads()[0][4..].try_into().expect("one key");
    let actions = member.does(read_reply(1, 7, &[second]));
    assert_eq!(member.reads(), Vec::<Vec<u64>>::new());
    (held, tag_and_value(&actions[0]))
}

fn tag_and_value(action: &Action) -> [u64; 2] {
    assert_eq!(action.kind, Kind::ReadAnswer);
    [action.endprep, action.ballot]
}

/// By the new rule, by the old.
fn by_rule<T>(new: T, old: T) -> T {
    if OLD_RULE { old } else { new }
}

const RETRY: [u64; 2] = [1, 255];

#[test]
fn a_quorum_of_one_value_and_nothing_else_answers_with_it() {
    let (held, answer) = (by_rule([2, 5, 9], [1, 5, 0]), by_rule([2, 9], RETRY));
    assert_eq!(answered(Value(5, 9), Nothing), (held, answer));
    assert_eq!(answered(Nothing, Value(5, 9)), ([0, 0, 0], answer));
    let mut alone = Member::new(0, 1, 0);
    alone.does(open_read(7, &[40]));
    assert_eq!(tag_and_value(&alone.does(read_reply(0, 7, &[Value(5, 9)]))[0]), answer);
}

#[test]
fn a_value_and_its_slot_alone_answer_with_the_value_in_both_orders() {
    let held = by_rule([2, 5, 9], [1, 5, 0]);
    assert_eq!(answered(Value(5, 9), Slot(5)), (held, by_rule([2, 9], RETRY)));
    assert_eq!(answered(Slot(5), Value(5, 9)), ([1, 5, 0], [2, 9]));
}

#[test]
fn a_larger_slot_alone_asks_for_a_retry_and_a_smaller_one_does_not() {
    let held = by_rule([2, 5, 9], [1, 5, 0]);
    assert_eq!(answered(Value(5, 9), Slot(6)), (held, RETRY));
    assert_eq!(answered(Value(5, 9), Slot(4)), (held, by_rule([2, 9], RETRY)));
}

#[test]
fn another_value_at_the_first_ones_slot_is_a_conflict() {
    let mut member = Member::new(2, 3, 0);
    member.does(open_read(7, &[40, 41]));
    member.does(read_reply(0, 7, &[Slot(3), Value(5, 9)]));
    let other = read_reply(1, 7, &[Value(4, 1), Value(5, 8)]);
    if OLD_RULE {
        // The first value was dropped, and the second is believed.
        let answers: Vec<[u64; 2]> = member.does(other).iter().map(tag_and_value).collect();
        assert_eq!(answers, [[2, 1], [2, 8]]);
        return;
    }
    assert_eq!(member.call(other), (12, Vec::new()));
    assert_eq!(member.reads(), [[7, 1, 2, 40, 2, 4, 1, 41, 2, 5, 9]]);
    let answers = member.does(read_reply(1, 7, &[Nothing, Value(5, 9)]));
    assert_eq!(answers.iter().map(tag_and_value).collect::<Vec<_>>(), [[2, 1], [2, 9]]);
}

/// The Rust as it is, beside the stored text of the new rule.
#[cfg(feature = "old-rule")]
mod departing {
    use std::fs;
    use std::path::Path;

    use oracle::first_value::*;
    use oracle::generate::example;

    use super::common::told_text;

    /// The records of `first-value` in which a value meets nothing held.
    const FIRST: [u64; 10] = [3, 6, 11, 16, 19, 27, 31, 35, 40, 45];

    fn trace() -> Vec<u8> {
        example("first-value").expect("it is there")
    }

    fn new_rules_text() -> String {
        let path = Path::new(env!("CARGO_MANIFEST_DIR")).join("samples/first-value.tell");
        fs::read_to_string(path).expect("the stored text")
    }

    fn parting(text: &str) -> Result<Departures, Wrong> {
        departs(trace().as_slice(), text.as_bytes()).expect("memory is read")
    }

    /// What is wrong with the text, and at which record.
    fn wrong(text: &str) -> (&'static str, u64) {
        parting(text).map_or_else(|wrong| (wrong.what, wrong.difference.number), |_| ("", 0))
    }

    #[test]
    fn the_new_rule_parts_where_a_value_meets_nothing_and_is_told_otherwise_later() {
        let seen = parting(&new_rules_text()).unwrap_or_else(|wrong| panic!("{}", wrong.report()));
        assert_eq!(seen, Departures { records: 46, first_values: FIRST.len() as u64, later: 9 });
    }

    #[test]
    fn the_old_rule_does_not_part() {
        assert_eq!(wrong(&told_text(trace().as_slice())), (NOT_TOLD, FIRST[0]));
    }

    /// Every digit of the text is changed. In a record in which no value meets nothing held it is
    /// found there. In the others the answer, the actions and the reads may differ, and are held to
    /// the new rule by the comparison with that; all else is found there, too.
    #[test]
    fn whatever_else_differs_is_found() {
        let text = new_rules_text();
        let mut number = 0;
        for (at, line) in lines_with_their_places(&text) {
            let letter = line.as_bytes()[0];
            number += u64::from(letter.is_ascii_digit());
            for place in at..at + line.len() {
                let Some(other) = with_another_digit(&text, place) else { continue };
                let found = wrong(&other);
                if !FIRST.contains(&number) {
                    assert_eq!(found, (TOLD_HERE, number), "{line}");
                } else if matches!(letter, b'S' | b'F' | b'P') {
                    assert_eq!(found, (MORE_THAN_READS, number), "{line}");
                }
            }
        }
        assert_eq!(number, 46);
    }

    fn lines_with_their_places(text: &str) -> impl Iterator<Item = (usize, &str)> {
        let mut next = 0;
        text.split_inclusive('\n').map(move |line| {
            next += line.len();
            (next - line.len(), line)
        })
    }

    /// None where there is no digit.
    fn with_another_digit(text: &str, place: usize) -> Option<String> {
        let mut other = text.to_string().into_bytes();
        other[place] = match other[place] {
            b'9' => b'8',
            digit @ b'0'..=b'8' => digit + 1,
            _ => return None,
        };
        String::from_utf8(other).ok()
    }

    #[test]
    fn a_text_that_goes_on_or_stops_early_is_found() {
        let text = new_rules_text();
        assert_eq!(wrong(&format!("{text}47 0 0 0 0 0 0\nZ\n")), (PAST_THE_END, 47));
        assert_eq!(wrong(&text[..text.len() - 2]).1, 46);
    }

    /// Where a reply is left out, another value comes to meet nothing, and is left out as well.
    #[test]
    fn every_reply_in_which_a_value_meets_nothing_is_left_out_and_no_other() {
        let mut without = Vec::new();
        without_first_values(trace().as_slice(), &mut without).expect("memory is written");
        let left_out = [&FIRST[..], &[7, 8, 41, 42]].concat();
        let numbered = trace();
        let kept = numbered.chunks(256).zip(1..).filter(|(_, number)| !left_out.contains(number));
        assert!(without == kept.map(|(record, _)| record).collect::<Vec<_>>().concat());
        let seen = departs(without.as_slice(), told_text(without.as_slice()).as_bytes());
        let seen =
            seen.expect("memory is read").unwrap_or_else(|wrong| panic!("{}", wrong.report()));
        assert_eq!(seen, Departures { records: 32, first_values: 0, later: 0 });
    }
}
