//! 02, Wish 3: the replies of three members in all six orders, of every three of some answers. By the
//! new rule the order makes no difference exactly where no two tell different values at one slot; by
//! the old rule it does there, too.

mod common;

use common::*;
use oracle::action::Action;
use oracle::call::Known::{self, Nothing, Slot, Value};
use oracle::rule::OLD_RULE;

const ANSWERS: [Known; 7] =
    [Nothing, Slot(4), Slot(5), Value(4, 8), Value(4, 9), Value(5, 8), Value(5, 9)];

const ORDERS: [[usize; 3]; 6] = [[0, 1, 2], [0, 2, 1], [1, 0, 2], [1, 2, 0], [2, 0, 1], [2, 1, 0]];

/// Members 0, 1 and 3 of five answer member 2's read in this order: what each reply was answered, the
/// actions of all, and the reads that are open then.
fn ended(told: [Known; 3], order: &[usize]) -> (Vec<u8>, Vec<Action>, Vec<Vec<u64>>) {
    let mut member = Member::new(2, 5, 0);
    member.does(open_read(7, &[40]));
    let mut given = (Vec::new(), Vec::new());
    for &place in order {
        let (answer, actions) = member.call(read_reply([0, 1, 3][place], 7, &[told[place]]));
        given.0.push(answer);
        given.1.extend(actions);
    }
    (given.0, given.1, member.reads())
}

fn agree(a: Known, b: Known) -> bool {
    !matches!((a, b), (Value(s, v), Value(t, w)) if s == t && v != w)
}

/// Every three of the answers.
fn threes() -> impl Iterator<Item = [Known; 3]> {
    let pairs = ANSWERS.into_iter().flat_map(|a| ANSWERS.map(|b| (a, b)));
    pairs.flat_map(|(a, b)| ANSWERS.map(|c| [a, b, c]))
}

/// All six orders end alike, and every reply is answered 0.
fn in_any_order(told: [Known; 3]) -> bool {
    let ends = ORDERS.map(|order| ended(told, &order));
    ends.iter().all(|end| end == &ends[0] && end.0 == [0; 3])
}

#[test]
fn the_order_makes_no_difference_exactly_where_no_two_values_differ_at_one_slot() {
    let agreeing = |[a, b, c]: &[Known; 3]| agree(*a, *b) && agree(*b, *c) && agree(*a, *c);
    assert_eq!((threes().count(), threes().filter(agreeing).count()), (343, 271));
    let alike = threes().filter(agreeing).filter(|told| in_any_order(*told)).count();
    if OLD_RULE {
        // A value that comes first is dropped.
        assert!(!in_any_order([Value(4, 9), Slot(4), Nothing]));
        assert_eq!(alike, 121);
        return;
    }
    assert_eq!(alike, 271);
    assert!(!threes().filter(|told| !agreeing(told)).any(in_any_order));
}

#[test]
fn a_reply_that_comes_again_makes_no_difference() {
    let told = [Slot(4), Value(5, 9), Nothing];
    let (_, actions, open) = ended(told, &[0, 1, 2]);
    for order in [&[0, 0, 1, 2], &[0, 1, 0, 2], &[0, 1, 2, 1]] {
        assert_eq!(ended(told, order), (vec![0; 4], actions.clone(), open.clone()));
    }
}
