//! The sample `refusals`: the oracle gives each call the answer that stands beside it in the list,
//! which is read from 01, and a refusal changes nothing and gives no actions.

use oracle::generate::refusals;
use oracle::session::Session;
use oracle::tell::Text;

fn told(session: &Session) -> Vec<u8> {
    let mut text = Text::default();
    if let Some(replica) = session.replica() {
        text.state(replica);
    }
    text.bytes
}

#[test]
fn each_call_is_answered_as_01_says() {
    let mut session = Session::default();
    for (place, (call, answer)) in refusals().into_iter().enumerate() {
        let before = told(&session);
        let outcome = session.call(&call);
        let record = place + 1;
        assert_eq!(outcome.answer, answer, "record {record}: {call:?}");
        let untouched = outcome.actions.is_empty() && told(&session) == before;
        assert!(answer == 0 || untouched, "record {record}: {call:?}");
    }
}
