//! The calls of crates/election, one trace for each member: the Rust prints the program's lines.

use oracle::batch::Batch;
use oracle::call::{Call, Entry};
use oracle::play::play;
use oracle::tell::Text;

const BALLOT: u64 = 257;

/// Each call with the member that it is made at, in the program's order.
fn calls() -> Vec<(usize, Call)> {
    let phases = [begin(), elect(), commit_empty(), commit_offer(), follow(), afterwards()];
    phases.concat()
}

fn begin() -> Vec<(usize, Call)> {
    let new = |id, options| Call::New { id, group: 3, start: 0, options };
    vec![(0, new(0, 1)), (1, new(1, 0)), (2, new(2, 0))]
}

fn elect() -> Vec<(usize, Call)> {
    vec![
        (0, Call::Timeout { source: 0 }),
        (1, prepare(0)),
        (2, prepare(0)),
        (0, logged(Entry::PrepareBal, 0, 40)),
        (1, logged(Entry::PrepareBal, 0, 40)),
        (2, logged(Entry::PrepareBal, 0, 40)),
        (0, promised(1)),
        (0, promised(2)),
    ]
}

fn commit_empty() -> Vec<(usize, Call)> {
    vec![
        (1, accept(0, Batch::default())),
        (2, accept(0, Batch::default())),
        (0, logged(Entry::AcceptData, 0, 80)),
        (1, logged(Entry::AcceptData, 0, 80)),
        (2, logged(Entry::AcceptData, 0, 80)),
        (0, accepted(1, 0)),
        (0, accepted(2, 0)),
        (0, logged(Entry::CommitSlot, 0, 120)),
    ]
}

fn commit_offer() -> Vec<(usize, Call)> {
    let batch = Batch::new(7, &[1, 2]);
    vec![
        (0, Call::Offer { batch }),
        (1, accept(1, batch)),
        (2, accept(1, batch)),
        (0, logged(Entry::AcceptData, 1, 160)),
        (1, logged(Entry::AcceptData, 1, 160)),
        (2, logged(Entry::AcceptData, 1, 160)),
        (0, accepted(2, 1)),
        (0, accepted(1, 1)),
        (0, logged(Entry::CommitSlot, 1, 200)),
    ]
}

fn follow() -> Vec<(usize, Call)> {
    let notice = Call::CommitNotice { peer: 0, ballot: BALLOT, bar: 2 };
    vec![
        (1, notice),
        (2, notice),
        (1, logged(Entry::CommitSlot, 0, 200)),
        (1, logged(Entry::CommitSlot, 1, 240)),
        (2, logged(Entry::CommitSlot, 1, 200)),
        (2, logged(Entry::CommitSlot, 0, 240)),
        (0, Call::Executed { slot: 1 }),
        (1, Call::Executed { slot: 1 }),
        (2, Call::Executed { slot: 1 }),
    ]
}

fn afterwards() -> Vec<(usize, Call)> {
    vec![(0, promised(2)), (0, prepare(0)), (1, prepare(64))]
}

fn prepare(trigger: u64) -> Call {
    Call::Prepare { peer: 0, trigger, ballot: BALLOT }
}

fn promised(peer: u8) -> Call {
    let (slot, ballot) = (0, BALLOT);
    Call::PrepareReply { peer, slot, trigger: 0, endprep: 0, ballot, vote: None, bar: 0 }
}

fn accept(slot: u64, batch: Batch) -> Call {
    Call::Accept { peer: 0, slot, ballot: BALLOT, batch }
}

fn accepted(peer: u8, slot: u64) -> Call {
    Call::AcceptReply { peer, slot, ballot: BALLOT }
}

fn logged(entry: Entry, slot: u64, size: u64) -> Call {
    Call::LogDone { entry, slot, ballot: BALLOT, size }
}

/// What is told of each record of one member's trace: the replay line after the member, and the
/// actions.
fn told(member: usize, calls: &[(usize, Call)]) -> Vec<String> {
    let own = calls.iter().filter(|(at, _)| *at == member);
    let trace: Vec<u8> = own.flat_map(|(_, call)| call.to_record().encode()).collect();
    let mut texts = Vec::new();
    play(&trace[..], |played| {
        let mut text = Text::default();
        text.told(played.number, played.outcome, played.replica);
        let text = String::from_utf8(text.bytes).expect("the text is ASCII");
        let (line, rest) = text.split_once('\n').expect("a line");
        let actions = rest.lines().take_while(|line| line.starts_with('A'));
        let mut shown = format!("{member} {line}\n");
        shown.extend(actions.map(|row| format!("{row}\n")));
        texts.push(shown);
        Ok(())
    })
    .expect("a slice can be read");
    texts
}

#[test]
fn the_program_prints_what_the_rust_does() {
    let calls = calls();
    let mut told = [0, 1, 2].map(|member| told(member, &calls).into_iter());
    let expected: String =
        calls.iter().map(|(member, _)| told[*member].next().expect("one text a call")).collect();
    let stored = concat!(env!("CARGO_MANIFEST_DIR"), "/../crates/election/stdout");
    let stored = std::fs::read_to_string(stored).expect(stored);
    for (place, (ours, rust)) in stored.lines().zip(expected.lines()).enumerate() {
        assert_eq!(ours, rust, "line {}", place + 1);
    }
    assert_eq!(stored, expected);
}
