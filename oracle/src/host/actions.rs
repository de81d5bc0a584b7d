//! What the source gave its hubs, as 01's actions.

use super::Replica;
use super::multipaxos::{Ballot, PeerMsg, Status, WalEntry};
use super::recorder::{self, Given};
use super::server::{ApiReply, ClientId, CommandResult, LogActionId};
use crate::action::{ALL, Action, Kind};
use crate::batch::{Batch, number};

/// The actions recorded since the last call, which the replica has just run.
pub(crate) fn take(replica: &Replica) -> Vec<Action> {
    let mut actions: Vec<Action> = Vec::new();
    let mut list = recorder::take().into_iter();
    while let Some(given) = list.next() {
        let action = match given {
            Given::Entry(id, entry @ WalEntry::CommitSlot { .. }) => {
                Action { ballot: commit_ballot(list.next(), id.0), ..logged(id, entry) }
            }
            Given::Entry(id, entry) => logged(id, entry),
            Given::CommitBallot(..) => must_not_be_reached!("a ballot without its CommitSlot"),
            Given::Message(msg, peer) => Action { member: peer.into(), ..message(msg) },
            Given::Broadcast(msg) => Action { member: ALL, ..message(msg) },
            Given::Status { step_up: true } => of(Kind::StatusUp),
            Given::Status { step_up: false } => of(Kind::StatusDown),
            Given::Reply(reply, client) => read_answer(reply, client),
            // One Execute for each batch: its first command opens it, the others add their keys.
            Given::Command((slot, place), command) => {
                let mut execute = if place == 0 {
                    let id = Batch::id_of(&replica.insts[slot - replica.start_slot].reqs);
                    let batch = Batch::new(id, &[]);
                    Action { slot: slot as u64, batch, ..of(Kind::Execute) }
                } else {
                    opened_before(actions.pop(), slot as u64)
                };
                execute.batch.add_command(&command);
                execute
            }
        };
        actions.push(action);
    }
    actions
}

fn of(kind: Kind) -> Action {
    Action { kind, ..Action::default() }
}

fn opened_before(last: Option<Action>, slot: u64) -> Action {
    match last {
        Some(last) if last.kind == Kind::Execute && last.slot == slot => last,
        _ => must_not_be_reached!("a batch's later command before its first"),
    }
}

/// What the source says right after it submitted a CommitSlot entry for the slot.
fn commit_ballot(next: Option<Given>, slot: usize) -> Ballot {
    match next {
        Some(Given::CommitBallot(of, ballot)) if of == slot => ballot,
        _ => must_not_be_reached!("a CommitSlot without its ballot"),
    }
}

/// Whether each CommitSlot's ballot is still its slot's as the call leaves it.
pub(crate) fn commits_have_their_slots_ballots(replica: &Replica, actions: &[Action]) -> bool {
    let mut commits = actions.iter().filter(|action| action.kind == Kind::CommitSlot);
    commits.all(|commit| {
        let place = commit.slot as usize - replica.start_slot;
        commit.ballot == replica.insts[place].bal
    })
}

fn logged(id: LogActionId, entry: WalEntry) -> Action {
    let (told, action) = match entry {
        WalEntry::PrepareBal { slot, ballot } => {
            ((slot, Status::Preparing), Action { ballot, ..of(Kind::PrepareBal) })
        }
        WalEntry::AcceptData { slot, ballot, reqs } => {
            let batch = Batch::from_requests(&reqs);
            ((slot, Status::Accepting), Action { ballot, batch, ..of(Kind::AcceptData) })
        }
        WalEntry::CommitSlot { slot } => ((slot, Status::Committed), of(Kind::CommitSlot)),
    };
    assert_eq!(id, told, "a log action's id names its slot and type");
    Action { slot: id.0 as u64, ..action }
}

/// A message by 01's numbers, the member left open.
fn message(msg: PeerMsg) -> Action {
    match msg {
        PeerMsg::Prepare { trigger_slot, ballot } => {
            Action { trigger: trigger_slot as u64, ballot, ..of(Kind::Prepare) }
        }
        PeerMsg::PrepareReply { slot, trigger_slot, endprep_slot, ballot, voted, accept_bar } => {
            let (voted_ballot, batch) = match voted {
                Some((ballot, reqs)) => (ballot, Batch::from_requests(&reqs)),
                None => (0, Batch::default()),
            };
            Action {
                kind: Kind::PrepareReply,
                member: 0,
                slot: slot as u64,
                trigger: trigger_slot as u64,
                endprep: endprep_slot as u64,
                ballot,
                voted_ballot,
                batch,
                bar: accept_bar as u64,
            }
        }
        PeerMsg::Accept { slot, ballot, reqs } => {
            let batch = Batch::from_requests(&reqs);
            Action { slot: slot as u64, ballot, batch, ..of(Kind::Accept) }
        }
        PeerMsg::AcceptReply { slot, ballot, .. } => {
            Action { slot: slot as u64, ballot, ..of(Kind::AcceptReply) }
        }
        PeerMsg::CommitNotice { ballot, commit_bar } => {
            Action { ballot, bar: commit_bar as u64, ..of(Kind::CommitNotice) }
        }
        // 01: a heartbeat has nothing but the member.
        PeerMsg::Heartbeat { .. } => of(Kind::Heartbeat),
        PeerMsg::ReadQuery { .. } | PeerMsg::ReadQueryReply { .. } => {
            must_not_be_reached!("a read message that is sent")
        }
    }
}

/// The client is the read's id, the request's id the key's place in it.
fn read_answer(reply: ApiReply, client: ClientId) -> Action {
    match reply {
        ApiReply::Normal { id, result: Some(CommandResult::Get { value: None }) } => {
            Action::read_answer(client, id, 0, 0)
        }
        ApiReply::ReadRetry { id, leader } => {
            Action::read_answer(client, id, 1, leader.map_or(255, u64::from))
        }
        ApiReply::Normal { id, result: Some(CommandResult::Get { value: Some(value) }) } => {
            Action::read_answer(client, id, 2, number(&value))
        }
        ApiReply::Normal { .. } => must_not_be_reached!("a reply that is no read's"),
    }
}

#[cfg(test)]
mod tests {
    use super::*;

    fn submitted(slot: usize) -> Given {
        Given::Entry((slot, Status::Committed), WalEntry::CommitSlot { slot })
    }

    fn taken(list: impl IntoIterator<Item = Given>) -> Vec<Action> {
        list.into_iter().for_each(recorder::record);
        take(&Replica::fresh(0, 1, 0, false, false))
    }

    #[test]
    fn a_commit_slot_has_the_ballot_that_follows_it() {
        let list = [submitted(3), Given::CommitBallot(3, 514), submitted(4)];
        let actions = taken(list.into_iter().chain([Given::CommitBallot(4, 0)]));
        let told: Vec<_> =
            actions.iter().map(|given| (given.kind, given.slot, given.ballot)).collect();
        assert_eq!(told, [(Kind::CommitSlot, 3, 514), (Kind::CommitSlot, 4, 0)]);
    }

    #[test]
    #[should_panic(expected = "a CommitSlot without its ballot")]
    fn none_follows() {
        taken([submitted(3), Given::Status { step_up: true }]);
    }

    #[test]
    #[should_panic(expected = "a CommitSlot without its ballot")]
    fn none_follows_the_last() {
        taken([submitted(3)]);
    }

    #[test]
    #[should_panic(expected = "a CommitSlot without its ballot")]
    fn another_slots_follows() {
        taken([submitted(3), Given::CommitBallot(4, 514)]);
    }

    #[test]
    #[should_panic(expected = "a ballot without its CommitSlot")]
    fn a_second_one_follows() {
        taken([submitted(3), Given::CommitBallot(3, 514), Given::CommitBallot(3, 514)]);
    }
}
