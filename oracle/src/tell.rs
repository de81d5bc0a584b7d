//! The text of a record: `replay`'s line, and the whole state and actions for `tell`.

use crate::action::Action;
use crate::batch::Batch;
use crate::host::Replica;
use crate::host::multipaxos::{Instance, Knowledge, QuorumReadBookkeeping, ReqBatch, Status};
use crate::server::{ApiRequest, Command};
use crate::session::Outcome;
use crate::shown::Shown;

const ABSENT_KEYS: usize = 8;

/// Text under way: numbers with one blank between, lines with one line feed.
#[derive(Default)]
pub struct Text {
    pub bytes: Vec<u8>,
}

impl Text {
    /// 01: number, answer, action count, bal_max_seen, accept_bar, commit_bar, exec_bar.
    pub fn replay_line(&mut self, number: u64, outcome: &Outcome, replica: Option<Shown>) {
        self.line(number, outcome.answer, outcome.actions.len(), replica);
    }

    pub(crate) fn line(&mut self, number: u64, answer: u8, actions: usize, replica: Option<Shown>) {
        let state = replica.map_or([0; 4], Shown::line);
        self.digits(number);
        self.numbers(&[u64::from(answer), actions as u64]);
        self.numbers(&state);
        self.end_line();
    }

    /// The whole text of a record.
    pub fn told(&mut self, number: u64, outcome: &Outcome, replica: Option<Shown>) {
        self.replay_line(number, outcome, replica);
        for action in &outcome.actions {
            self.action(action);
        }
        match replica {
            None => self.bytes.extend_from_slice(b"Z\n"),
            Some(replica) => self.state(replica),
        }
    }

    fn action(&mut self, action: &Action) {
        self.row('A', &action.numbers());
    }

    /// A letter and its numbers.
    pub(crate) fn row(&mut self, letter: char, numbers: &[u64]) {
        self.bytes.push(letter as u8);
        self.numbers(numbers);
        self.end_line();
    }

    pub fn state(&mut self, replica: Shown) {
        match replica {
            Shown::Rust(replica) => self.state_of_the_source(replica),
            Shown::Model(replica) => replica.tell(self),
        }
    }

    fn state_of_the_source(&mut self, replica: &Replica) {
        self.scalars(replica);
        self.summary(replica);
        self.peers(replica);
        for (place, instance) in replica.insts.iter().enumerate() {
            self.slot(replica.start_slot + place, instance);
        }
        self.keys(replica);
        self.reads(replica);
    }

    fn scalars(&mut self, replica: &Replica) {
        self.bytes.push(b'S');
        self.numbers(&[
            u64::from(replica.id),
            u64::from(replica.population),
            u64::from(replica.quorum_cnt),
            replica.start_slot as u64,
            u64::from(replica.config.urgent_commit_notice),
            u64::from(replica.config.disallow_step_up),
            replica.leader.map_or(255, u64::from),
            replica.bal_prep_sent,
            replica.bal_prepared,
            replica.bal_max_seen,
            replica.accept_bar as u64,
            replica.commit_bar as u64,
            replica.exec_bar as u64,
            replica.wal_offset as u64,
            replica.peer_accept_max as u64,
            replica.insts.len() as u64,
            replica.highest_slot.len() as u64,
            replica.quorum_reads.len() as u64,
        ]);
        self.end_line();
    }

    /// 02, Wish 1: "the first slot not committed", and how many "at or above commit_bar have status
    /// Accepting". The Rust keeps neither, so this is "the full walk".
    fn summary(&mut self, replica: &Replica) {
        let committed = replica.insts.iter().take_while(|slot| slot.status >= Status::Committed);
        let first = replica.start_slot + committed.count();
        let from_commit_bar = replica.insts.iter().skip(replica.commit_bar - replica.start_slot);
        let accepting = from_commit_bar.filter(|slot| slot.status == Status::Accepting).count();
        self.bytes.push(b'F');
        self.numbers(&[first as u64, accepting as u64]);
        self.end_line();
    }

    fn peers(&mut self, replica: &Replica) {
        for member in 0..replica.population {
            if let Some(&bar) = replica.peer_accept_bar.get(&member) {
                self.bytes.push(b'P');
                self.numbers(&[u64::from(member), bar as u64]);
                self.end_line();
            }
        }
    }

    fn slot(&mut self, slot: usize, instance: &Instance) {
        self.bytes.push(b'I');
        self.numbers(&[
            slot as u64,
            instance.bal,
            instance.status as u64,
            u64::from(instance.external),
            instance.wal_offset as u64,
        ]);
        self.batch(&instance.reqs);
        self.numbers(&[instance.voted.0]);
        self.batch(&instance.voted.1);
        self.numbers(&match &instance.leader_bk {
            None => [0; 6],
            Some(leading) => [
                1,
                leading.trigger_slot as u64,
                leading.endprep_slot as u64,
                leading.prepare_acks.mask(),
                leading.prepare_max_bal,
                leading.accept_acks.mask(),
            ],
        });
        self.numbers(&match &instance.replica_bk {
            None => [0; 4],
            Some(following) => [
                1,
                u64::from(following.source),
                following.trigger_slot as u64,
                following.endprep_slot as u64,
            ],
        });
        self.end_line();
    }

    /// Batch id, key count, eight keys; the source's strings are the numbers' own digits.
    fn batch(&mut self, requests: &ReqBatch) {
        let id = Batch::id_of(requests);
        let puts = requests.len().saturating_sub(1);
        self.numbers(&[id, puts as u64]);
        for (_, request) in requests.iter().skip(1) {
            if let ApiRequest::Req { cmd: Command::Put { key, .. }, .. } = request {
                self.bytes.push(b' ');
                self.bytes.extend_from_slice(key.as_bytes());
            }
        }
        for _ in puts..ABSENT_KEYS {
            self.bytes.extend_from_slice(b" 0");
        }
    }

    fn keys(&mut self, replica: &Replica) {
        let mut table: Vec<(&str, usize)> =
            replica.highest_slot.iter().map(|(key, &slot)| (key.as_str(), slot)).collect();
        // Decimal numbers without leading zeros rise with length, then with their digits.
        table.sort_unstable_by_key(|&(key, _)| (key.len(), key));
        for (key, slot) in table {
            self.bytes.extend_from_slice(b"K ");
            self.bytes.extend_from_slice(key.as_bytes());
            self.numbers(&[slot as u64]);
            self.end_line();
        }
    }

    fn reads(&mut self, replica: &Replica) {
        let mut reads: Vec<_> = replica.quorum_reads.iter().collect();
        reads.sort_unstable_by_key(|(name, _)| name.0);
        for (name, read) in reads {
            self.read(name.0, read);
        }
    }

    fn read(&mut self, id: u64, read: &QuorumReadBookkeeping) {
        self.bytes.push(b'R');
        self.numbers(&[id, read.rq_acks.mask(), read.reads.len() as u64]);
        for ((_, request), best) in read.reads.iter().zip(&read.max_replies) {
            if let ApiRequest::Req { cmd: Command::Get { key }, .. } = request {
                self.bytes.push(b' ');
                self.bytes.extend_from_slice(key.as_bytes());
            }
            self.best(best);
        }
        self.end_line();
    }

    /// An answer, the number of keys, and what is known of each.
    pub(crate) fn tally_line(&mut self, answer: u8, read: &QuorumReadBookkeeping) {
        self.digits(u64::from(answer));
        self.numbers(&[read.max_replies.len() as u64]);
        for best in &read.max_replies {
            self.best(best);
        }
        self.end_line();
    }

    fn best(&mut self, best: &Knowledge) {
        match best {
            None => self.numbers(&[0, 0, 0]),
            Some((slot, None)) => self.numbers(&[1, *slot as u64, 0]),
            Some((slot, Some(value))) => {
                self.numbers(&[2, *slot as u64]);
                self.bytes.push(b' ');
                self.bytes.extend_from_slice(value.as_bytes());
            }
        }
    }

    /// Each number after a blank.
    fn numbers(&mut self, numbers: &[u64]) {
        for &number in numbers {
            self.bytes.push(b' ');
            self.digits(number);
        }
    }

    fn digits(&mut self, number: u64) {
        self.bytes.extend_from_slice(decimal(number).as_bytes());
    }

    fn end_line(&mut self) {
        self.bytes.push(b'\n');
    }
}

/// A number's decimal digits.
pub(crate) struct Decimal {
    digits: [u8; 20],
    from: usize,
}

/// Two digits a turn.
pub(crate) fn decimal(mut number: u64) -> Decimal {
    let mut digits = [b'0'; 20];
    let mut from = digits.len();
    while number >= 100 {
        from -= 2;
        digits[from..from + 2].copy_from_slice(&PAIRS[(number % 100) as usize]);
        number /= 100;
    }
    from -= 2;
    digits[from..from + 2].copy_from_slice(&PAIRS[number as usize]);
    Decimal { digits, from: from + usize::from(number < 10) }
}

impl Decimal {
    pub(crate) fn as_bytes(&self) -> &[u8] {
        &self.digits[self.from..]
    }

    pub(crate) fn as_str(&self) -> &str {
        str::from_utf8(self.as_bytes()).expect("digits are ASCII")
    }
}

/// "00" to "99".
const PAIRS: [[u8; 2]; 100] = pairs();

const fn pairs() -> [[u8; 2]; 100] {
    let mut pairs = [[0; 2]; 100];
    let mut number = 0;
    while number < 100 {
        pairs[number] = [b'0' + (number / 10) as u8, b'0' + (number % 10) as u8];
        number += 1;
    }
    pairs
}

#[cfg(test)]
mod tests {
    use super::*;

    #[test]
    fn decimals_are_as_rust_prints_them() {
        let powers = (0..20).map(|power| 10_u64.pow(power));
        let edges = powers.flat_map(|power| [power - 1, power, power + 1, power / 2]);
        for number in edges.chain(0..=1000).chain([u64::MAX - 1, u64::MAX]) {
            assert_eq!(decimal(number).as_str(), number.to_string());
        }
    }
}
