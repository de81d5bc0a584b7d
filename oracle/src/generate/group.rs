//! A whole group that runs the source: members, their logs and a network that loses, repeats and
//! overtakes. What the watched member receives is the trace.

use std::collections::BTreeMap;

use super::habits::Habits;
use super::reads;
use super::rng::Rng;
use super::{spoil, wild};
use crate::action::{ALL, Action, Kind};
use crate::batch::{Batch, Keys};
use crate::call::{Call, Entry};
use crate::honest::received;
use crate::host::multipaxos::WINDOW;
use crate::record::RECORD_BYTES;
use crate::session::{Outcome, Session};
use crate::shown::Shown;

pub struct World<'r> {
    pub(super) rng: &'r mut Rng,
    pub(super) habits: Habits,
    pub(super) members: Vec<Member>,
    pub(super) mail: Vec<Mail>,
    pub(super) reads_opened: u64,
    /// A member that nothing reaches and that reaches nobody, for a while.
    cut_off: Option<u8>,
    records: Vec<[u8; RECORD_BYTES]>,
    batches_made: u64,
    keys_made: u64,
    /// Each slot's batch, once some member of a strict group has marked it.
    marked: BTreeMap<u64, Batch>,
}

/// A replica with what its host still has to report.
#[derive(Default)]
pub(super) struct Member {
    session: Session,
    /// Each entry's type, slot and ballot: what its completion says.
    log: Vec<(Entry, u64, u64)>,
    executions: Vec<u64>,
}

pub(super) struct Mail {
    pub(super) from: u8,
    pub(super) to: u8,
    pub(super) call: Call,
}

/// What can happen next, and how heavy it weighs.
type Event<'r> = (u64, fn(&mut World<'r>));

/// More messages than this under way, and the oldest is lost.
const MOST_MAIL: usize = 600;

impl Member {
    pub(super) fn replica(&self) -> Shown<'_> {
        self.session.replica().expect("every member was made")
    }

    fn leads_prepared(&self) -> bool {
        let replica = self.replica();
        replica.leads() && replica.bal_prepared() > 0
    }
}

impl<'r> World<'r> {
    pub fn new(rng: &'r mut Rng, habits: Habits) -> Self {
        let members = (0..habits.group).map(|_| Member::default()).collect();
        World {
            rng,
            habits,
            members,
            mail: Vec::new(),
            reads_opened: 0,
            cut_off: None,
            records: Vec::new(),
            batches_made: 0,
            keys_made: 0,
            marked: BTreeMap::new(),
        }
    }

    /// The watched member's records, at most `limit`.
    pub fn run(mut self, limit: u64) -> Vec<[u8; RECORD_BYTES]> {
        let wanted = self.habits.records.min(limit) as usize;
        for id in 0..self.habits.group {
            // Only the watched member is ever forbidden to lead; a group is of one kind.
            let watched = id == self.habits.watched;
            let options = if watched { self.habits.options } else { self.habits.options & 5 };
            let (group, start) = (self.habits.group, self.habits.start);
            self.deliver_unspoiled(id, Call::New { id, group, start, options });
        }
        while self.records.len() < wanted && !(self.is_spent() && self.rng.often(30)) {
            self.event();
        }
        self.records.truncate(wanted);
        self.records
    }

    /// The window is full, and nothing is under way.
    fn is_spent(&self) -> bool {
        self.watched_replica().slots() == WINDOW
            && self.mail.is_empty()
            && self.members.iter().all(|member| member.log.is_empty())
    }

    fn event(&mut self) {
        let logs: usize = self.members.iter().map(|member| member.log.len()).sum();
        let executions = self.members.iter().any(|member| !member.executions.is_empty());
        let leader = self.members.iter().any(Member::leads_prepared);
        let habits = &self.habits;
        let mail = if self.mail.is_empty() { 0 } else { 300 + self.mail.len() as u64 };
        let log = if logs == 0 { 0 } else { habits.log_pace + logs as u64 };
        // A group without a leader and with little under way waits for a timer. A strict leader
        // needs every reply, so there the logs count as well.
        let busy = self.mail.len() > 4 || (habits.is_strict() && logs > 4);
        let lonely = if leader || busy { 0 } else { 15 };
        let events: [Event<'r>; 9] = [
            (mail, Self::deliver_mail),
            (log, Self::finish_log),
            (if executions { habits.executions } else { 0 }, Self::finish_execution),
            (habits.timeouts + lonely, Self::time_out),
            (if leader { habits.offers } else { 1 }, Self::offer),
            (habits.reads, reads::event),
            (if leader { habits.notices } else { 0 }, Self::tell_bar),
            (habits.wild, Self::call_from_nowhere),
            (habits.cuts, Self::cut_or_heal),
        ];
        let place = self.rng.weighted(&events.map(|(weight, _)| weight));
        events[place.expect("an offer always has some weight")].1(self);
    }

    fn call_from_nowhere(&mut self) {
        let watched = self.habits.watched;
        let replica = self.members[usize::from(watched)].replica();
        let call = wild::call(self.rng, replica);
        self.deliver(watched, call);
    }

    pub(super) fn watched_replica(&self) -> Shown<'_> {
        self.members[usize::from(self.habits.watched)].replica()
    }

    /// Gives a call to a member; the watched member's calls are kept, and may be spoiled.
    pub(super) fn deliver(&mut self, to: u8, call: Call) {
        if to == self.habits.watched && self.rng.often(self.habits.spoiled) {
            let watched = &self.members[usize::from(to)];
            let bytes = spoil::spoiled(self.rng, call.to_record(), watched.replica());
            self.watched_receives(bytes);
            if self.rng.often(500) {
                return;
            }
        }
        self.deliver_unspoiled(to, call);
    }

    fn deliver_unspoiled(&mut self, to: u8, call: Call) {
        if to == self.habits.watched {
            self.watched_receives(call.to_record().encode());
        } else {
            let outcome = self.members[usize::from(to)].session.call(&call);
            self.route(to, &outcome);
        }
    }

    fn watched_receives(&mut self, bytes: [u8; RECORD_BYTES]) {
        self.records.push(bytes);
        let watched = self.habits.watched;
        let outcome = self.members[usize::from(watched)].session.feed(&bytes);
        self.route(watched, &outcome);
    }

    /// What a member asks of its host: log entries, messages, executions.
    fn route(&mut self, from: u8, outcome: &Outcome) {
        if self.habits.is_strict() && self.habits.is_honest() {
            self.hold_marks(from, outcome);
        }
        for action in &outcome.actions {
            let member = &mut self.members[usize::from(from)];
            let Action { slot, ballot, .. } = *action;
            match action.kind {
                Kind::PrepareBal => member.log.push((Entry::PrepareBal, slot, ballot)),
                Kind::AcceptData => member.log.push((Entry::AcceptData, slot, ballot)),
                Kind::CommitSlot => member.log.push((Entry::CommitSlot, slot, ballot)),
                Kind::Execute => member.executions.push(slot),
                _ => self.post(from, action),
            }
        }
        let excess = self.mail.len().saturating_sub(MOST_MAIL);
        self.mail.drain(..excess);
    }

    /// 02, Wish 7, of a strict group in which nothing is made up: no two members mark one slot with
    /// different batches, and 15 is never given.
    fn hold_marks(&mut self, from: u8, outcome: &Outcome) {
        assert_ne!(outcome.answer, 15, "an honest strict group meets 15");
        let member = &self.members[usize::from(from)];
        for mark in outcome.actions.iter().filter(|action| action.kind == Kind::CommitSlot) {
            let replica = member.replica().model().expect("a strict group is the model's");
            let batch = replica.slot(mark.slot).expect("a marked slot is present").batch;
            let first = self.marked.entry(mark.slot).or_insert(batch);
            assert_eq!(*first, batch, "a strict group marks slot {} twice", mark.slot);
        }
    }

    fn post(&mut self, from: u8, action: &Action) {
        let Some(call) = received(from, action) else { return };
        for to in 0..self.habits.group {
            if to != from && (action.member == ALL || action.member == u64::from(to)) {
                self.mail.push(Mail { from, to, call });
            }
        }
    }

    fn deliver_mail(&mut self) {
        let overtakes = self.rng.often(self.habits.overtake);
        let place = if overtakes { self.rng.index(self.mail.len()) } else { 0 };
        let Mail { from, to, call } = self.mail.remove(place);
        let cut_off = self.cut_off == Some(from) || self.cut_off == Some(to);
        let prepare = matches!(call, Call::Prepare { .. });
        let prepare_lost = prepare && self.rng.often(self.habits.prepare_loss);
        if cut_off || prepare_lost || self.rng.often(self.habits.loss) {
            return;
        }
        if self.rng.often(self.habits.repeat) {
            let later = self.rng.index(self.mail.len() + 1);
            self.mail.insert(later, Mail { from, to, call });
        }
        self.deliver(to, call);
    }

    fn finish_log(&mut self) {
        let busy: Vec<u8> = self.those(|member| !member.log.is_empty());
        let of = self.rng.pick(&busy);
        let overtakes = self.rng.often(self.habits.log_overtake);
        let (missing, repeated) =
            (self.rng.often(self.habits.log_missing), self.rng.often(self.habits.log_repeat));
        let growth = self.rng.below(60);
        let member = &mut self.members[usize::from(of)];
        let place = if overtakes { self.rng.index(member.log.len()) } else { 0 };
        let (entry, slot, ballot) =
            if repeated { member.log[place] } else { member.log.remove(place) };
        if missing {
            return;
        }
        let size = member.replica().wal_offset().saturating_add(growth);
        self.deliver(of, Call::LogDone { entry, slot, ballot, size });
    }

    fn finish_execution(&mut self) {
        let busy: Vec<u8> = self.those(|member| !member.executions.is_empty());
        let of = self.rng.pick(&busy);
        let again = self.rng.often(30);
        let member = &mut self.members[usize::from(of)];
        let place = self.rng.index(member.executions.len().min(3));
        let slot = if again { member.executions[place] } else { member.executions.remove(place) };
        self.deliver(of, Call::Executed { slot });
    }

    /// Mostly the believed leader's silence; now and then a stray timer.
    fn time_out(&mut self) {
        let any = self.rng.below(self.habits.group.into()) as u8;
        let of = if self.rng.often(300) { self.habits.watched } else { any };
        let replica = self.members[usize::from(of)].replica();
        if replica.leads() && self.habits.group > 1 && !self.rng.often(150) {
            return;
        }
        let leader = replica.leader().unwrap_or(of);
        let source = if self.rng.often(100) { any } else { leader };
        self.deliver(of, Call::Timeout { source });
    }

    fn cut_or_heal(&mut self) {
        let whom = self.rng.below(self.habits.group.into()) as u8;
        self.cut_off = if self.cut_off.is_none() { Some(whom) } else { None };
    }

    fn offer(&mut self) {
        let leaders = self.those(Member::leads_prepared);
        let stray = leaders.is_empty() || self.rng.often(20);
        let of = if stray { self.habits.watched } else { self.rng.pick(&leaders) };
        let full = self.members[usize::from(of)].replica().slots() == WINDOW;
        if full && !self.rng.often(30) {
            return self.time_out_if_rare();
        }
        let batch = self.batch();
        self.deliver(of, Call::Offer { batch });
    }

    /// A full window goes on with a new leader now and then.
    fn time_out_if_rare(&mut self) {
        if self.rng.often(50) {
            self.time_out();
        }
    }

    fn tell_bar(&mut self) {
        let leaders = self.those(Member::leads_prepared);
        let from = self.rng.pick(&leaders);
        let replica = self.members[usize::from(from)].replica();
        let (ballot, bar) = (replica.bal_prepared(), replica.commit_bar());
        for to in (0..self.habits.group).filter(|&to| to != from) {
            let call = Call::CommitNotice { peer: from, ballot, bar };
            self.mail.push(Mail { from, to, call });
        }
    }

    fn those(&self, test: impl Fn(&Member) -> bool) -> Vec<u8> {
        (0..self.habits.group).filter(|&id| test(&self.members[usize::from(id)])).collect()
    }

    /// A new batch: now and then the empty one, or one with an id and no keys.
    fn batch(&mut self) -> Batch {
        self.batches_made += 1;
        let id = if self.rng.often(40) { 0 } else { self.batches_made };
        let length = if self.habits.full_batches { 8 } else { self.rng.below(9) };
        let mut keys = Keys::default();
        for _ in 0..if id == 0 { 0 } else { length } {
            let key = self.key();
            keys.push(key);
        }
        Batch { id, keys }
    }

    pub(super) fn key(&mut self) -> u64 {
        let limit = self.habits.keys;
        let fresh = self.keys_made < limit && (self.keys_made < 264 || self.rng.often(100));
        let place = if fresh && self.rng.often(850) {
            self.keys_made += 1;
            self.keys_made - 1
        } else {
            self.rng.below(self.keys_made.clamp(1, 240))
        };
        match place {
            _ if !self.habits.keys_are_large => place,
            0 => u64::MAX,
            _ => place.wrapping_mul(0x9E37_79B9_7F4A_7C15),
        }
    }
}
