//! Batches and key lists by number, and the request lists that stand for them in the source.

use std::fmt;

use crate::host::multipaxos::ReqBatch;
use crate::server::{ApiRequest, Command};

/// 01: "a list of 0 to 8 key numbers".
pub const MOST_KEYS: usize = 8;

#[derive(Clone, Copy, PartialEq, Eq, Default)]
pub struct Keys {
    count: u8,
    numbers: [u64; MOST_KEYS],
}

impl Keys {
    pub fn from_slice(numbers: &[u64]) -> Self {
        let mut keys = Keys::default();
        for &number in numbers {
            keys.push(number);
        }
        keys
    }

    pub fn push(&mut self, number: u64) {
        self.numbers[self.count as usize] = number;
        self.count += 1;
    }

    pub fn as_slice(&self) -> &[u64] {
        &self.numbers[..self.len()]
    }

    pub fn len(&self) -> usize {
        self.count as usize
    }

    pub fn is_empty(&self) -> bool {
        self.count == 0
    }
}

impl fmt::Debug for Keys {
    fn fmt(&self, out: &mut fmt::Formatter) -> fmt::Result {
        self.as_slice().fmt(out)
    }
}

#[derive(Debug, Clone, Copy, PartialEq, Eq, Default)]
pub struct Batch {
    pub id: u64,
    pub keys: Keys,
}

impl Batch {
    pub fn new(id: u64, keys: &[u64]) -> Self {
        Batch { id, keys: Keys::from_slice(keys) }
    }

    /// 01: "id 0 = empty, no keys".
    pub fn is_well_formed(&self) -> bool {
        self.id != 0 || self.keys.is_empty()
    }

    /// A marker that is no Put stands first, so the list is empty exactly when the id is 0; a Put
    /// for each key follows. Every request carries the id.
    pub(crate) fn to_requests(self) -> ReqBatch {
        if self.id == 0 {
            return Vec::new();
        }
        let mut requests = Vec::with_capacity(1 + self.keys.len());
        let marker = Command::Get { key: String::new() };
        requests.push((0, ApiRequest::Req { id: self.id, cmd: marker }));
        for key in self.keys.as_slice() {
            let put = Command::Put { key: key.to_string(), value: String::new() };
            requests.push((0, ApiRequest::Req { id: self.id, cmd: put }));
        }
        requests
    }

    pub(crate) fn from_requests(requests: &ReqBatch) -> Self {
        let mut batch = Batch { id: Batch::id_of(requests), keys: Keys::default() };
        for (_, request) in requests {
            let ApiRequest::Req { cmd, .. } = request else {
                must_not_be_reached!("a request that is no command");
            };
            batch.add_command(cmd);
        }
        batch
    }

    pub(crate) fn id_of(requests: &ReqBatch) -> u64 {
        match requests.first() {
            Some((_, ApiRequest::Req { id, .. })) => *id,
            _ => 0,
        }
    }

    /// One more key, if the command is no marker.
    pub(crate) fn add_command(&mut self, command: &Command) {
        if let Command::Put { key, .. } = command {
            self.keys.push(number(key));
        }
    }
}

/// Keys and values are decimal numbers in the source's strings.
pub(crate) fn number(text: &str) -> u64 {
    text.parse().expect("keys and values are numbers")
}
