//! The model's base kind beside the source, record by record.

use std::io::{self, Read};

use super::Replica;
use crate::agree::{Agreement, Difference, in_words};
use crate::call::Call;
use crate::play::each_record;
use crate::record::Record;
use crate::session::{Outcome, Session};
use crate::shown::Shown;
use crate::tell::Text;

/// A trace's records by the model alone, whatever the kind.
#[derive(Default)]
pub struct Player {
    replica: Option<Replica>,
}

impl Player {
    pub fn replica(&self) -> Option<Shown<'_>> {
        self.replica.as_ref().map(Shown::Model)
    }

    /// One record, whole or cut short.
    pub fn feed(&mut self, bytes: &[u8]) -> Outcome {
        match Record::decode(bytes) {
            Some(record) => self.call(&Call::from_record(&record)),
            None => Outcome::refused(13),
        }
    }

    fn call(&mut self, call: &Call) -> Outcome {
        if let Call::New { id, group, start, options } = *call {
            let Some(fresh) = Replica::fresh(id, group, start, options) else {
                return Outcome::refused(10);
            };
            self.replica = Some(fresh);
            return Outcome { answer: 0, actions: Vec::new(), place: None };
        }
        match &mut self.replica {
            None => Outcome::refused(1),
            Some(replica) => replica.call(call),
        }
    }
}

/// Plays the trace's records in base kind through both; a strict replica is made as a base one.
pub fn model_agree(trace: impl Read) -> io::Result<Agreement> {
    let (mut rust, mut model) = (Session::default(), Player::default());
    let (mut ours, mut theirs) = (Text::default(), Text::default());
    let mut records = 0;
    let mut found = None;
    each_record(trace, |bytes| {
        records += 1;
        let base = in_base_kind(bytes);
        let bytes = base.as_ref().map_or(bytes, |bytes| bytes.as_slice());
        tell(&mut ours, records, &rust.feed(bytes), rust.replica());
        tell(&mut theirs, records, &model.feed(bytes), model.replica());
        if ours.bytes != theirs.bytes {
            found = Some(difference(records, bytes, &ours, &theirs));
        }
        Ok(found.is_none())
    })?;
    Ok(found.map_or(Agreement::Whole(records), Agreement::Differs))
}

/// A kind 0 record with the strict option taken off, where it stands.
fn in_base_kind(bytes: &[u8]) -> Option<[u8; crate::record::RECORD_BYTES]> {
    let mut record = Record::decode(bytes)?;
    if record.kind != 0 || !(4..8).contains(&record.trigger) {
        return None;
    }
    record.trigger -= 4;
    Some(record.encode())
}

fn tell(text: &mut Text, number: u64, outcome: &Outcome, replica: Option<Shown>) {
    text.bytes.clear();
    text.told(number, outcome, replica);
}

fn difference(number: u64, bytes: &[u8], ours: &Text, theirs: &Text) -> Difference {
    let said = |text: &Text| String::from_utf8_lossy(&text.bytes).into_owned();
    Difference {
        number,
        record: Some(in_words(bytes)),
        whose: ["the Rust", "the model"],
        ours: said(ours),
        theirs: said(theirs),
    }
}
