//! The 256-byte trace record of 01.

pub const RECORD_BYTES: usize = 256;
const ENTRIES_AT: usize = 64;
const MOST_ENTRIES: usize = 8;

/// A record's fields as they stand, before anything is said about what they mean.
#[derive(Debug, Clone, Copy, PartialEq, Eq, Default)]
pub struct Record {
    pub kind: u8,
    pub peer: u8,
    pub sub: u8,
    pub count: u8,
    pub slot: u64,
    pub trigger: u64,
    pub endprep: u64,
    pub ballot: u64,
    pub voted_ballot: u64,
    pub batch: u64,
    pub bar: u64,
    pub entries: [[u64; 3]; MOST_ENTRIES],
}

impl Record {
    /// The record in these bytes, or nothing where 01 answers 13.
    pub fn decode(bytes: &[u8]) -> Option<Record> {
        if bytes.len() != RECORD_BYTES || word(bytes, 4) != sum_of_the_others(bytes) {
            return None;
        }
        let record = Record::fields(bytes);
        record.is_well_formed().then_some(record)
    }

    /// The fields, whatever the sum says.
    pub fn fields(bytes: &[u8]) -> Record {
        let number = |place: usize| long(bytes, 8 + 8 * place);
        let mut entries = [[0; 3]; MOST_ENTRIES];
        for (place, value) in entries.iter_mut().flatten().enumerate() {
            *value = long(bytes, ENTRIES_AT + 8 * place);
        }
        Record {
            kind: bytes[0],
            peer: bytes[1],
            sub: bytes[2],
            count: bytes[3],
            slot: number(0),
            trigger: number(1),
            endprep: number(2),
            ballot: number(3),
            voted_ballot: number(4),
            batch: number(5),
            bar: number(6),
            entries,
        }
    }

    /// 01: known kind, sub (kinds 2, 8, 11) and tag (kind 11's counted entries), count up to 8.
    fn is_well_formed(&self) -> bool {
        let sub_known = match self.kind {
            2 | 11 => self.sub <= 1,
            8 => (1..=3).contains(&self.sub),
            _ => true,
        };
        let count = usize::from(self.count);
        self.kind <= 11
            && sub_known
            && count <= MOST_ENTRIES
            && (self.kind != 11 || self.entries[..count].iter().all(|entry| entry[0] <= 2))
    }

    /// The bytes, with the right sum.
    pub fn encode(&self) -> [u8; RECORD_BYTES] {
        let mut bytes = [0; RECORD_BYTES];
        bytes[..4].copy_from_slice(&[self.kind, self.peer, self.sub, self.count]);
        let numbers = [
            self.slot,
            self.trigger,
            self.endprep,
            self.ballot,
            self.voted_ballot,
            self.batch,
            self.bar,
        ];
        for (place, number) in numbers.iter().chain(self.entries.iter().flatten()).enumerate() {
            bytes[8 + 8 * place..16 + 8 * place].copy_from_slice(&number.to_le_bytes());
        }
        let sum = sum_of_the_others(&bytes);
        bytes[4..8].copy_from_slice(&sum.to_le_bytes());
        bytes
    }
}

/// 01: "the sum of the other 63 four-byte words, wrapping at 2^32".
fn sum_of_the_others(bytes: &[u8]) -> u32 {
    let words = bytes.chunks_exact(4).map(|chunk| word(chunk, 0));
    words.fold(0, u32::wrapping_add).wrapping_sub(word(bytes, 4))
}

fn word(bytes: &[u8], at: usize) -> u32 {
    u32::from_le_bytes(bytes[at..at + 4].try_into().expect("four bytes"))
}

fn long(bytes: &[u8], at: usize) -> u64 {
    u64::from_le_bytes(bytes[at..at + 8].try_into().expect("eight bytes"))
}
