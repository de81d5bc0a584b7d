//! A checksum that `cksum` of any system also makes, so that told text is checked without Rust.

use crate::play::Played;
use crate::tell::Text;

/// The CRC of POSIX `cksum`, fed piece by piece.
#[derive(Clone, Copy, Default)]
pub struct Checksum {
    crc: u32,
    length: u64,
}

const TABLE: [u32; 256] = table();

const fn table() -> [u32; 256] {
    let mut table = [0; 256];
    let mut index = 0;
    while index < 256 {
        let mut crc = (index as u32) << 24;
        let mut bit = 0;
        while bit < 8 {
            crc = if crc >> 31 == 1 { crc << 1 ^ 0x04C1_1DB7 } else { crc << 1 };
            bit += 1;
        }
        table[index] = crc;
        index += 1;
    }
    table
}

impl Checksum {
    pub fn feed(&mut self, bytes: &[u8]) {
        for &byte in bytes {
            self.step(byte);
        }
        self.length += bytes.len() as u64;
    }

    /// Checksum and length, as `cksum` prints them.
    pub fn result(mut self) -> (u32, u64) {
        let length = self.length;
        let mut rest = length;
        while rest > 0 {
            self.step((rest % 256) as u8);
            rest /= 256;
        }
        (!self.crc, length)
    }

    fn step(&mut self, byte: u8) {
        let place = (self.crc >> 24) as u8 ^ byte;
        self.crc = self.crc << 8 ^ TABLE[usize::from(place)];
    }
}

/// Checksums of the told text: a line for each block of records, and one for all.
#[derive(Default)]
pub struct Digest {
    lines: String,
    whole: Checksum,
    block: Checksum,
    records: u64,
    text: Text,
}

/// Records to a line of a digest.
pub const BLOCK: u64 = 64;

impl Digest {
    pub fn add(&mut self, played: &Played) {
        self.text.bytes.clear();
        self.text.told(played.number, played.outcome, played.replica);
        self.whole.feed(&self.text.bytes);
        self.block.feed(&self.text.bytes);
        self.records += 1;
        if self.records.is_multiple_of(BLOCK) {
            self.end_block();
        }
    }

    /// `last-record checksum length` for each block, then `all checksum length`.
    pub fn finish(mut self) -> String {
        if !self.records.is_multiple_of(BLOCK) {
            self.end_block();
        }
        let (crc, length) = self.whole.result();
        self.lines += &format!("all {crc} {length}\n");
        self.lines
    }

    fn end_block(&mut self) {
        let (crc, length) = std::mem::take(&mut self.block).result();
        self.lines += &format!("{} {crc} {length}\n", self.records);
    }
}

#[cfg(test)]
mod tests {
    use super::*;

    #[test]
    fn equals_cksum() {
        let mut checksum = Checksum::default();
        assert_eq!(checksum.result(), (4_294_967_295, 0));
        checksum.feed(b"123456789");
        assert_eq!(checksum.result(), (930_766_865, 9));
    }
}
