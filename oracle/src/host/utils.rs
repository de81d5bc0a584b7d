//! Bitmap, error and stopwatch, as `utils/mod.rs` names them.

use std::time::SystemTime;

#[derive(Debug, Clone, PartialEq, Eq)]
pub struct SummersetError(String);

impl SummersetError {
    pub(crate) fn msg(text: String) -> Self {
        SummersetError(text)
    }

    pub(crate) fn text(&self) -> &str {
        &self.0
    }

    /// 12: the one error of the source that has a number.
    pub(crate) fn is_a_conflict(&self) -> bool {
        self.0.starts_with("conflicting committed value")
    }
}

/// A set of members; an index outside the group is an error, as in the source.
#[derive(Debug, Clone, Copy, PartialEq, Eq)]
pub struct Bitmap {
    size: u8,
    bits: u64,
}

impl Bitmap {
    pub(crate) fn new(size: u8, ones: bool) -> Self {
        let bits = if ones { (1 << size) - 1 } else { 0 };
        Bitmap { size, bits }
    }

    pub(crate) fn set(&mut self, index: u8, flag: bool) -> Result<(), SummersetError> {
        self.inside(index)?;
        if flag {
            self.bits |= 1 << index;
        } else {
            self.bits &= !(1 << index);
        }
        Ok(())
    }

    pub(crate) fn get(&self, index: u8) -> Result<bool, SummersetError> {
        self.inside(index)?;
        Ok(self.bits >> index & 1 == 1)
    }

    pub(crate) fn count(&self) -> u8 {
        self.bits.count_ones() as u8
    }

    pub(crate) fn iter(&self) -> impl Iterator<Item = (u8, bool)> + '_ {
        (0..self.size).map(|index| (index, self.bits >> index & 1 == 1))
    }

    pub(crate) fn mask(&self) -> u64 {
        self.bits
    }

    fn inside(&self, index: u8) -> Result<(), SummersetError> {
        if index < self.size {
            Ok(())
        } else {
            Err(SummersetError(format!("index {index} out of bound {}", self.size)))
        }
    }
}

impl From<(u8, Vec<u8>)> for Bitmap {
    fn from((size, members): (u8, Vec<u8>)) -> Self {
        let mut set = Bitmap::new(size, false);
        for member in members {
            set.set(member, true).expect("member inside the group");
        }
        set
    }
}

/// Statistics are off, so there is never a stopwatch.
#[derive(Debug, Clone)]
pub(crate) enum Stopwatch {}

impl Stopwatch {
    pub(crate) fn record_now(
        &mut self,
        _slot: usize,
        _step: usize,
        _at: Option<SystemTime>,
    ) -> Result<(), SummersetError> {
        match *self {}
    }
}
