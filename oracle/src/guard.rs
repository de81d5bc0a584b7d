//! Runs the source so that its panics become answers, and any other panic ends the harness.

use std::any::Any;
use std::cell::{Cell, RefCell};
use std::fmt;
use std::panic::{self, AssertUnwindSafe};
use std::sync::Once;

use crate::host::multipaxos::{SOURCE_FILES, SOURCE_MODULES};
use crate::utils::SummersetError;

/// How a run of the source ended.
#[derive(Debug, PartialEq, Eq)]
pub(crate) enum Ended {
    Done,
    Failed(SummersetError),
    /// A debug_assert, index or unwrap of the four files failed.
    Panicked(Place),
    /// The source asked for the slot at start+64.
    WindowFull,
}

/// A line of the four files.
#[derive(Debug, Clone, Copy, PartialEq, Eq, PartialOrd, Ord)]
pub struct Place {
    file: usize,
    line: u32,
}

impl fmt::Display for Place {
    fn fmt(&self, out: &mut fmt::Formatter) -> fmt::Result {
        write!(out, "{}, line {}", SOURCE_MODULES[self.file], self.line)
    }
}

/// What the hook saw of a panic.
#[derive(Default)]
struct Panic {
    file: String,
    line: u32,
    text: String,
}

/// What the host unwinds with where the source would grow past 01's window.
pub(crate) struct WindowFull;

impl WindowFull {
    pub(crate) fn unwind() -> ! {
        panic::resume_unwind(Box::new(WindowFull))
    }
}

thread_local! {
    static GUARDED: Cell<bool> = const { Cell::new(false) };
    static SEEN: RefCell<Option<Panic>> = const { RefCell::new(None) };
}

pub(crate) fn attempt(work: impl FnOnce() -> Result<(), SummersetError>) -> Ended {
    install_hook();
    GUARDED.set(true);
    let result = panic::catch_unwind(AssertUnwindSafe(work));
    GUARDED.set(false);
    match result {
        Ok(Ok(())) => Ended::Done,
        Ok(Err(error)) => Ended::Failed(error),
        Err(payload) => judge(&*payload),
    }
}

/// The place of a failed index or unwrap is the line that wrote it, so it lies in the four files.
fn judge(payload: &(dyn Any + Send)) -> Ended {
    if payload.is::<WindowFull>() {
        return Ended::WindowFull;
    }
    let Panic { file, line, text } = SEEN.take().unwrap_or_default();
    match SOURCE_FILES.iter().position(|&known| known == file) {
        Some(file) => Ended::Panicked(Place { file, line }),
        None => panic!("the harness failed, not the source: {text}"),
    }
}

/// Inside a guarded run a panic is noted in silence; elsewhere it is told as always.
fn install_hook() {
    static INSTALL: Once = Once::new();
    INSTALL.call_once(|| {
        let usual = panic::take_hook();
        panic::set_hook(Box::new(move |info| {
            if GUARDED.get() {
                let (file, line) = info.location().map_or(("", 0), |at| (at.file(), at.line()));
                SEEN.set(Some(Panic { file: file.to_string(), line, text: info.to_string() }));
            } else {
                usual(info);
            }
        }));
    });
}

#[cfg(test)]
mod tests {
    use super::*;

    #[test]
    fn done_and_failed_are_told_apart() {
        assert_eq!(attempt(|| Ok(())), Ended::Done);
        let error = SummersetError::msg("no".to_string());
        assert_eq!(attempt(|| Err(error.clone())), Ended::Failed(error));
    }

    #[test]
    fn the_window_unwinds_as_itself() {
        assert_eq!(attempt(|| WindowFull::unwind()), Ended::WindowFull);
    }

    #[test]
    #[should_panic(expected = "the harness failed")]
    fn a_panic_outside_the_four_files_ends_the_harness() {
        attempt(|| panic!("here"));
    }

    #[test]
    #[should_panic(expected = "overflow")]
    fn overflow_is_checked() {
        let largest = std::hint::black_box(u64::MAX);
        std::hint::black_box(largest + 1);
    }
}
