//! The source's macros: silent, and without evaluating what they would print; but for one line.

/// Right after a CommitSlot entry was submitted the source traces its slot and its instance's
/// ballot, which the entry lacks: the ballot is recorded (02, Wish 5).
macro_rules! pf_trace {
    ("submitted CommitSlot log action for slot {} bal {}", $slot:expr, $ballot:expr $(,)?) => {
        $crate::host::recorder::record($crate::host::recorder::Given::CommitBallot($slot, $ballot))
    };
    ($($part:tt)*) => { if false { let _ = format_args!($($part)*); } };
}

macro_rules! pf_debug {
    ($($part:tt)*) => { if false { let _ = format_args!($($part)*); } };
}

macro_rules! pf_info {
    ($($part:tt)*) => { if false { let _ = format_args!($($part)*); } };
}

macro_rules! logged_err {
    ($($part:tt)*) => { Err(SummersetError::msg(format!($($part)*))) };
}

/// Stops the program: this lies outside what the scope document takes from the source.
macro_rules! must_not_be_reached {
    ($what:expr) => {
        panic!("not part of the voting core, yet reached: {}", $what)
    };
}
