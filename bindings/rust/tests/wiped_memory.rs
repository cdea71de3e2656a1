//! That a session's memory is wiped when it is dropped, so too when FINISH is refused with 7 or 8, which leave it.
//! Nothing reads it any more, so a compiler leaves out a wiping that it may leave out.
//! It sees that only where it compiles the crate's code together with the caller's, so that code is part of this program.

// Only sessions are used here.
#![allow(dead_code)]

#[path = "../src/ffi.rs"]
mod library;

/// The library's functions, with a FINISH that notes where the record is.
mod ffi {
    pub use crate::library::*;
    use std::sync::atomic::{AtomicUsize, Ordering};

    pub static FINISHED_AT: AtomicUsize = AtomicUsize::new(0);

    pub unsafe fn tuilarder_finish(record: *mut Record) -> u32 {
        FINISHED_AT.store(record as usize, Ordering::Relaxed);
        // SAFETY: as the caller's.
        unsafe { crate::library::tuilarder_finish(record) }
    }
}

#[path = "../src/field.rs"]
mod field;
#[path = "../src/form.rs"]
mod form;
#[path = "../src/refusal.rs"]
mod refusal;

/// The crate's sessions with callers in the same module, which is what the compiler takes at a time.
mod session {
    include!("../src/session.rs");

    use std::hint::black_box;

    /// Drops a session, and gives the place on the stack where it was.
    #[inline(never)]
    pub fn session_was_at(record: &Record) -> usize {
        let session = Session::from_record(*record);
        black_box(&session);
        &session as *const Session as usize
    }

    #[inline(never)]
    pub fn fork_was_at(record: &Record) -> usize {
        let session = Session::from_record(*record);
        let fork = session.fork();
        black_box(&fork);
        &fork as *const Session as usize
    }

    /// Finishes a session. The record was at the place that FINISH got, which need not be where the session was made.
    #[inline(never)]
    pub fn finished_was_at(record: &Record) -> usize {
        black_box(Session::from_record(*record).finish()).unwrap_err();
        ffi::FINISHED_AT.load(Ordering::Relaxed)
    }

    /// For the looking itself: a record without a session around it is left.
    #[inline(never)]
    pub fn record_was_at(record: &Record) -> usize {
        let copy = *record;
        black_box(&copy);
        &copy as *const Record as usize
    }
}

use ffi::Record;
use refusal::Refusal;
use session::Session;
use std::hint::black_box;
// for the static library
use tuilarder as _;

/// What every word of the record is, but for the status.
const MARK: u32 = 0x5a5a5a5a;

fn record(status: u32) -> Record {
    Record {
        status,
        field: MARK,
        form: MARK,
        state: [MARK; 24],
        words: [MARK; 64],
        count: MARK,
        phase: MARK,
        done: MARK,
        absorb_position: MARK,
        squeeze_position: MARK,
        permutations: u64::from(MARK) << 32 | u64::from(MARK),
    }
}

/// A record's words; the permutations are two.
const WORDS: usize = 98;

/// How many words of the record are left at the place where a function had it.
fn left(was_at: fn(&Record) -> usize, status: u32) -> usize {
    let record = record(status);
    let place = black_box(was_at(black_box(&record))) as *const u32;
    let mut left = 0;
    for k in 0..WORDS {
        // SAFETY: the place is on this thread's stack, below what is in use; nothing was called that could use it again.
        left += usize::from(unsafe { place.add(k).read_volatile() } == MARK);
    }
    left
}

#[test]
fn a_session_leaves_nothing() {
    for status in [0, 1, MARK] {
        assert_eq!(left(session::session_was_at, status), 0);
        assert_eq!(left(session::fork_was_at, status), 0);
    }
}

/// 7 and 8 leave the record to the session, which wipes it.
#[test]
fn a_refused_finish_leaves_nothing() {
    for (status, refusal) in [
        (0, Refusal::RecordNotOpen),
        (1, Refusal::RecordNotSound),
        (MARK, Refusal::RecordNotOpen),
    ] {
        assert_eq!(Session::from_record(record(status)).finish(), Err(refusal));
        assert_eq!(left(session::finished_was_at, status), 0);
    }
}

#[test]
fn a_record_is_left() {
    assert_eq!(left(session::record_was_at, MARK), WORDS);
}
