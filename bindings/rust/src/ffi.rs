//! The functions of the static library as C calls them, for callers that keep records of their own. Each takes any contents at all.
//!
//! What each function asks of its caller, beyond what its own lines say:
//!
//! - A pointer is aligned for its type and valid: a list's for as many items as the length after it says, every other one for its object.
//!   With length 0 a list's pointer may have any value, that of an empty slice or null among them.
//! - What a function writes overlaps nothing else that the call was lent. Nobody else reads or writes that, and nobody writes what the
//!   function reads, until the call returns.
//!
//! Each answers 0 where the call is accepted, or the number of a [`Refusal`](crate::Refusal). Elements are those of the field that the call
//! names, or else the record: the numbers below its prime, p.

use core::mem::{offset_of, size_of};

/// The record of a session. Any contents may be handed over: a call looks at them before it uses them.
#[repr(C)]
#[derive(Clone, Copy, Debug, PartialEq, Eq)]
pub struct Record {
    /// 1 open, otherwise closed.
    pub status: u32,
    /// The number of the field that its elements are of.
    pub field: u32,
    /// The number of the form of its tag string.
    pub form: u32,
    /// Eight outer elements, then sixteen inner ones.
    pub state: [u32; 24],
    /// The merged words of the pattern, with unused ones 0.
    pub words: [u32; 64],
    /// How many words are used.
    pub count: u32,
    /// The number of the word that is being done, from 0; `count` after the last.
    pub phase: u32,
    /// How many elements of it are done.
    pub done: u32,
    /// From 0 to 8.
    pub absorb_position: u32,
    /// From 0 to 8.
    pub squeeze_position: u32,
    /// How many permutations the session has had.
    pub permutations: u64,
}

impl Record {
    /// 0 throughout, as FINISH leaves a record.
    pub const WIPED: Record = Record {
        status: 0,
        field: 0,
        form: 0,
        state: [0; 24],
        words: [0; 64],
        count: 0,
        phase: 0,
        done: 0,
        absorb_position: 0,
        squeeze_position: 0,
        permutations: 0,
    };
}

// The library was compiled for this layout.
const _: () = {
    assert!(size_of::<Record>() == 392);
    assert!(offset_of!(Record, status) == 0);
    assert!(offset_of!(Record, field) == 4);
    assert!(offset_of!(Record, form) == 8);
    assert!(offset_of!(Record, state) == 12);
    assert!(offset_of!(Record, words) == 108);
    assert!(offset_of!(Record, count) == 364);
    assert!(offset_of!(Record, phase) == 368);
    assert!(offset_of!(Record, done) == 372);
    assert!(offset_of!(Record, absorb_position) == 376);
    assert!(offset_of!(Record, squeeze_position) == 380);
    assert!(offset_of!(Record, permutations) == 384);
    assert!(size_of::<usize>() == 8);
};

/// The version of the functions and of the record, from bit 32 on, and below it the bytes of a record: what [`tuilarder_layout_3`] answers in the
/// library that this crate is written for.
pub const LAYOUT: u64 = (3 << 32) | 392;

extern "C" {
    /// What the library was compiled for: [`LAYOUT`]. A library of another version has no function of this name, and the build of this crate
    /// turns it away.
    pub fn tuilarder_layout_3() -> u64;

    /// START: opens a session of a field in the record, whatever that held, with the tag string of a form. Checks 18, 22, 1, 2, 19, 3 and 6, in
    /// this order. Refused, it leaves a wiped record. [`Form`](crate::Form) says which form to take.
    pub fn tuilarder_start(
        record: *mut Record,
        field: u32,
        form: u32,
        words: *const u32,
        words_len: usize,
        separator: *const u8,
        separator_len: usize,
    ) -> u32;

    /// ABSORB: takes elements in. Checks 7 and 8; then accepts length 0, which changes nothing; then checks 9, then 10.
    /// 9 wipes the record; 7, 8 and 10 leave it as it was.
    pub fn tuilarder_absorb(record: *mut Record, elements: *const u32, len: usize) -> u32;

    /// SQUEEZE: fills `out` with elements. Checks 7 and 8; then accepts length 0, which changes nothing; then checks 9.
    /// 9 wipes the record; 7 and 8 leave it as it was. Refused, it writes nothing to `out`.
    pub fn tuilarder_squeeze(record: *mut Record, out: *mut u32, len: usize) -> u32;

    /// FINISH: ends a session whose pattern is done. Checks 7, 8, 11. Accepted, or refused with 11, it wipes the record; 7 and 8 leave it
    /// as it was.
    pub fn tuilarder_finish(record: *mut Record) -> u32;

    /// One permutation of a field in place. Checks 18, then 10. Refused, it leaves the state as it was.
    pub fn tuilarder_permute(field: u32, state: *mut [u32; 24]) -> u32;

    /// The round constants of a field, made by the generator, with 0 in the places left, and how many they are. Checks 18. Refused, it gives
    /// 744 zeros and count 0.
    pub fn tuilarder_generate(field: u32, constants: *mut [u32; 744], count: *mut usize) -> u32;

    /// Writes a tag string of a form, from the start of `out` and only the string's bytes, and its length to `written`. Checks 22, 1, 2, 19, 3, 6
    /// and 12, in this order. Refused, it writes nothing to `out`, and 0 to `written`.
    pub fn tuilarder_write_tag(
        form: u32,
        words: *const u32,
        words_len: usize,
        separator: *const u8,
        separator_len: usize,
        out: *mut u8,
        out_len: usize,
        written: *mut usize,
    ) -> u32;

    /// Reads a tag string of a form back: its merged words, with unused ones 0, and how many they are; and of its separator where in the string it
    /// begins, and how many bytes it has. Checks 22, 6, then 13. In form 1 the separator is the string's last part, of the length given, which 6 is
    /// of. In form 2 the string's last four bytes say how long the separator before them is, and 6 is of that; the length given is ignored, and a
    /// string under four bytes gets 13. Refused, it gives 64 zero words, count 0, and as separator the empty part at the string's end. Merged words
    /// may be longer than a declared call: [`tuilarder_cut`] makes words of them that START takes.
    pub fn tuilarder_read_tag(
        form: u32,
        string: *const u8,
        len: usize,
        separator_len: usize,
        words: *mut [u32; 64],
        count: *mut usize,
        separator_start: *mut usize,
        separator_count: *mut usize,
    ) -> u32;

    /// Cuts words into calls that a pattern may declare, in order: a word longer than [`Pattern::MAX_CALL`](crate::Pattern::MAX_CALL) becomes
    /// calls of that length and any rest, of its kind; every other word stays, one of length 0 too. Gives the calls as words, with unused ones
    /// 0, and how many they are. They merge to what the words merge to. Checks 1, and that only of too many calls. Refused, it gives 64 zero
    /// words and count 0; where the words are those of a tag string, no pattern that START takes has it then. The list may have any length, and
    /// no words are no calls.
    pub fn tuilarder_cut(words: *const u32, words_len: usize, calls: *mut [u32; 64], count: *mut usize) -> u32;

    /// The SHA3-256 digest of a string of bytes. It turns nothing away.
    pub fn tuilarder_sha3_256(data: *const u8, len: usize, out: *mut [u8; 32]);

    /// Whether the rows of a table of owners are in rising order and hold every number of 32 bits exactly once. Checks 15, then 16. Writes to
    /// `place` the number of the first bad row, counted from 1, with 15; the least number that no row holds with 16; otherwise 0.
    pub fn tuilarder_check_owners(table: *const u8, len: usize, place: *mut u32) -> u32;

    /// The product line that owns a separator. Checks 15, 16, then 17; so each call looks at the whole table. Accepted, it writes the product line
    /// to `value`. Refused, `value` is no product line: with 15 and 16 it is what [`tuilarder_check_owners`] writes to `place`, and with 17 it is 0.
    pub fn tuilarder_owner(
        table: *const u8,
        table_len: usize,
        separator: *const u8,
        separator_len: usize,
        value: *mut u32,
    ) -> u32;

    /// Seals a note of so many blocks, whose elements `plain` has one behind the other: writes every cipher element and then the mark to `out`.
    /// Checks 18, 6, 20 and 10 (of key, nonce and `plain`), in this order. Refused, it writes nothing. [`Seal`](crate::Seal) says what a
    /// nonce that serves twice gives away.
    /// `out` overlaps nothing else, and no call is turned away for it. With `out` at `plain` the answer is 0, and each cipher element is twice the
    /// one squeezed for it: nothing of the note is left, and the list does not open. Where `out` begins further on inside `plain` the answer is 0,
    /// and another note is sealed. Where `out` lies over `lengths`, the process can end. [`Seal`](crate::Seal) rules it out by borrowing.
    pub fn tuilarder_seal(
        field: u32,
        key: *const u32,
        key_len: usize,
        nonce: *const u32,
        nonce_len: usize,
        separator: *const u8,
        separator_len: usize,
        lengths: *const u32,
        lengths_len: usize,
        plain: *const u32,
        plain_len: usize,
        out: *mut u32,
        out_len: usize,
    ) -> u32;

    /// Opens a note as sealing left it, cipher elements and mark: writes the plain blocks to `out`. Checks 18, 6, 20, 10 (of key, nonce and
    /// `cipher`, the mark too) and 21, in this order. With 21 it leaves zeros in all of `out`; refused with another number, it writes nothing.
    /// `out` overlaps nothing else. With `out` at `cipher` a good note gets 21, and its cipher elements are 0 then: the list cannot be opened again.
    /// Where `out` lies over `lengths`, a good note can get 21, or the process can end. [`Seal`](crate::Seal) rules it out by borrowing.
    pub fn tuilarder_open(
        field: u32,
        key: *const u32,
        key_len: usize,
        nonce: *const u32,
        nonce_len: usize,
        separator: *const u8,
        separator_len: usize,
        lengths: *const u32,
        lengths_len: usize,
        cipher: *const u32,
        cipher_len: usize,
        out: *mut u32,
        out_len: usize,
    ) -> u32;
}
