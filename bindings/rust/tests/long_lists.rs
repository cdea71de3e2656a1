//! Lists longer than 32 bits can count, by the functions of `ffi` and by the crate's types: up to 32 GiB of address space, of which hardly
//! a page is touched.

use std::ffi::{c_int, c_void};
use std::ops::{Deref, DerefMut};
use std::{ptr, slice};

use tuilarder::ffi::{self, Record};
use tuilarder::{Call, Field, Form, Owners, OwnersFault, Pattern, Protocol, Refusal, Seal, Session};

const LENGTH: usize = (1 << 32) + 5;

/// ABSORB 9, SQUEEZE 9.
const WORDS: [u32; 2] = [0x80000009, 0x00000009];

extern "C" {
    fn mmap(place: *mut c_void, size: usize, protection: c_int, flags: c_int, file: c_int, offset: i64) -> *mut c_void;
    fn munmap(place: *mut c_void, size: usize) -> c_int;
}

// Linux on x86-64
const PROT_READ_WRITE: c_int = 1 | 2;
const MAP_PRIVATE_ANONYMOUS_NORESERVE: c_int = 0x2 | 0x20 | 0x4000;

/// A list of zeros for which no memory is set aside, so that it may be longer than the machine has.
struct Zeros<T> {
    place: *mut T,
    length: usize,
}

impl<T> Zeros<T> {
    fn of(length: usize) -> Zeros<T> {
        let (protection, flags) = (PROT_READ_WRITE, MAP_PRIVATE_ANONYMOUS_NORESERVE);
        // SAFETY: the kernel picks a place that nothing else uses.
        let place = unsafe { mmap(ptr::null_mut(), length * size_of::<T>(), protection, flags, -1, 0) };
        assert_ne!(place as isize, -1, "no address space for {length} items");
        let place = place.cast();
        Zeros { place, length }
    }
}

impl<T> Deref for Zeros<T> {
    type Target = [T];
    fn deref(&self) -> &[T] {
        // SAFETY: so many items of zero bytes are there until this is dropped: integers, or calls (`zeros_are_calls`).
        unsafe { slice::from_raw_parts(self.place, self.length) }
    }
}

impl<T> DerefMut for Zeros<T> {
    fn deref_mut(&mut self) -> &mut [T] {
        // SAFETY: as in `deref`.
        unsafe { slice::from_raw_parts_mut(self.place, self.length) }
    }
}

impl<T> Drop for Zeros<T> {
    fn drop(&mut self) {
        // SAFETY: it is the whole of what was mapped, and nothing refers to it.
        unsafe { munmap(self.place.cast(), self.length * size_of::<T>()) };
    }
}

/// A session whose phase has room for five elements, but not for 2^32 and five.
fn open() -> Record {
    let mut record = Record::WIPED;
    // SAFETY: the pointers are to that many cells, and the lists are apart.
    assert_eq!(
        unsafe { ffi::tuilarder_start(&mut record, 1, 1, WORDS.as_ptr(), 2, [].as_ptr(), 0) },
        0
    );
    record
}

#[test]
fn absorb_of_more_than_32_bits_is_past_the_end() {
    let (elements, mut record) = (Zeros::<u32>::of(LENGTH), open());
    // SAFETY: the pointers are to that many cells, and the lists are apart.
    assert_eq!(
        unsafe { ffi::tuilarder_absorb(&mut record, elements.as_ptr(), LENGTH) },
        9
    );
    assert_eq!(record, Record::WIPED);
}

#[test]
fn squeeze_of_more_than_32_bits_is_past_the_end() {
    let (mut buffer, mut record) = (Zeros::<u32>::of(LENGTH), open());
    // SAFETY: the pointers are to that many cells, and the lists are apart.
    unsafe {
        assert_eq!(ffi::tuilarder_absorb(&mut record, [1; 9].as_ptr(), 9), 0);
        assert_eq!(ffi::tuilarder_squeeze(&mut record, buffer.as_mut_ptr(), LENGTH), 9);
    }
    assert_eq!(record, Record::WIPED);
    assert_eq!(buffer[..100], [0; 100]);
}

#[test]
fn pattern_of_more_than_32_bits_is_too_long() {
    let (mut words, mut record) = (Zeros::<u32>::of((1 << 32) + 2), open());
    words[..2].copy_from_slice(&WORDS);
    // SAFETY: the pointers are to that many cells, and the lists are apart.
    assert_eq!(
        unsafe { ffi::tuilarder_start(&mut record, 1, 2, words.as_ptr(), words.len(), [].as_ptr(), 0) },
        1
    );
    assert_eq!(record, Record::WIPED);
}

#[test]
fn separator_of_more_than_32_bits_is_too_long() {
    let (separator, mut record) = (Zeros::<u8>::of(LENGTH), open());
    // SAFETY: the pointers are to that many cells, and the lists are apart.
    assert_eq!(
        unsafe { ffi::tuilarder_start(&mut record, 1, 2, WORDS.as_ptr(), 2, separator.as_ptr(), LENGTH) },
        6
    );
    assert_eq!(record, Record::WIPED);
}

#[test]
fn buffer_of_more_than_32_bits_is_long_enough() {
    let (mut out, mut written) = (Zeros::<u8>::of(LENGTH), 0);
    // SAFETY: the pointers are to that many cells, and the lists are apart.
    let number = unsafe {
        ffi::tuilarder_write_tag(
            1,
            WORDS.as_ptr(),
            2,
            [].as_ptr(),
            0,
            out.as_mut_ptr(),
            LENGTH,
            &mut written,
        )
    };
    assert_eq!((number, written), (0, 8));
    assert_eq!(out[..10], [0x80, 0, 0, 9, 0, 0, 0, 9, 0, 0]);
}

/// The first eight bytes alone are a tag string of the form.
#[test]
fn string_of_more_than_32_bits_is_no_tag_string() {
    let mut string = Zeros::<u8>::of((1 << 32) + 8);
    for (form, last) in [(1, 9), (2, 0)] {
        string[..8].copy_from_slice(&[0x80, 0, 0, 9, 0, 0, 0, last]);
        let (mut words, mut count, mut start, mut length) = ([77; 64], 77, 77, 77);
        // SAFETY: the pointers are to that many cells, and the lists are apart.
        let number = unsafe {
            ffi::tuilarder_read_tag(
                form,
                string.as_ptr(),
                string.len(),
                0,
                &mut words,
                &mut count,
                &mut start,
                &mut length,
            )
        };
        assert_eq!((number, words, count), (13, [0; 64], 0));
        assert_eq!((start, length), (string.len(), 0));
    }
}

/// Zeros are words that stay, so that there are as many calls.
#[test]
fn words_of_more_than_32_bits_are_too_many_calls() {
    let (mut words, mut calls, mut count) = (Zeros::<u32>::of((1 << 32) + 2), [77; 64], 77);
    words[..2].copy_from_slice(&WORDS);
    // SAFETY: the pointers are to that many cells, and the lists are apart.
    let number = unsafe { ffi::tuilarder_cut(words.as_ptr(), words.len(), &mut calls, &mut count) };
    assert_eq!((number, calls, count), (1, [0; 64], 0));
}

/// One row that holds every number, of product line 7.
const WHOLE: [u8; 10] = [0, 0, 0, 0, 255, 255, 255, 255, 0, 7];

#[test]
fn table_of_more_than_32_bits_is_too_long() {
    let (mut table, mut place, mut value) = (Zeros::<u8>::of((1 << 32) + 10), 77, 77);
    table[..10].copy_from_slice(&WHOLE);
    // SAFETY: the pointers are to that many cells, and the lists are apart.
    unsafe {
        assert_eq!(ffi::tuilarder_check_owners(table.as_ptr(), table.len(), &mut place), 15);
        assert_eq!(
            ffi::tuilarder_owner(table.as_ptr(), table.len(), [1; 4].as_ptr(), 4, &mut value),
            15
        );
    }
    assert_eq!((place, value), (2, 2));
}

#[test]
fn separator_of_more_than_32_bits_is_asked_about() {
    let (separator, mut value) = (Zeros::<u8>::of((1 << 32) + 3), 77);
    // SAFETY: the pointers are to that many cells, and the lists are apart.
    let number = unsafe { ffi::tuilarder_owner(WHOLE.as_ptr(), 10, separator.as_ptr(), separator.len(), &mut value) };
    assert_eq!((number, value), (0, 7));
}

/// What is lent to sealing and opening alike.
#[derive(Clone, Copy)]
struct Lists<'a> {
    key: &'a [u32],
    nonce: &'a [u32],
    separator: &'a [u8],
    lengths: &'a [u32],
}

/// Of a note with blocks of 1 and 2 elements.
const LISTS: Lists = Lists {
    key: &[1; 8],
    nonce: &[2; 8],
    separator: b"note",
    lengths: &[1, 2],
};

type OfNotes = unsafe extern "C" fn(
    u32,
    *const u32,
    usize,
    *const u32,
    usize,
    *const u8,
    usize,
    *const u32,
    usize,
    *const u32,
    usize,
    *mut u32,
    usize,
) -> u32;

impl Lists<'_> {
    /// The number that a function gives.
    fn number(&self, function: OfNotes, text: &[u32], out: &mut [u32]) -> u32 {
        // SAFETY: the pointers are to that many cells, and the lists are apart.
        unsafe {
            function(
                1,
                self.key.as_ptr(),
                self.key.len(),
                self.nonce.as_ptr(),
                self.nonce.len(),
                self.separator.as_ptr(),
                self.separator.len(),
                self.lengths.as_ptr(),
                self.lengths.len(),
                text.as_ptr(),
                text.len(),
                out.as_mut_ptr(),
                out.len(),
            )
        }
    }

    /// The number that sealing and opening both give, which leave the buffer.
    fn refused(&self) -> u32 {
        let (mut sealed, mut opened) = ([7; 11], [7; 3]);
        let number = self.number(ffi::tuilarder_seal, &[3; 3], &mut sealed);
        assert_eq!(number, self.number(ffi::tuilarder_open, &[3; 11], &mut opened));
        assert_eq!((sealed, opened), ([7; 11], [7; 3]));
        number
    }
}

/// How many numbers 32 bits count: so much longer than needed is each list, alone.
const MORE: usize = 1 << 32;

#[test]
fn lists_of_a_note_of_more_than_32_bits_are_of_another_length() {
    let (elements, bytes, mut lengths) = (
        Zeros::<u32>::of(MORE + 8),
        Zeros::<u8>::of(MORE + 4),
        Zeros::<u32>::of(MORE + 2),
    );
    let (mut with_key, mut with_nonce, mut with_separator, mut with_lengths) = (LISTS, LISTS, LISTS, LISTS);
    lengths[..2].copy_from_slice(&[1, 2]);
    with_key.key = &elements;
    with_nonce.nonce = &elements;
    with_separator.separator = &bytes;
    with_lengths.lengths = &lengths;
    assert_eq!((with_key.refused(), with_nonce.refused()), (20, 20));
    assert_eq!((with_separator.refused(), with_lengths.refused()), (6, 20));
}

#[test]
fn texts_and_buffers_of_more_than_32_bits_are_of_another_length() {
    let (mut short, mut long) = (Zeros::<u32>::of(MORE + 3), Zeros::<u32>::of(MORE + 11));
    assert_eq!(LISTS.number(ffi::tuilarder_seal, &short, &mut [7; 11]), 20);
    assert_eq!(LISTS.number(ffi::tuilarder_open, &long, &mut [7; 3]), 20);
    assert_eq!(LISTS.number(ffi::tuilarder_seal, &[3; 3], &mut long), 20);
    assert_eq!(LISTS.number(ffi::tuilarder_open, &[3; 11], &mut short), 20);
    assert_eq!((&short[..12], &long[..12]), (&[0; 12][..], &[0; 12][..]));
}

/// 10, of the nonce, shows that a length was accepted, and spares the sealing.
#[test]
fn a_block_has_16777216_elements_at_most() {
    for (length, number) in [(16_777_216_usize, 10), (16_777_217, 20)] {
        let mut lists = LISTS;
        let lengths = [length as u32];
        (lists.nonce, lists.lengths) = (&[u32::MAX; 8], &lengths);
        let (text, mut out) = (Zeros::<u32>::of(length + 8), Zeros::<u32>::of(length + 8));
        assert_eq!(lists.number(ffi::tuilarder_seal, &text[..length], &mut out), number);
        assert_eq!(lists.number(ffi::tuilarder_open, &text, &mut out[..length]), number);
    }
}

// By the types

fn pattern() -> Pattern {
    Pattern::from_words(&WORDS).unwrap()
}

fn session() -> Session {
    Protocol::new(Field::BabyBear, &pattern(), &[]).unwrap().start()
}

#[test]
fn types_refuse_an_absorb_of_more_than_32_bits() {
    let (elements, mut session) = (Zeros::<u32>::of(LENGTH), session());
    assert_eq!(session.absorb(&elements), Err(Refusal::CallNotInPattern));
    assert_eq!(*session.record(), Record::WIPED);
}

#[test]
fn types_refuse_a_squeeze_of_more_than_32_bits() {
    let (mut buffer, mut session) = (Zeros::<u32>::of(LENGTH), session());
    session.absorb(&[1; 9]).unwrap();
    assert_eq!(session.squeeze(&mut buffer), Err(Refusal::CallNotInPattern));
    assert_eq!(*session.record(), Record::WIPED);
    assert_eq!(buffer[..100], [0; 100]);
}

#[test]
fn types_refuse_a_pattern_of_more_than_32_bits() {
    let mut words = Zeros::<u32>::of((1 << 32) + 2);
    words[..2].copy_from_slice(&WORDS);
    assert_eq!(Pattern::from_words(&words), Err(Refusal::WordCountOutOfRange));
}

/// That zero bytes are a call, as a list of them has it.
fn zeros_are_calls() {
    assert_eq!(size_of::<Call>(), 8);
    // SAFETY: eight bytes for eight, and a call has no padding between two numbers of four bytes.
    let bytes: [u8; 8] = unsafe { std::mem::transmute(Call::Absorb(0)) };
    assert_eq!(bytes, [0; 8]);
}

#[test]
fn types_refuse_more_calls_than_32_bits() {
    zeros_are_calls();
    let mut calls = Zeros::<Call>::of((1 << 32) + 2);
    calls[..2].copy_from_slice(&[Call::Absorb(9), Call::Squeeze(9)]);
    assert_eq!(Pattern::new(&calls), Err(Refusal::WordCountOutOfRange));
}

#[test]
fn types_refuse_a_separator_of_more_than_32_bits() {
    let separator = Zeros::<u8>::of(LENGTH);
    let refused = Protocol::new(Field::BabyBear, &pattern(), &separator).map(drop);
    assert_eq!(refused, Err(Refusal::SeparatorTooLong));
    let mut buffer = [7; 600];
    assert_eq!(
        pattern().tag_string(&separator, &mut buffer),
        Err(Refusal::SeparatorTooLong)
    );
    assert_eq!(buffer, [7; 600]);
}

#[test]
fn types_write_to_a_buffer_of_more_than_32_bits() {
    let mut out = Zeros::<u8>::of(LENGTH);
    let string = [0x80, 0, 0, 9, 0, 0, 0, 9];
    assert_eq!(pattern().tag_string(&[], &mut out), Ok(&string[..]));
    assert_eq!((&out[..8], &out[8..10]), (&string[..], &[0, 0][..]));
    let written = pattern().tag_string_with_form(Form::Two, &[7], &mut out);
    assert_eq!(written, Ok(&[0x80, 0, 0, 9, 0, 0, 0, 9, 7, 0, 0, 0, 1][..]));
}

#[test]
fn types_read_no_string_of_more_than_32_bits() {
    let mut string = Zeros::<u8>::of((1 << 32) + 8);
    string[..8].copy_from_slice(&[0x80, 0, 0, 9, 0, 0, 0, 9]);
    assert_eq!(Pattern::read(&string, 0), Err(Refusal::NotTagString));
    string[7] = 0;
    assert_eq!(Pattern::read_form_2(&string), Err(Refusal::NotTagString));
}

#[test]
fn types_refuse_a_table_of_more_than_32_bits() {
    let mut table = Zeros::<u8>::of((1 << 32) + 10);
    table[..10].copy_from_slice(&WHOLE);
    // a failure would print the table
    assert_eq!(Owners::new(&table).map(drop), Err(OwnersFault::Row(2)));
}

#[test]
fn types_ask_about_a_separator_of_more_than_32_bits() {
    let separator = Zeros::<u8>::of((1 << 32) + 3);
    assert_eq!(Owners::new(&WHOLE).unwrap().owner(&separator), Ok(7));
}

const SEAL: Seal = Seal {
    field: Field::BabyBear,
    key: &[1; 8],
    nonce: &[2; 8],
    separator: b"note",
    lengths: &[1, 2],
};

/// That sealing and opening are both refused so, and leave the buffer.
fn assert_refused(seal: &Seal, refusal: Refusal) {
    let (mut sealed, mut opened) = ([7; 11], [7; 3]);
    assert_eq!(seal.seal(&[3; 3], &mut sealed), Err(refusal));
    assert_eq!(seal.open(&[3; 11], &mut opened), Err(refusal));
    assert_eq!((sealed, opened), ([7; 11], [7; 3]));
}

#[test]
fn types_refuse_lists_of_a_note_of_more_than_32_bits() {
    let (separator, mut lengths) = (Zeros::<u8>::of(MORE + 4), Zeros::<u32>::of(MORE + 2));
    lengths[..2].copy_from_slice(&[1, 2]);
    let (mut with_separator, mut with_lengths) = (SEAL, SEAL);
    with_separator.separator = &separator;
    with_lengths.lengths = &lengths;
    assert_refused(&with_separator, Refusal::SeparatorTooLong);
    assert_refused(&with_lengths, Refusal::SealLengthInvalid);
}

#[test]
fn types_refuse_texts_and_buffers_of_more_than_32_bits() {
    let (mut short, mut long) = (Zeros::<u32>::of(MORE + 3), Zeros::<u32>::of(MORE + 11));
    assert_eq!(SEAL.seal(&short, &mut [7; 11]), Err(Refusal::SealLengthInvalid));
    assert_eq!(SEAL.open(&long, &mut [7; 3]), Err(Refusal::SealLengthInvalid));
    assert_eq!(SEAL.seal(&[3; 3], &mut long), Err(Refusal::SealLengthInvalid));
    assert_eq!(SEAL.open(&[3; 11], &mut short), Err(Refusal::SealLengthInvalid));
    assert_eq!((&short[..12], &long[..12]), (&[0; 12][..], &[0; 12][..]));
}

/// 10, of the key, shows that a length was accepted, and spares the sealing.
#[test]
fn types_refuse_a_block_of_more_than_16777216_elements() {
    for (length, refusal) in [
        (16_777_216_usize, Refusal::ElementNotReduced),
        (16_777_217, Refusal::SealLengthInvalid),
    ] {
        let (mut seal, lengths) = (SEAL, [length as u32]);
        (seal.key, seal.lengths) = (&[u32::MAX; 8], &lengths);
        let (text, mut out) = (Zeros::<u32>::of(length + 8), Zeros::<u32>::of(length + 8));
        assert_eq!(seal.seal(&text[..length], &mut out), Err(refusal));
        assert_eq!(seal.open(&text, &mut out[..length]), Err(refusal));
    }
}
