//! The library's calls with all that is lent to them between guards: cells with random contents, which have to be after
//! the call as they were before it. A list that is only read has to be as it was too.

// Each program that takes this file in uses only a part of it.
#![allow(dead_code)]

use crate::independent::SealInputs;
use std::fmt::Debug;
use tuilarder::ffi::{self, Record};

/// SplitMix64 of Steele, Lea and Flood, "Fast splittable pseudorandom number generators" (2014).
#[derive(Clone, Debug)]
pub struct Random(u64);

impl Random {
    pub fn new(seed: u64) -> Random {
        Random(seed)
    }

    pub fn next(&mut self) -> u64 {
        self.0 = self.0.wrapping_add(0x9e3779b97f4a7c15);
        let z = (self.0 ^ (self.0 >> 30)).wrapping_mul(0xbf58476d1ce4e5b9);
        let z = (z ^ (z >> 27)).wrapping_mul(0x94d049bb133111eb);
        z ^ (z >> 31)
    }

    /// From 0 to `limit` − 1.
    pub fn below(&mut self, limit: u64) -> u64 {
        self.next() % limit
    }

    /// True once in so many times.
    pub fn once_in(&mut self, times: u64) -> bool {
        self.below(times) == 0
    }

    pub fn pick<T: Copy>(&mut self, choices: &[T]) -> T {
        choices[self.below(choices.len() as u64) as usize]
    }

    pub fn list<T: Any>(&mut self, len: usize) -> Vec<T> {
        (0..len).map(|_| T::any(self)).collect()
    }
}

/// Any contents at all.
pub trait Any {
    fn any(random: &mut Random) -> Self;
}

impl Any for u8 {
    fn any(random: &mut Random) -> u8 {
        random.next() as u8
    }
}

impl Any for u16 {
    fn any(random: &mut Random) -> u16 {
        random.next() as u16
    }
}

impl Any for u32 {
    fn any(random: &mut Random) -> u32 {
        random.next() as u32
    }
}

impl Any for u64 {
    fn any(random: &mut Random) -> u64 {
        random.next()
    }
}

impl Any for usize {
    fn any(random: &mut Random) -> usize {
        random.next() as usize
    }
}

impl<T: Any, const N: usize> Any for [T; N] {
    fn any(random: &mut Random) -> [T; N] {
        std::array::from_fn(|_| T::any(random))
    }
}

impl Any for Record {
    fn any(random: &mut Random) -> Record {
        Record {
            status: Any::any(random),
            field: Any::any(random),
            form: Any::any(random),
            state: Any::any(random),
            words: Any::any(random),
            count: Any::any(random),
            phase: Any::any(random),
            done: Any::any(random),
            absorb_position: Any::any(random),
            squeeze_position: Any::any(random),
            permutations: Any::any(random),
        }
    }
}

/// A list lent to the library, between two guards of 1 to 4 cells.
pub struct Lent<T> {
    before: Vec<T>,
    cells: Vec<T>,
    front: usize,
    len: usize,
}

impl<T: Any + Copy + PartialEq + Debug> Lent<T> {
    pub fn new(contents: &[T], random: &mut Random) -> Lent<T> {
        let front = 1 + random.below(4) as usize;
        let back = 1 + random.below(4) as usize;
        let mut before = random.list(front);
        before.extend(contents);
        before.extend(random.list::<T>(back));
        Lent {
            cells: before.clone(),
            before,
            front,
            len: contents.len(),
        }
    }

    fn pointer(&mut self) -> *mut T {
        self.cells.as_mut_ptr().wrapping_add(self.front)
    }

    /// The contents, for a call that may only read.
    pub fn part(&self) -> &[T] {
        &self.cells[self.front..self.front + self.len]
    }

    /// The contents, for a call that may write.
    pub fn part_mut(&mut self) -> &mut [T] {
        &mut self.cells[self.front..self.front + self.len]
    }

    /// The contents after the call.
    pub fn returned(&self) -> &[T] {
        let end = self.front + self.len;
        assert_eq!(
            self.cells[..self.front],
            self.before[..self.front],
            "cells before the lent ones were written"
        );
        assert_eq!(
            self.cells[end..],
            self.before[end..],
            "cells after the lent ones were written"
        );
        &self.cells[self.front..end]
    }

    /// After a call that may only read.
    pub fn only_read(&self) {
        assert_eq!(self.cells, self.before, "a list that may only be read was written");
    }
}

pub fn start(random: &mut Random, record: &mut Record, field: u32, form: u32, words: &[u32], separator: &[u8]) -> u32 {
    let mut lent = Lent::new(&[*record], random);
    let (mut words, mut separator) = (Lent::new(words, random), Lent::new(separator, random));
    // SAFETY: the pointers are to that many cells, and the lists are apart.
    let number = unsafe {
        ffi::tuilarder_start(
            lent.pointer(),
            field,
            form,
            words.pointer(),
            words.len,
            separator.pointer(),
            separator.len,
        )
    };
    words.only_read();
    separator.only_read();
    *record = lent.returned()[0];
    number
}

pub fn absorb(random: &mut Random, record: &mut Record, elements: &[u32]) -> u32 {
    let (mut lent, mut elements) = (Lent::new(&[*record], random), Lent::new(elements, random));
    // SAFETY: the pointers are to that many cells, and the lists are apart.
    let number = unsafe { ffi::tuilarder_absorb(lent.pointer(), elements.pointer(), elements.len) };
    elements.only_read();
    *record = lent.returned()[0];
    number
}

pub fn squeeze(random: &mut Random, record: &mut Record, buffer: &mut [u32]) -> u32 {
    let (mut lent, mut out) = (Lent::new(&[*record], random), Lent::new(buffer, random));
    // SAFETY: the pointers are to that many cells, and the lists are apart.
    let number = unsafe { ffi::tuilarder_squeeze(lent.pointer(), out.pointer(), out.len) };
    buffer.copy_from_slice(out.returned());
    *record = lent.returned()[0];
    number
}

pub fn finish(random: &mut Random, record: &mut Record) -> u32 {
    let mut lent = Lent::new(&[*record], random);
    // SAFETY: the pointer is to a record.
    let number = unsafe { ffi::tuilarder_finish(lent.pointer()) };
    *record = lent.returned()[0];
    number
}

pub fn permute(random: &mut Random, field: u32, state: &mut [u32; 24]) -> u32 {
    let mut lent = Lent::new(&[*state], random);
    // SAFETY: the pointer is to a state.
    let number = unsafe { ffi::tuilarder_permute(field, lent.pointer()) };
    *state = lent.returned()[0];
    number
}

/// The number, the places and how many constants were found.
pub fn generate(random: &mut Random, field: u32) -> (u32, [u32; 744], usize) {
    let (mut places, mut count) = (
        Lent::new(&[<[u32; 744]>::any(random)], random),
        Lent::new(&[usize::any(random)], random),
    );
    // SAFETY: the pointers are to that many cells, and the lists are apart.
    let number = unsafe { ffi::tuilarder_generate(field, places.pointer(), count.pointer()) };
    (number, places.returned()[0], count.returned()[0])
}

/// The number, and what the library says was written.
pub fn write_tag(random: &mut Random, form: u32, words: &[u32], separator: &[u8], out: &mut [u8]) -> (u32, usize) {
    let (mut words, mut separator) = (Lent::new(words, random), Lent::new(separator, random));
    let (mut lent, mut written) = (Lent::new(out, random), Lent::new(&[usize::any(random)], random));
    // SAFETY: the pointers are to that many cells, and the lists are apart.
    let number = unsafe {
        ffi::tuilarder_write_tag(
            form,
            words.pointer(),
            words.len,
            separator.pointer(),
            separator.len,
            lent.pointer(),
            lent.len,
            written.pointer(),
        )
    };
    words.only_read();
    separator.only_read();
    out.copy_from_slice(lent.returned());
    (number, written.returned()[0])
}

/// What reading gives: the number, the words and their count, and of the separator where in the string it begins, and its length.
#[derive(Clone, Debug, PartialEq, Eq)]
pub struct ReadTag {
    pub number: u32,
    pub words: [u32; 64],
    pub count: usize,
    pub separator_start: usize,
    pub separator_count: usize,
}

pub fn read_tag(random: &mut Random, form: u32, string: &[u8], separator_length: usize) -> ReadTag {
    let mut string = Lent::new(string, random);
    let mut words = Lent::new(&[<[u32; 64]>::any(random)], random);
    let [mut count, mut separator_start, mut separator_count] =
        [(); 3].map(|()| Lent::new(&[usize::any(random)], random));
    // SAFETY: the pointers are to that many cells, and the lists are apart.
    let number = unsafe {
        ffi::tuilarder_read_tag(
            form,
            string.pointer(),
            string.len,
            separator_length,
            words.pointer(),
            count.pointer(),
            separator_start.pointer(),
            separator_count.pointer(),
        )
    };
    string.only_read();
    ReadTag {
        number,
        words: words.returned()[0],
        count: count.returned()[0],
        separator_start: separator_start.returned()[0],
        separator_count: separator_count.returned()[0],
    }
}

/// The number, the calls and their count.
pub fn cut(random: &mut Random, words: &[u32]) -> (u32, [u32; 64], usize) {
    let mut words = Lent::new(words, random);
    let (mut calls, mut count) = (
        Lent::new(&[<[u32; 64]>::any(random)], random),
        Lent::new(&[usize::any(random)], random),
    );
    // SAFETY: the pointers are to that many cells, and the lists are apart.
    let number = unsafe { ffi::tuilarder_cut(words.pointer(), words.len, calls.pointer(), count.pointer()) };
    words.only_read();
    (number, calls.returned()[0], count.returned()[0])
}

pub fn sha3_256(random: &mut Random, data: &[u8]) -> [u8; 32] {
    let (mut data, mut out) = (Lent::new(data, random), Lent::new(&[<[u8; 32]>::any(random)], random));
    // SAFETY: the pointers are to that many cells, and the lists are apart.
    unsafe { ffi::tuilarder_sha3_256(data.pointer(), data.len, out.pointer()) };
    data.only_read();
    out.returned()[0]
}

/// The number, and what the library says of the place.
pub fn check_owners(random: &mut Random, table: &[u8]) -> (u32, u32) {
    let (mut table, mut place) = (Lent::new(table, random), Lent::new(&[u32::any(random)], random));
    // SAFETY: the pointers are to that many cells, and the lists are apart.
    let number = unsafe { ffi::tuilarder_check_owners(table.pointer(), table.len, place.pointer()) };
    table.only_read();
    (number, place.returned()[0])
}

/// The number, and the value that comes with it.
pub fn owner(random: &mut Random, table: &[u8], separator: &[u8]) -> (u32, u32) {
    let (mut table, mut separator) = (Lent::new(table, random), Lent::new(separator, random));
    let mut value = Lent::new(&[u32::any(random)], random);
    // SAFETY: the pointers are to that many cells, and the lists are apart.
    let number = unsafe {
        ffi::tuilarder_owner(
            table.pointer(),
            table.len,
            separator.pointer(),
            separator.len,
            value.pointer(),
        )
    };
    table.only_read();
    separator.only_read();
    (number, value.returned()[0])
}

/// Sealing or opening: field, key, nonce, separator, lengths, text and buffer, each list with its length.
type OfNotes = unsafe extern "C" fn(
    u32,
    *const u32,
    usize,
    *const u32,
    usize,
    *const u8,
    usize,
    *const u32,
    usize,
    *const u32,
    usize,
    *mut u32,
    usize,
) -> u32;

fn note(function: OfNotes, random: &mut Random, inputs: &SealInputs, text: &[u32], out: &mut [u32]) -> u32 {
    let [mut key, mut nonce, mut lengths, mut text, mut lent] =
        [inputs.key, inputs.nonce, inputs.lengths, text, out].map(|list| Lent::new(list, random));
    let mut separator = Lent::new(inputs.separator, random);
    // SAFETY: the pointers are to that many cells, and the lists are apart.
    let number = unsafe {
        function(
            inputs.field,
            key.pointer(),
            key.len,
            nonce.pointer(),
            nonce.len,
            separator.pointer(),
            separator.len,
            lengths.pointer(),
            lengths.len,
            text.pointer(),
            text.len,
            lent.pointer(),
            lent.len,
        )
    };
    [key, nonce, lengths, text].iter().for_each(Lent::only_read);
    separator.only_read();
    out.copy_from_slice(lent.returned());
    number
}

pub fn seal(random: &mut Random, inputs: &SealInputs, plain: &[u32], out: &mut [u32]) -> u32 {
    note(ffi::tuilarder_seal, random, inputs, plain, out)
}

pub fn open(random: &mut Random, inputs: &SealInputs, sealed: &[u32], out: &mut [u32]) -> u32 {
    note(ffi::tuilarder_open, random, inputs, sealed, out)
}
