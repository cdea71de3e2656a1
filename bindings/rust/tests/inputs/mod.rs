//! Random inputs, most of them good and others damaged: patterns, separators, fields, forms, elements, calls, records, strings, tables of owners and
//! notes.

// Each program that takes this file in uses only a part of it.
#![allow(dead_code)]

use crate::guarded::{Any, Random};
use crate::independent::{self, length, SealInputs, ABSORB, LONGEST, LONGEST_CALL, MOST_WORDS, P_1, P_2};
use std::collections::BTreeSet;
use tuilarder::ffi::Record;

// Patterns and separators

/// A length of 31 bits, as words of records and tag strings have: often one about a multiple of the longest call.
pub fn any_length(random: &mut Random) -> u32 {
    match random.below(8) {
        0 => LONGEST - random.below(20) as u32,
        1 => 1 + random.below(u64::from(LONGEST)) as u32,
        2 => random.pick(&[1, 1, 2, 3, 64, 127]) * LONGEST_CALL - 1 + random.below(3) as u32,
        _ => declared_length(random),
    }
}

/// A length that a declared call may have, often the longest or one just below it.
pub fn declared_length(random: &mut Random) -> u32 {
    match random.below(8) {
        0 => 1,
        1 => random.pick(&[7, 8, 9, 16, 17, 24]),
        2 => LONGEST_CALL,
        3 => LONGEST_CALL - random.below(20) as u32,
        4 => 1 + random.below(u64::from(LONGEST_CALL)) as u32,
        _ => short_length(random),
    }
}

pub fn short_length(random: &mut Random) -> u32 {
    1 + random.below(20) as u32
}

/// So many words that alternate from ABSORB: the last is of either kind.
pub fn merged_words(random: &mut Random, count: usize, length: fn(&mut Random) -> u32) -> Vec<u32> {
    (0..count)
        .map(|k| length(random) + if k % 2 == 0 { ABSORB } else { 0 })
        .collect()
}

/// Words that alternate from ABSORB, for which it takes 64 calls, or one or two fewer or more: merged lengths add up to some 64 times the longest
/// call.
pub fn words_of_about_64_calls(random: &mut Random) -> Vec<u32> {
    let mut calls = vec![1; phases(random)];
    for _ in calls.len()..random.pick(&[62, 63, 64, 64, 64, 65, 65, 66]) {
        let k = random.below(calls.len() as u64) as usize;
        calls[k] += 1;
    }
    let of_calls = |(k, calls): (usize, u32)| {
        let any = random.below(u64::from(LONGEST_CALL)) as u32;
        let less = random.pick(&[0, 0, 1, LONGEST_CALL - 1, any]);
        calls * LONGEST_CALL - less + if k % 2 == 0 { ABSORB } else { 0 }
    };
    calls.into_iter().enumerate().map(of_calls).collect()
}

/// How many words a merged pattern has.
pub fn phases(random: &mut Random) -> usize {
    random.pick(&[1, 1, 2, 2, 2, 3, 3, 4, 4, 5, 6, 7, 8, 16, 61, 62, 63, 63, 64, 64])
}

/// The words with some of them split in two, up to 64 in all, which merge to the same.
pub fn split_words(random: &mut Random, merged: &[u32]) -> Vec<u32> {
    let mut words = merged.to_vec();
    for _ in 0..random.below(8) {
        let k = random.below(words.len() as u64) as usize;
        if words.len() < MOST_WORDS && length(words[k]) > 1 {
            let first = 1 + random.below(u64::from(length(words[k])) - 1) as u32;
            words.insert(k, words[k] & ABSORB | first);
            words[k + 1] -= first;
        }
    }
    words
}

/// A pattern that is accepted. Merged, some of its words are longer than a call.
pub fn good_pattern(random: &mut Random) -> Vec<u32> {
    let (number, calls, count) = independent::cut(&words_of_about_64_calls(random));
    if number == 0 && random.once_in(4) {
        return split_words(random, &calls[..count]);
    }
    let count = phases(random);
    let merged = merged_words(random, count, declared_length);
    let mut words = split_words(random, &merged);
    for _ in 0..random.below(6) {
        let k = random.below(words.len() as u64) as usize;
        if words.len() < MOST_WORDS {
            words.insert(k, words[k] & ABSORB | declared_length(random));
        }
    }
    words
}

fn damage_pattern(random: &mut Random, words: &mut Vec<u32>) {
    if words.is_empty() {
        return words.extend(random.list::<u32>(2));
    }
    let last = words.len() - 1;
    let k = random.below(words.len() as u64) as usize;
    match random.below(10) {
        0 => words[k] &= ABSORB,
        1 => words[0] ^= ABSORB,
        2 => words[last] ^= ABSORB,
        3 => words[k] = words[k] & ABSORB | (LONGEST_CALL + random.pick(&[0, 1, 1, 2])),
        4 => words[k] = words[k] & ABSORB | any_length(random),
        5 => words[k] = u32::any(random),
        6 => {
            *words = words
                .repeat(66)
                .split_off(66 * (last + 1) - random.pick(&[0, 1, 2, 63, 64, 65, 66]))
        }
        7 => {
            let size = random.pick(&[1, 2, 3, 63, 64, 65, 66, 200]);
            *words = random.list(size);
        }
        8 => drop(words.remove(k)),
        _ => words.insert(k, words[k]),
    }
}

/// Any pattern: most of them good, others damaged in one or several ways.
pub fn any_pattern(random: &mut Random) -> Vec<u32> {
    let mut words = good_pattern(random);
    for _ in 0..random.pick(&[0, 0, 0, 1, 1, 2, 3]) {
        damage_pattern(random, &mut words);
    }
    words
}

/// Any list of words: patterns, words that are merged and long, and others, empty ones too.
pub fn any_words(random: &mut Random) -> Vec<u32> {
    match random.below(4) {
        0 => any_pattern(random),
        1 => words_of_about_64_calls(random),
        2 => {
            let count = phases(random);
            merged_words(random, count, any_length)
        }
        _ => {
            let lengths: fn(&mut Random) -> u32 = random.pick(&[any_length, declared_length]);
            let size = random.pick(&[0, 1, 2, 3, 5, 62, 63, 64, 65, 66, 1000]);
            let length = |random: &mut Random| if random.once_in(4) { 0 } else { lengths(random) };
            (0..size).map(|_| u32::any(random) & ABSORB | length(random)).collect()
        }
    }
}

pub fn any_separator(random: &mut Random) -> Vec<u8> {
    let size = match random.below(4) {
        0 => random.pick(&[0, 0, 1, 2, 4, 255, 256]),
        1 => random.pick(&[0, 255, 256, 257]),
        _ => random.below(301) as usize,
    };
    random.list(size)
}

pub fn good_separator(random: &mut Random) -> Vec<u8> {
    let size = random.pick(&[0, 1, 8, 255, 256]);
    random.list(size)
}

// Fields

/// Numbers that no field has, some with the low bits of one that has.
pub const UNKNOWN_FIELDS: [u32; 10] = [0, 3, 4, 257, 258, 65538, ABSORB, ABSORB + 1, ABSORB + 2, u32::MAX];

pub fn known_field(random: &mut Random) -> u32 {
    random.pick(&[1, 2])
}

/// The number of a field, at times of none.
pub fn any_field(random: &mut Random) -> u32 {
    match random.below(8) {
        0 => random.pick(&UNKNOWN_FIELDS),
        _ => known_field(random),
    }
}

// Forms

/// Numbers that no form has: the forms have the numbers that the fields have.
pub const UNKNOWN_FORMS: [u32; 10] = UNKNOWN_FIELDS;

pub fn known_form(random: &mut Random) -> u32 {
    random.pick(&[1, 2])
}

/// The number of a form, at times of none.
pub fn any_form(random: &mut Random) -> u32 {
    match random.below(8) {
        0 => random.pick(&UNKNOWN_FORMS),
        _ => known_form(random),
    }
}

/// The prime of a field; of a number that no field has, any of them.
fn prime(random: &mut Random, field: u32) -> u32 {
    independent::named(field).map_or_else(|| random.pick(&[P_1, P_2]), |field| field.p)
}

/// A number that is an element of field 2 and not of field 1.
pub fn between_the_primes(random: &mut Random) -> u32 {
    let any = P_1 + random.below(u64::from(P_2 - P_1)) as u32;
    random.pick(&[P_1, P_1 + 1, P_2 - 1, any, any])
}

// Elements and calls

#[derive(Clone, Debug)]
pub enum Call {
    /// Field, form, words and separator.
    Start(u32, u32, Vec<u32>, Vec<u8>),
    Absorb(Vec<u32>),
    Squeeze(Vec<u32>),
    Finish,
}

/// An element of a field; of field 2, often one that field 1 does not have.
pub fn good_element(random: &mut Random, field: u32) -> u32 {
    let p = prime(random, field);
    match random.below(8) {
        0 => 0,
        1 => 1,
        2 => p - 1,
        3 | 4 if p == P_2 => between_the_primes(random),
        _ => random.below(u64::from(p)) as u32,
    }
}

/// No element of a field; of field 1, often one of field 2.
pub fn bad_element(random: &mut Random, field: u32) -> u32 {
    let p = prime(random, field);
    if p == P_1 && random.once_in(2) {
        return between_the_primes(random);
    }
    let any = p + random.below((1 << 32) - u64::from(p)) as u32;
    random.pick(&[p, p + 1, u32::MAX, ABSORB, any])
}

/// Elements to absorb, at times with one or several of p or more.
pub fn elements(random: &mut Random, field: u32, size: usize) -> Vec<u32> {
    let mut list: Vec<u32> = (0..size).map(|_| good_element(random, field)).collect();
    if size > 0 && random.once_in(10) {
        for _ in 0..random.pick(&[1, 1, 1, 2, 20]) {
            list[random.below(size as u64) as usize] = bad_element(random, field);
        }
    }
    list
}

pub fn call_of(random: &mut Random, field: u32, absorbing: bool, size: usize) -> Call {
    if absorbing {
        Call::Absorb(elements(random, field, size))
    } else {
        Call::Squeeze(random.list(size))
    }
}

/// Of the phase where a record is: whether it absorbs, and how many elements are left. None where there is no phase.
pub fn phase_of(record: &Record) -> Option<(bool, u32)> {
    let word = record.words.get(record.phase as usize)?;
    let left = length(*word).saturating_sub(record.done);
    (record.phase < record.count && left > 0).then_some((word & ABSORB != 0, left))
}

/// A call that the phase has room for.
pub fn fitting_call(random: &mut Random, field: u32, absorbing: bool, left: u32) -> Call {
    let most = left.min(40);
    let any = random.below(u64::from(most) + 1) as u32;
    let size = random
        .pick(&[0, 1, 7, 8, 9, 16, most, most, most, any, any, any])
        .min(most);
    call_of(random, field, absorbing, size as usize)
}

/// Any call: of the wrong kind, one past the phase's end, of any length, or FINISH.
pub fn any_call(random: &mut Random, record: &Record) -> Call {
    let (absorbing, left) = phase_of(record).unwrap_or((random.once_in(2), 3));
    let size = random.pick(&[0, 1, 7, 8, 9, 16, left.min(100) as usize]);
    match random.below(5) {
        0 => Call::Finish,
        1 => call_of(random, record.field, !absorbing, size),
        2 => call_of(random, record.field, absorbing, left.min(100) as usize + 1),
        3 => call_of(random, record.field, absorbing, size),
        _ => fitting_call(random, record.field, absorbing, left),
    }
}

/// A call that goes on with the session, or, once in so many times and on a closed record, any.
pub fn next_call(random: &mut Random, record: &Record, any_once_in: u64) -> Call {
    if record.status != 1 || random.once_in(any_once_in) {
        return any_call(random, record);
    }
    match phase_of(record) {
        Some((absorbing, left)) => fitting_call(random, record.field, absorbing, left),
        None => Call::Finish,
    }
}

// Records

/// A record with any state of a field at a place of a word list, with the positions and the count that the steps give there.
pub fn record_at(random: &mut Random, field: u32, form: u32, words: &[u32], phase: usize, done: u32) -> Record {
    let place = independent::place(words, phase, done);
    Record {
        status: 1,
        field,
        form,
        state: std::array::from_fn(|_| good_element(random, field)),
        words: std::array::from_fn(|k| words.get(k).copied().unwrap_or(0)),
        count: words.len() as u32,
        phase: phase as u32,
        done,
        absorb_position: place.absorb_position,
        squeeze_position: place.squeeze_position,
        permutations: place.permutations,
    }
}

/// A place of a word list: a phase and the elements done in it. Near either end of the phase, or anywhere.
fn any_place(random: &mut Random, words: &[u32]) -> (usize, u32) {
    let phase = match random.below(6) {
        0 => 0,
        1 => words.len(),
        _ => random.below(words.len() as u64 + 1) as usize,
    };
    let Some(size) = words.get(phase).map(|word| length(*word)).filter(|size| *size > 0) else {
        return (phase, 0);
    };
    let near = random.below(40) as u32;
    let anywhere = random.below(u64::from(size)) as u32;
    (
        phase,
        random
            .pick(&[0, near, size - 1 - near.min(size - 1), anywhere])
            .min(size - 1),
    )
}

pub fn sound_record(random: &mut Random) -> Record {
    let count = phases(random);
    let words = merged_words(random, count, any_length);
    let (phase, done) = any_place(random, &words);
    let (field, form) = (known_field(random), known_form(random));
    record_at(random, field, form, &words, phase, done)
}

/// A number near another one, or far off.
fn changed(random: &mut Random, number: u32) -> u32 {
    let any = u32::any(random);
    let flipped = number ^ 1 << random.below(32);
    let step = random.pick(&[1, 2, 8]);
    random.pick(&[
        number.wrapping_add(step),
        number.wrapping_sub(step),
        flipped,
        any,
        0,
        u32::MAX,
    ])
}

pub type Damage = (&'static str, fn(&mut Random, &mut Record));

/// Ways to change one part of a record.
pub const PART_DAMAGES: [Damage; 12] = [
    ("status", |random, record| {
        record.status = random.pick(&[0, 2, 3, ABSORB + 1, u32::MAX])
    }),
    ("field", |random, record| {
        let near = changed(random, record.field);
        record.field = random.pick(&[near, 3 ^ record.field, 0, 3, ABSORB]);
    }),
    ("form", |random, record| {
        let near = changed(random, record.form);
        record.form = random.pick(&[near, 3 ^ record.form, 0, 3, ABSORB]);
    }),
    ("state", |random, record| {
        record.state[random.below(24) as usize] = bad_element(random, record.field)
    }),
    ("any word", |random, record| {
        let k = random.below(64) as usize;
        record.words[k] = changed(random, record.words[k]);
    }),
    ("unused word", |random, record| {
        let k = random.pick(&[record.count as usize % 64, 63]);
        record.words[k] = record.words[k].wrapping_add(random.pick(&[1, ABSORB, ABSORB + 1]));
    }),
    ("count", |random, record| {
        let near = changed(random, record.count);
        record.count = random.pick(&[near, near, 0, 1, 2, 62, 63, 64, 65, 66]);
    }),
    ("phase", |random, record| record.phase = changed(random, record.phase)),
    ("done", |random, record| record.done = changed(random, record.done)),
    ("absorb position", |random, record| {
        let near = changed(random, record.absorb_position);
        record.absorb_position = random.pick(&[near, near, 0, 7, 8, 9]);
    }),
    ("squeeze position", |random, record| {
        let near = changed(random, record.squeeze_position);
        record.squeeze_position = random.pick(&[near, near, 0, 7, 8, 9]);
    }),
    ("permutations", |random, record| {
        let (any, bit) = (u64::any(random), 1 << random.below(64));
        let (more, fewer) = (record.permutations.wrapping_add(1), record.permutations.wrapping_sub(1));
        record.permutations = random.pick(&[more, fewer, record.permutations ^ bit, any, u64::MAX]);
    }),
];

/// Moves a record to a place of other words, so that all but the words or the place itself is as it should be.
fn put_at(random: &mut Random, record: &mut Record, words: &[u32]) {
    let (phase, done) = any_place(random, words);
    *record = record_at(random, record.field, record.form, words, phase, done);
}

fn used_words(record: &Record) -> Vec<u32> {
    record.words[..record.count as usize].to_vec()
}

/// Ways to break a condition of soundness and to keep the positions and the count that the steps give at the place.
/// None of them leaves a sound record.
pub const CONDITION_DAMAGES: [Damage; 12] = [
    ("unknown field", |random, record| {
        record.field = random.pick(&UNKNOWN_FIELDS);
    }),
    ("unknown form", |random, record| {
        record.form = random.pick(&UNKNOWN_FORMS);
    }),
    ("element of field 2 alone", |random, record| {
        let words = used_words(record);
        record.field = 1;
        put_at(random, record, &words);
        record.state[random.below(24) as usize] = between_the_primes(random);
    }),
    ("no words", |random, record| put_at(random, record, &[])),
    ("first word missing", |random, record| {
        put_at(random, record, &used_words(record)[1..])
    }),
    ("last kind twice", |random, record| {
        let mut words = used_words(record);
        words.truncate(MOST_WORDS - 1);
        words.extend(words.last().copied());
        put_at(random, record, &words);
    }),
    ("all kinds exchanged", |random, record| {
        let words: Vec<u32> = used_words(record).iter().map(|word| word ^ ABSORB).collect();
        put_at(random, record, &words);
    }),
    ("one kind exchanged", |random, record| {
        let mut words = used_words(record);
        words[random.below(u64::from(record.count)) as usize] ^= ABSORB;
        put_at(random, record, &words);
    }),
    ("length 0", |random, record| {
        let mut words = used_words(record);
        words[random.below(u64::from(record.count)) as usize] &= ABSORB;
        put_at(random, record, &words);
    }),
    ("phase past the count", |random, record| {
        let words = used_words(record);
        *record = record_at(random, record.field, record.form, &words, words.len(), 0);
        record.phase += random.pick(&[1, 2, 64]);
    }),
    ("done at the phase's end", |random, record| {
        let words = used_words(record);
        let phase = random.below(words.len() as u64) as usize;
        *record = record_at(random, record.field, record.form, &words, phase, length(words[phase]));
    }),
    ("done after the last phase", |random, record| {
        let words = used_words(record);
        *record = record_at(random, record.field, record.form, &words, words.len(), 0);
        record.done = random.pick(&[1, 8, LONGEST, u32::MAX]);
    }),
];

pub fn damage_parts(random: &mut Random, record: &mut Record) {
    for _ in 0..random.pick(&[1, 1, 1, 2, 3]) {
        random.pick(&PART_DAMAGES).1(random, record);
    }
}

/// Any contents, at times with some parts of likely sizes.
pub fn any_record(random: &mut Random) -> Record {
    let mut record = Record::any(random);
    record.status = random.pick(&[1, 1, 1, 1, record.status]);
    if random.once_in(2) {
        record.field = any_field(random);
        record.form = any_form(random);
        record.state = std::array::from_fn(|_| good_element(random, record.field));
        record.count = 1 + random.below(65) as u32;
        record.phase = random.below(u64::from(record.count)) as u32;
        record.absorb_position = random.below(10) as u32;
        record.squeeze_position = random.below(10) as u32;
    }
    record
}

// Strings

/// The string of a form of these words and a separator: "words, separator, then the separator's length as four bytes, highest first" in form 2.
pub fn string_of(form: u32, words: &[u32], separator: &[u8]) -> Vec<u8> {
    let mut string: Vec<u8> = words.iter().flat_map(|word| word.to_be_bytes()).collect();
    string.extend(separator);
    if form == 2 {
        string.extend((separator.len() as u32).to_be_bytes());
    }
    string
}

/// A number for the last four bytes of a string of form 2, where so many bytes precede them: about that many, about the longest separator's length, or any;
/// at times with its bytes in the other order.
pub fn any_tail(random: &mut Random, preceding: usize) -> u32 {
    let (all, any) = (preceding as u32, u32::any(random));
    let near = all.wrapping_sub(4 * random.below(66) as u32);
    let tail = random.pick(&[
        0,
        1,
        255,
        256,
        257,
        all,
        all.wrapping_add(1),
        all.wrapping_sub(1),
        near,
        near,
        any,
        u32::MAX,
    ]);
    if random.once_in(8) {
        tail.swap_bytes()
    } else {
        tail
    }
}

/// A length to be given to reading, whatever the string is.
pub fn any_given(random: &mut Random, string: &[u8], right: usize) -> usize {
    let near = right.wrapping_add(random.below(9) as usize).wrapping_sub(4);
    let far = random.pick(&[
        0,
        255,
        256,
        257,
        string.len(),
        string.len() + 1,
        usize::MAX,
        right | 1 << 32,
    ]);
    random.pick(&[right, right, right, near, far])
}

pub fn damage_string(random: &mut Random, string: &mut Vec<u8>) {
    let k = random.below(string.len() as u64 + 1) as usize;
    match random.below(5) {
        0 => string.truncate(k),
        1 => string.insert(k, u8::any(random)),
        2 if k < string.len() => string[k] ^= 1 << random.below(8),
        3 if k < string.len() => string[k] = 0,
        _ => {
            let size = random.below(10) as usize;
            string.extend(random.list::<u8>(size));
        }
    }
}

// Tables of owners

/// First and last number, and product line.
type OwnerRow = (u32, u32, u16);

/// The table of these rows.
pub fn table_of(rows: &[OwnerRow]) -> Vec<u8> {
    let bytes =
        |(first, last, line): &OwnerRow| [&first.to_be_bytes()[..], &last.to_be_bytes(), &line.to_be_bytes()].concat();
    rows.iter().flat_map(bytes).collect()
}

/// A number at either end of the 32 bits, or anywhere, but not 0.
fn any_cut(random: &mut Random) -> u32 {
    match random.below(4) {
        0 => 1 + random.below(300) as u32,
        1 => u32::MAX - random.below(300) as u32,
        _ => 1 + random.below(u64::from(u32::MAX)) as u32,
    }
}

/// So many rows that hold every number once.
fn whole_rows(random: &mut Random, count: usize) -> Vec<OwnerRow> {
    let mut firsts = BTreeSet::from([0]);
    while firsts.len() < count {
        firsts.insert(any_cut(random));
    }
    let ends = firsts.iter().skip(1).map(|first| first - 1).chain([u32::MAX]);
    let rows = firsts.iter().zip(ends);
    rows.map(|(first, last)| (*first, last, u16::any(random))).collect()
}

fn damage_rows(random: &mut Random, rows: &mut Vec<OwnerRow>) {
    if rows.is_empty() {
        return rows.push((0, u32::MAX, u16::any(random)));
    }
    let k = random.below(rows.len() as u64) as usize;
    let (first, last, line) = rows[k];
    let (other, bit) = (random.below(rows.len() as u64) as usize, 1 << random.below(32));
    match random.below(11) {
        0 => rows.swap(k, other),
        1 => drop(rows.remove(k)),
        2 => rows.insert(k, rows[k]),
        3 => rows[k] = (first ^ bit, last, line),
        4 => rows[k] = (first, last ^ bit, line),
        5 => rows[k] = (last, first, line),
        6 => rows[k] = (first.wrapping_sub(1), last, line),
        7 => rows[k] = (first.wrapping_add(1), last, line),
        8 => rows[k] = (first, last.wrapping_add(1), line),
        9 => rows[k] = (first, last.wrapping_sub(1), line),
        _ => rows[k] = (u32::any(random), u32::any(random), line),
    }
}

/// Any table of owners: many of them good, others damaged in one or several ways.
pub fn any_table(random: &mut Random) -> Vec<u8> {
    let count = random.pick(&[1, 1, 2, 2, 3, 4, 5, 20, 127, 128, 128, 129, 130]);
    let mut rows = whole_rows(random, count);
    for _ in 0..random.pick(&[0, 0, 0, 0, 1, 1, 2]) {
        damage_rows(random, &mut rows);
    }
    let mut table = table_of(&rows);
    if random.once_in(8) {
        damage_string(random, &mut table);
    }
    table
}

/// A separator whose number is at the edge of a row of the table, beside it or anywhere, at times cut to under four bytes or followed by more.
pub fn asked_separator(random: &mut Random, table: &[u8]) -> Vec<u8> {
    let numbers: Vec<&[u8]> = table.chunks_exact(10).flat_map(|row| [&row[..4], &row[4..8]]).collect();
    let any = u32::any(random);
    let edge = match numbers.is_empty() {
        true => any,
        false => u32::from_be_bytes(random.pick(&numbers).try_into().expect("four bytes")),
    };
    let number = random.pick(&[edge, edge, edge.wrapping_sub(1), edge.wrapping_add(1), any, 0, u32::MAX]);
    let size = random.pick(&[4, 4, 4, 4, 5, 8, 256, 257, 300, 0, 1, 2, 3]);
    let mut separator = number.to_be_bytes().to_vec();
    separator.extend(random.list::<u8>(300));
    separator.truncate(size);
    separator
}

// Notes

/// What every place of a note's buffer holds before the call: no element of either field, so that a place that is left shows.
pub const FILLED: u32 = 0xa5a5a5a5;

/// All that is lent to `seal`, or with `opening` to `open`.
#[derive(Clone, Debug, PartialEq)]
pub struct NoteCall {
    pub opening: bool,
    pub field: u32,
    pub key: Vec<u32>,
    pub nonce: Vec<u32>,
    pub separator: Vec<u8>,
    pub lengths: Vec<u32>,
    pub text: Vec<u32>,
    pub out: Vec<u32>,
}

impl NoteCall {
    /// A note of random elements, to be sealed.
    pub fn sealing(random: &mut Random, field: u32, lengths: &[u32]) -> NoteCall {
        let total = lengths.iter().sum::<u32>() as usize;
        let mut elements = |count| (0..count).map(|_| good_element(random, field)).collect();
        NoteCall {
            opening: false,
            field,
            key: elements(8),
            nonce: elements(8),
            separator: b"note".to_vec(),
            lengths: lengths.to_vec(),
            text: elements(total),
            out: vec![FILLED; total + 8],
        }
    }

    /// What opens a list that this one sealed.
    pub fn opening(&self, sealed: Vec<u32>) -> NoteCall {
        assert!(!self.opening);
        NoteCall {
            opening: true,
            out: vec![FILLED; self.text.len()],
            text: sealed,
            ..self.clone()
        }
    }

    pub fn inputs(&self) -> SealInputs<'_> {
        SealInputs {
            field: self.field,
            key: &self.key,
            nonce: &self.nonce,
            separator: &self.separator,
            lengths: &self.lengths,
        }
    }
}

/// Lengths of blocks: few or many, and most of them short.
pub fn block_lengths(random: &mut Random) -> Vec<u32> {
    let count = random.pick(&[1, 1, 2, 2, 3, 4, 5, 30, 31]);
    let length = |random: &mut Random| match random.below(40) {
        0 => random.pick(&[63, 64, 65, 200]),
        _ => random.pick(&[1, 2, 7, 8, 8, 9, 15, 16, 17]),
    };
    (0..count).map(|_| length(random)).collect()
}

pub fn any_note(random: &mut Random) -> NoteCall {
    let (field, lengths) = (known_field(random), block_lengths(random));
    let mut call = NoteCall::sealing(random, field, &lengths);
    call.separator = good_separator(random);
    call
}

/// Makes a list longer or shorter, at times by all of it.
fn damage_length(random: &mut Random, list: &mut Vec<u32>) {
    match random.below(6) {
        0 => list.clear(),
        1 => drop(list.pop()),
        2 => list.push(1),
        3 => list.truncate(list.len() / 2),
        4 => list.extend([1; 8]),
        _ => list.extend_from_within(..),
    }
}

/// Another element, by one or by any difference.
fn damage_element(random: &mut Random, field: u32, list: &mut [u32]) {
    if list.is_empty() {
        return;
    }
    let p = prime(random, field);
    let k = random.below(list.len() as u64) as usize;
    let step = match random.below(3) {
        0 => 1,
        1 => p - 1,
        _ => 1 + random.below(u64::from(p) - 1) as u32,
    };
    list[k] = ((u64::from(list[k]) + u64::from(step)) % u64::from(p)) as u32;
}

fn damage_lengths(random: &mut Random, lengths: &mut Vec<u32>) {
    let k = random.below(lengths.len() as u64 + 1) as usize;
    let other = random.below(lengths.len() as u64 + 1) as usize;
    match random.below(6) {
        0 => *lengths = vec![1; random.pick(&[0, 32, 33, 64, 1000])],
        1 if k < lengths.len() => lengths[k] = random.pick(&[0, LONGEST_CALL, LONGEST_CALL + 1, ABSORB, u32::MAX]),
        2 => lengths.insert(k, random.pick(&[0, 1, u32::MAX])),
        // as many elements in other blocks
        3 if k < lengths.len() && lengths[k] > 1 => {
            lengths[k] -= 1;
            lengths.insert(k, 1);
        }
        4 if k < lengths.len() && other < lengths.len() => lengths.swap(k, other),
        _ => damage_length(random, lengths),
    }
}

/// Changes one thing of a call, which may then be turned away, or open to nothing, or still be good.
pub fn damage_note(random: &mut Random, call: &mut NoteCall) {
    match random.below(10) {
        0 => call.field = random.pick(&[1, 2, 0, 3, ABSORB + 1, u32::MAX]),
        1 => {
            let size = random.pick(&[0, 3, 5, 255, 256, 257, 258, 600]);
            call.separator = random.list(size);
        }
        2 | 3 => damage_lengths(random, &mut call.lengths),
        4 => {
            let list = random.pick(&NOTE_LISTS);
            damage_length(random, list(call));
        }
        5 => damage_length(random, &mut call.out),
        6 => {
            let (element, list) = (bad_element(random, call.field), random.pick(&NOTE_LISTS)(call));
            let last = list.len().saturating_sub(1);
            let k = random.pick(&[0, last, last / 2]);
            list.get_mut(k).into_iter().for_each(|place| *place = element);
        }
        _ => {
            let list = random.pick(&NOTE_LISTS);
            damage_element(random, call.field, list(call));
        }
    }
}

/// A list of a note's call.
pub type NoteList = fn(&mut NoteCall) -> &mut Vec<u32>;

/// Those of elements.
pub const NOTE_LISTS: [NoteList; 3] = [|call| &mut call.key, |call| &mut call.nonce, |call| &mut call.text];
