//! An independent implementation of the challenge sponge, written from document 01 and P3, P4, P6 and P8 of document 02 alone,
//! of the owners of separators, written from P1 of document 02 alone (`owners.rs`), and of sealed notes, written from document
//! 02 and Algorithm 7 of source document 001 alone (`seal.rs`). It shares no code with the library, which the tests compare
//! with it, and is plain rather than fast. Quotations here are from document 01 unless another source is named.

// Each program that takes this file in uses only a part of it.
#![allow(dead_code, unused_imports)]

mod owners;
mod seal;

use std::collections::VecDeque;
use std::sync::OnceLock;

pub use owners::{check_owners, owner};
pub use seal::{open, seal, SealInputs, KEY_LENGTH, MARK_LENGTH, MOST_BLOCKS, NONCE_LENGTH};

/// "p = 2013265921 = 15 × 2^27 + 1." P3: "2130706433 = 2^31 − 2^24 + 1."
pub const P_1: u32 = 2013265921;
pub const P_2: u32 = 2130706433;

/// "Fixed figures of the session: rate 8, capacity 16, width 24."
pub const RATE: u32 = 8;
pub const WIDTH: usize = 24;

/// "4 full, 21 partial, 4 full." P3: "4 full, 23 partial and 4 full rounds".
const FULL_ROUNDS_EACH_SIDE: usize = 4;

/// P3: "the generator, whose list has 744 places in either field".
pub const PLACES: usize = 744;

/// "A word has its top bit set for ABSORB and clear for SQUEEZE; its low 31 bits are the length."
pub const ABSORB: u32 = 0x80000000;
pub const LONGEST: u32 = 0x7fffffff;

/// P4: "limits one declared call to 16,777,216 elements."
pub const LONGEST_CALL: u32 = 16_777_216;

/// "pattern of 0 or over 64 words" and "separator over 256 bytes".
pub const MOST_WORDS: usize = 64;
pub const LONGEST_SEPARATOR: usize = 256;

/// P8: "the separator's length as four bytes", behind the longest words and separator.
pub const LONGEST_STRING: usize = 4 * MOST_WORDS + LONGEST_SEPARATOR + 4;

/// "The state has eight outer elements and sixteen inner elements, numbered 0 to 23 with the outer ones first."
pub type State = [u32; WIDTH];

// The fields

/// A field's number and what goes by the field; its tables are worked out once.
pub struct Field {
    pub number: u32,
    pub p: u32,
    pub exponent: u32,
    pub partial_rounds: usize,
    tables: OnceLock<Tables>,
}

/// P3: "a field number, 1 for today's"; "21 partial" and "the seventh power".
pub static FIELD_1: Field = Field {
    number: 1,
    p: P_1,
    exponent: 7,
    partial_rounds: 21,
    tables: OnceLock::new(),
};

/// P3: "and 2 for this one"; "Field 2 uses the third power, 4 full, 23 partial and 4 full rounds".
pub static FIELD_2: Field = Field {
    number: 2,
    p: P_2,
    exponent: 3,
    partial_rounds: 23,
    tables: OnceLock::new(),
};

/// P3: "the field that the record or the call names". None for a "field number neither 1 nor 2".
pub fn named(field: u32) -> Option<&'static Field> {
    [&FIELD_1, &FIELD_2].into_iter().find(|known| known.number == field)
}

/// Not "an element of p or more" among them. P3: "p and element, in soundness, number 10, arithmetic and the generator alike,
/// mean those of the field that the record or the call names."
fn are_elements(field: &Field, numbers: &[u32]) -> bool {
    numbers.iter().all(|number| *number < field.p)
}

/// "All arithmetic on elements is modulo p, results from 0 to p − 1."
fn add(field: &Field, a: u32, b: u32) -> u32 {
    ((u64::from(a) + u64::from(b)) % u64::from(field.p)) as u32
}

/// "All arithmetic on elements is modulo p, results from 0 to p − 1."
fn multiply(field: &Field, a: u32, b: u32) -> u32 {
    (u64::from(a) * u64::from(b) % u64::from(field.p)) as u32
}

/// "raises all elements (full) or element 0 alone (partial) to the seventh power", for any exponent.
pub fn power(field: &Field, base: u32, exponent: u32) -> u32 {
    let mut result = 1;
    for k in (0..u32::BITS - exponent.leading_zeros()).rev() {
        result = multiply(field, result, result);
        if exponent >> k & 1 == 1 {
            result = multiply(field, result, base);
        }
    }
    result
}

/// "the inverse of i + j + 24": as p is prime, the power p − 2. P3: "the same 47 sums inverted in its own field."
pub fn inverse(field: &Field, a: u32) -> u32 {
    power(field, a, field.p - 2)
}

// The round constants

/// "29 rounds" in field 1, by the figures it is made up of.
fn rounds(field: &Field) -> usize {
    FULL_ROUNDS_EACH_SIDE + field.partial_rounds + FULL_ROUNDS_EACH_SIDE
}

/// "A round adds its 24 constants": "The 696 round constants"; P3: "so 744 constants".
pub fn constants_needed(field: &Field) -> usize {
    WIDTH * rounds(field)
}

/// "Poseidon's Grain generator", with the oldest bit in front.
struct Grain {
    register: VecDeque<u8>,
    new_bits: u32,
}

impl Grain {
    /// "An 80-bit register starts as, from bit 0 on and each number high bit first: field kind 1 (2 bits), power 0 (4),
    /// 31 (12), 24 (12), 8 (10), 21 (10), thirty ones." P3: "the same generator with the register's 21 changed to 23". "The
    /// first 160 new bits are dropped."
    fn new(field: &Field) -> Grain {
        let numbers = [
            (1, 2),
            (0, 4),
            (31, 12),
            (24, 12),
            (8, 10),
            (field.partial_rounds, 10),
            ((1 << 30) - 1, 30),
        ];
        let mut register = VecDeque::new();
        for (number, size) in numbers {
            register.extend((0..size).rev().map(|k| (number >> k & 1) as u8));
        }
        assert_eq!(register.len(), 80);
        let mut grain = Grain { register, new_bits: 0 };
        for _ in 0..160 {
            grain.new_bit();
        }
        grain
    }

    /// "The next bit is the exclusive or of register bits 62, 51, 38, 23, 13 and 0, where bit 0 is the oldest and
    /// leaves." "It stops at 696 constants or 262,144 new bits, dropped ones included": then there is none.
    fn new_bit(&mut self) -> Option<u8> {
        if self.new_bits == 262_144 {
            return None;
        }
        let bit = [62, 51, 38, 23, 13, 0]
            .iter()
            .fold(0, |sum, place| sum ^ self.register[*place]);
        self.register.pop_front();
        self.register.push_back(bit);
        self.new_bits += 1;
        Some(bit)
    }

    /// "Later bits go in pairs: if the first is 1, the second is output, else neither."
    fn output_bit(&mut self) -> Option<u8> {
        loop {
            let (first, second) = (self.new_bit()?, self.new_bit()?);
            if first == 1 {
                return Some(second);
            }
        }
    }

    /// "31 output bits, first highest, make a candidate; one of p or more is dropped."
    fn constant(&mut self, p: u32) -> Option<u32> {
        loop {
            let mut candidate = 0;
            for _ in 0..31 {
                candidate = candidate << 1 | u32::from(self.output_bit()?);
            }
            if candidate < p {
                return Some(candidate);
            }
        }
    }
}

/// "It stops at 696 constants or 262,144 new bits, dropped ones included, and gives those found, zeros in the places
/// left, and how many".
pub fn round_constants(field: &Field) -> ([u32; PLACES], usize) {
    let mut grain = Grain::new(field);
    let mut constants = [0; PLACES];
    for found in 0..constants_needed(field) {
        match grain.constant(field.p) {
            Some(constant) => constants[found] = constant,
            None => return (constants, found),
        }
    }
    (constants, constants_needed(field))
}

/// The generator as a call. P3: "18: field number neither 1 nor 2", "in the generator, whose list has 744 places in either
/// field and then holds zeros, none found".
pub fn generate(field: u32) -> (u32, [u32; PLACES], usize) {
    let Some(field) = named(field) else {
        return (18, [0; PLACES], 0);
    };
    let (constants, found) = round_constants(field);
    (0, constants, found)
}

/// What a field's permutation reads.
struct Tables {
    constants: [u32; PLACES],
    matrix: [State; WIDTH],
}

fn tables(field: &Field) -> &Tables {
    field.tables.get_or_init(|| Tables {
        constants: round_constants(field).0,
        matrix: matrix(field),
    })
}

// The permutation

/// "the matrix whose entry at row i, column j is the inverse of i + j + 24".
fn matrix(field: &Field) -> [State; WIDTH] {
    std::array::from_fn(|i| std::array::from_fn(|j| inverse(field, (i + j + 24) as u32)))
}

/// "A round adds its 24 constants; raises all elements (full) or element 0 alone (partial) to the seventh power; then
/// multiplies by the matrix". P3: "Field 2 uses the third power".
fn round(field: &Field, state: &State, constants: &[u32], full: bool) -> State {
    let mut elements: State = std::array::from_fn(|k| add(field, state[k], constants[k]));
    let raised = if full { WIDTH } else { 1 };
    for element in &mut elements[..raised] {
        *element = power(field, *element, field.exponent);
    }
    let product = |row: &State| {
        row.iter()
            .zip(&elements)
            .fold(0, |sum, (a, b)| add(field, sum, multiply(field, *a, *b)))
    };
    std::array::from_fn(|i| product(&tables(field).matrix[i]))
}

/// "One permutation is 29 rounds: 4 full, 21 partial, 4 full." "Constants fill round by round, element 0 first." P3: "4 full,
/// 23 partial and 4 full rounds".
fn permutation(field: &Field, state: &State) -> State {
    let mut state = *state;
    for number in 0..rounds(field) {
        let partial = FULL_ROUNDS_EACH_SIDE..FULL_ROUNDS_EACH_SIDE + field.partial_rounds;
        let constants = &tables(field).constants[WIDTH * number..WIDTH * (number + 1)];
        state = round(field, &state, constants, !partial.contains(&number));
    }
    state
}

/// The permutation as a call. "The permutation gives 10 and its input back", under "an element of p or more". P3: 18 "before
/// 10 in the bare permutation, which gives its input back".
pub fn permute(field: u32, state: &mut State) -> u32 {
    let Some(field) = named(field) else {
        return 18;
    };
    if !are_elements(field, state) {
        return 10;
    }
    *state = permutation(field, state);
    0
}

// SHA3-256. "The hash state is 25 lanes of 64 bits." Here lanes[x][y] is the lane (x, y) of FIPS 202.

type Lanes = [[u64; 5]; 5];

/// A state by its lanes.
fn lanes(lane: impl Fn(usize, usize) -> u64) -> Lanes {
    std::array::from_fn(|x| std::array::from_fn(|y| lane(x, y)))
}

/// FIPS 202, 3.2.2, step 3: the offsets (t + 1)(t + 2)/2 along the walk (x, y) to (y, 2x + 3y) from (1, 0).
fn lane_rotations() -> [[u32; 5]; 5] {
    let mut rotations = [[0; 5]; 5];
    let (mut x, mut y) = (1, 0);
    for t in 0..24 {
        rotations[x][y] = (t + 1) * (t + 2) / 2 % 64;
        (x, y) = (y, (2 * x + 3 * y) % 5);
    }
    rotations
}

/// FIPS 202, 3.2.5, Algorithms 5 and 6: bit 2^j − 1 of round i's constant is bit j + 7i of a feedback register.
fn hash_constants() -> [u64; 24] {
    let mut constants = [0; 24];
    let mut register: u8 = 1;
    for constant in &mut constants {
        for j in 0..7 {
            *constant |= u64::from(register & 1) << ((1 << j) - 1);
            let leaving = register >> 7;
            register = (register << 1) ^ (leaving * 0b0111_0001);
        }
    }
    constants
}

/// What is worked out once for the hash.
struct HashTables {
    lane_rotations: [[u32; 5]; 5],
    constants: [u64; 24],
}

fn hash_tables() -> &'static HashTables {
    static TABLES: OnceLock<HashTables> = OnceLock::new();
    TABLES.get_or_init(|| HashTables {
        lane_rotations: lane_rotations(),
        constants: hash_constants(),
    })
}

/// FIPS 202, 3.2.1 to 3.2.5 and 3.3: theta, rho, pi, chi and iota.
fn hash_round(a: &Lanes, constant: u64) -> Lanes {
    let columns: [u64; 5] = std::array::from_fn(|x| a[x].iter().fold(0, |sum, lane| sum ^ lane));
    let a = lanes(|x, y| a[x][y] ^ columns[(x + 4) % 5] ^ columns[(x + 1) % 5].rotate_left(1));
    let a = lanes(|x, y| a[x][y].rotate_left(hash_tables().lane_rotations[x][y]));
    let a = lanes(|x, y| a[(x + 3 * y) % 5][x]);
    let mut a = lanes(|x, y| a[x][y] ^ !a[(x + 1) % 5][y] & a[(x + 2) % 5][y]);
    a[0][0] ^= constant;
    a
}

/// "SHA3-256 (FIPS 202) of that string is the digest." FIPS 202, 6.1 and B.2: blocks of 136 bytes, the last filled up
/// with 06, zeros and a top bit.
pub fn sha3_256(data: &[u8]) -> [u8; 32] {
    let mut padded = data.to_vec();
    padded.push(0x06);
    padded.resize(padded.len().next_multiple_of(136), 0);
    *padded.last_mut().unwrap() |= 0x80;
    let mut a = lanes(|_, _| 0);
    for block in padded.chunks(136) {
        for (k, bytes) in block.chunks(8).enumerate() {
            a[k % 5][k / 5] ^= u64::from_le_bytes(bytes.try_into().unwrap());
        }
        for constant in hash_tables().constants {
            a = hash_round(&a, constant);
        }
    }
    std::array::from_fn(|k| a[k / 8][0].to_le_bytes()[k % 8])
}

// Tags

/// "A word has its top bit set for ABSORB and clear for SQUEEZE".
fn is_absorb(word: u32) -> bool {
    word & ABSORB != 0
}

/// "its low 31 bits are the length."
pub fn length(word: u32) -> u32 {
    word & LONGEST
}

/// "Merging adds neighbouring lengths of one kind." P4, of words that are declared calls: "With 64 words no merged length can
/// then pass 2147483647."
fn merge(words: &[u32]) -> Vec<u32> {
    let mut merged: Vec<u32> = Vec::new();
    for word in words {
        match merged.last_mut() {
            Some(last) if is_absorb(*last) == is_absorb(*word) => {
                assert!(length(*word) <= LONGEST - length(*last), "merged length");
                *last += length(*word);
            }
            _ => merged.push(*word),
        }
    }
    merged
}

/// "START checks 1 to 6 in number order, whichever word is at fault". P4: "19: a declared call above 16,777,216 elements, after
/// 2 and before 3", and 5 is not given. P6: "Accept a pattern whose last word is ABSORB, a pattern of ABSORB words alone
/// included. Number 4 is no longer given". Gives the merged words or the number.
fn check_pattern(words: &[u32], separator: &[u8]) -> Result<Vec<u32>, u32> {
    if words.is_empty() || words.len() > MOST_WORDS {
        return Err(1);
    }
    if words.iter().any(|word| length(*word) == 0) {
        return Err(2);
    }
    if words.iter().any(|word| length(*word) > LONGEST_CALL) {
        return Err(19);
    }
    if !is_absorb(words[0]) {
        return Err(3);
    }
    if separator.len() > LONGEST_SEPARATOR {
        return Err(6);
    }
    Ok(merge(words))
}

/// P8: "a form number, 1 for today's string"; "form 2: words, separator, then the separator's length as four bytes, highest
/// first."
#[derive(Clone, Copy, Debug, PartialEq, Eq)]
pub enum Form {
    One = 1,
    Two = 2,
}

/// The form with this number. None for a "form number neither 1 nor 2".
pub fn form_named(form: u32) -> Option<Form> {
    [Form::One, Form::Two].into_iter().find(|known| *known as u32 == form)
}

/// "The tag string is the merged words, four bytes each, highest byte first, then the separator." P8: in form 2 "then the
/// separator's length as four bytes, highest first." The separator is one of at most 256 bytes.
fn tag_string(form: Form, merged: &[u32], separator: &[u8]) -> Vec<u8> {
    let mut string: Vec<u8> = merged.iter().flat_map(|word| word.to_be_bytes()).collect();
    string.extend(separator);
    if form == Form::Two {
        let length = u32::try_from(separator.len()).expect("a checked separator");
        string.extend(length.to_be_bytes());
    }
    string
}

/// "Writing checks 1 to 6, then 12; it writes from the buffer's start and only the string's bytes, and none when
/// refused." P8: "22: form number neither 1 nor 2", "first" where 18 is not checked. Gives how many bytes were written, or the
/// number.
pub fn write_tag(form: u32, words: &[u32], separator: &[u8], out: &mut [u8]) -> Result<usize, u32> {
    let form = form_named(form).ok_or(22_u32)?;
    let string = tag_string(form, &check_pattern(words, separator)?, separator);
    if out.len() < string.len() {
        return Err(12);
    }
    out[..string.len()].copy_from_slice(&string);
    Ok(string.len())
}

/// Words and a separator of a length, which are all of a string of form 1. "Reading checks 6 (the length given), then 13: the
/// string is shorter than that length, or what precedes it isn't a sound record's word list in whole words."
fn split_separator(string: &[u8], separator_length: usize) -> Result<(Vec<u32>, &[u8]), u32> {
    if separator_length > LONGEST_SEPARATOR {
        return Err(6);
    }
    if string.len() < separator_length {
        return Err(13);
    }
    let (bytes, separator) = string.split_at(string.len() - separator_length);
    let words: Vec<u32> = bytes
        .chunks_exact(4)
        .map(|four| u32::from_be_bytes([four[0], four[1], four[2], four[3]]))
        .collect();
    if bytes.len() % 4 != 0 || !is_word_list(&words) {
        return Err(13);
    }
    Ok((words, separator))
}

/// P8: "Reading form 2 goes by the string's last four bytes and ignores any length given." "In form 2 a string under four bytes,
/// or one whose tail names more bytes than precede it, gets 13, and a tail above 256 gets 6 before that." 22 comes "first".
fn split_tag(form: u32, string: &[u8], given: usize) -> Result<(Vec<u32>, &[u8]), u32> {
    match form_named(form).ok_or(22_u32)? {
        Form::One => split_separator(string, given),
        Form::Two => {
            let (before, tail) = string.split_last_chunk().ok_or(13_u32)?;
            split_separator(before, u32::from_be_bytes(*tail) as usize)
        }
    }
}

/// "The merged words come back by value"; "the number comes with the words." "Refused, it gives 64 zero words and
/// count 0."
pub fn read_tag(form: u32, string: &[u8], given: usize) -> (u32, [u32; MOST_WORDS], usize) {
    match split_tag(form, string, given) {
        Ok((words, _)) => (0, with_unused_words(&words), words.len()),
        Err(number) => (number, [0; MOST_WORDS], 0),
    }
}

/// "the separator comes back as that part of the string itself (empty on a refusal), from a call of its own that checks
/// the same". In form 2 that part ends four bytes before the string's end. The empty part of a refusal is at the end.
pub fn read_separator(form: u32, string: &[u8], given: usize) -> &[u8] {
    split_tag(form, string, given).map_or(&string[string.len()..], |(_, separator)| separator)
}

/// P4: "cutting longer words into calls of 16,777,216 and any rest", of the word's kind. Other words are one call as they are,
/// those of length 0 too.
fn cut_word(word: u32) -> Vec<u32> {
    if length(word) <= LONGEST_CALL {
        return vec![word];
    }
    let kind = word & ABSORB;
    let (whole, rest) = (length(word) / LONGEST_CALL, length(word) % LONGEST_CALL);
    let mut calls = vec![kind + LONGEST_CALL; whole as usize];
    if rest > 0 {
        calls.push(kind + rest);
    }
    calls
}

/// P4: "what it reads is written again by cutting longer words into calls of 16,777,216 and any rest, where 64 calls suffice."
/// Where they don't, 1 as for a "pattern of 0 or over 64 words", with 64 zero words and count 0. The words may be any list, and
/// the 65th call decides, so none is cut after it.
pub fn cut(words: &[u32]) -> (u32, [u32; MOST_WORDS], usize) {
    let calls: Vec<u32> = words
        .iter()
        .flat_map(|word| cut_word(*word))
        .take(MOST_WORDS + 1)
        .collect();
    if calls.len() > MOST_WORDS {
        return (1, [0; MOST_WORDS], 0);
    }
    (0, with_unused_words(&calls), calls.len())
}

/// "with the merged words and their number"; "unused words are 0."
fn with_unused_words(words: &[u32]) -> [u32; MOST_WORDS] {
    std::array::from_fn(|k| words.get(k).copied().unwrap_or(0))
}

/// "Read the 32 digest bytes as eight words, highest byte first; keep the low 30 bits of each word."
pub fn tag_elements(digest: &[u8; 32]) -> [u32; 8] {
    std::array::from_fn(|k| {
        let word = u32::from_be_bytes([digest[4 * k], digest[4 * k + 1], digest[4 * k + 2], digest[4 * k + 3]]);
        word & 0x3fffffff
    })
}

// Sessions

/// "The record holds a status (1 open, otherwise closed), 24 state elements and 64 pattern words, the word count, the
/// phase number, the elements done in that phase, an absorb and a squeeze position (0 to 8); and the record counts its
/// permutations." "A copied record is a fork." P3: "START takes a field number", "and the record keeps it." P8: "START,
/// writing and reading take a form number", "and the record keeps it".
#[derive(Clone, Debug, PartialEq, Eq)]
pub struct Session {
    pub status: u32,
    pub field: u32,
    pub form: u32,
    pub state: State,
    pub words: [u32; MOST_WORDS],
    pub count: u32,
    pub phase: u32,
    pub done: u32,
    pub absorb_position: u32,
    pub squeeze_position: u32,
    pub permutations: u64,
}

/// "Wiped means every field 0."
pub const WIPED: Session = Session {
    status: 0,
    field: 0,
    form: 0,
    state: [0; WIDTH],
    words: [0; MOST_WORDS],
    count: 0,
    phase: 0,
    done: 0,
    absorb_position: 0,
    squeeze_position: 0,
    permutations: 0,
};

/// The two positions and the count of permutations that "the steps give at that place".
#[derive(Clone, Copy, Debug, PartialEq, Eq)]
pub struct Place {
    pub absorb_position: u32,
    pub squeeze_position: u32,
    pub permutations: u64,
}

impl Place {
    /// "Permutations for d elements done in a phase: absorb, 0 if d = 0, else ceil(d/8) − 1; squeeze, ceil(d/8)."
    /// The last of d elements leaves a position of 1 to 8. A phase's first element finds the absorb position 0: at the
    /// start, or as the squeezing before it left it. An ABSORB sets the squeeze position to 8, so that a SQUEEZE
    /// after it permutes, which takes the absorb position to 0. With d = 0 all is as the phase before left it.
    fn after(self, word: u32, done: u32) -> Place {
        if done == 0 {
            return self;
        }
        let position = (done - 1) % RATE + 1;
        let blocks = u64::from(done.div_ceil(RATE));
        let (absorb_position, squeeze_position, permutations) = if is_absorb(word) {
            (position, RATE, blocks - 1)
        } else {
            (0, position, blocks)
        };
        Place {
            absorb_position,
            squeeze_position,
            permutations: self.permutations + permutations,
        }
    }
}

/// "Their sum over phases is the count." START leaves both positions and the count 0.
pub fn place(words: &[u32], phase: usize, done: u32) -> Place {
    let start = Place {
        absorb_position: 0,
        squeeze_position: 0,
        permutations: 0,
    };
    let whole = words[..phase]
        .iter()
        .fold(start, |place, word| place.after(*word, length(*word)));
    words.get(phase).map_or(whole, |word| whole.after(*word, done))
}

/// "alternate from ABSORB, have lengths of at least 1". P6: "record soundness and reading drop the even count and take 1 to 64
/// words."
fn is_word_list(words: &[u32]) -> bool {
    (1..=MOST_WORDS).contains(&words.len())
        && words
            .iter()
            .enumerate()
            .all(|(k, word)| is_absorb(*word) == (k % 2 == 0) && length(*word) >= 1)
}

/// "An open record is sound if its words" are a word list "and unused words are 0; the phase number is at most the word
/// count; elements done are below the phase's length, or 0 after the last phase; all state elements are below p; and count
/// and positions are those the steps give at that place."
fn is_sound(field: &Field, record: &Session) -> bool {
    if record.count > MOST_WORDS as u32 || record.phase > record.count {
        return false;
    }
    let (words, unused) = record.words.split_at(record.count as usize);
    let done_fits = match words.get(record.phase as usize) {
        Some(word) => record.done < length(*word),
        None => record.done == 0,
    };
    let here = Place {
        absorb_position: record.absorb_position,
        squeeze_position: record.squeeze_position,
        permutations: record.permutations,
    };
    is_word_list(words)
        && unused.iter().all(|word| *word == 0)
        && done_fits
        && are_elements(field, &record.state)
        && here == place(words, record.phase as usize, record.done)
}

/// "record not open", "open record not sound": 7, 8, or else the record's field. P3: "A record with another field number
/// isn't sound." P8, of the form number: "a record with another isn't sound."
fn check_record(record: &Session) -> Result<&'static Field, u32> {
    if record.status != 1 {
        return Err(7);
    }
    named(record.field)
        .filter(|field| form_named(record.form).is_some() && is_sound(field, record))
        .ok_or(8)
}

/// Not "wrong kind, past the phase's end, or after the last phase", in a sound record. "The length of a call is that of
/// its lent list or buffer."
fn fits_phase(record: &Session, absorbing: bool, call_length: usize) -> bool {
    if record.phase == record.count {
        return false;
    }
    let word = record.words[record.phase as usize];
    let left = length(word) - record.done;
    is_absorb(word) == absorbing && call_length as u128 <= u128::from(left)
}

/// "When a phase's last element is done, the phase number (from 0) rises by one and elements done is 0."
fn count_done(record: &mut Session, call_length: usize) {
    record.done += call_length as u32;
    if record.done == length(record.words[record.phase as usize]) {
        record.phase += 1;
        record.done = 0;
    }
}

/// "the record counts its permutations".
fn permute_session(field: &Field, record: &mut Session) {
    record.state = permutation(field, &record.state);
    record.permutations += 1;
}

/// "START makes it open, with the merged words and their number; phase number, elements done, positions, permutations
/// and unused words are 0." "Word k is added to element 8 + k of the zero state." "a refusal gives a wiped record." P3: 18
/// "before 1 at START". P8: 22 "straight after 18 where both are checked".
pub fn start(field: u32, form: u32, words: &[u32], separator: &[u8]) -> (u32, Session) {
    let Some(field) = named(field) else {
        return (18, WIPED);
    };
    let Some(form) = form_named(form) else {
        return (22, WIPED);
    };
    let merged = match check_pattern(words, separator) {
        Ok(merged) => merged,
        Err(number) => return (number, WIPED),
    };
    let tag = tag_elements(&sha3_256(&tag_string(form, &merged, separator)));
    let mut record = Session {
        status: 1,
        field: field.number,
        form: form as u32,
        words: with_unused_words(&merged),
        count: merged.len() as u32,
        ..WIPED
    };
    for (k, element) in tag.iter().enumerate() {
        record.state[8 + k] = add(field, record.state[8 + k], *element);
    }
    (0, record)
}

/// "ABSORB adds each element at the absorb position. If that is 8, it permutes and goes to 0 first."
fn absorb_element(field: &Field, record: &mut Session, element: u32) {
    if record.absorb_position == RATE {
        permute_session(field, record);
        record.absorb_position = 0;
    }
    let place = record.absorb_position as usize;
    record.state[place] = add(field, record.state[place], element);
    record.absorb_position += 1;
}

/// "ABSORB and SQUEEZE check 7, 8, then accept length 0, then 9, then 10 (ABSORB only)." "Numbers 9 and 11 wipe the
/// record; 7, 8 and 10 leave it." "A call of at least one element then sets the squeeze position to 8."
pub fn absorb(record: &mut Session, elements: &[u32]) -> u32 {
    let field = match check_record(record) {
        Ok(field) => field,
        Err(number) => return number,
    };
    if elements.is_empty() {
        return 0;
    }
    if !fits_phase(record, true, elements.len()) {
        *record = WIPED;
        return 9;
    }
    if !are_elements(field, elements) {
        return 10;
    }
    for element in elements {
        absorb_element(field, record, *element);
    }
    record.squeeze_position = RATE;
    count_done(record, elements.len());
    0
}

/// "SQUEEZE copies from the squeeze position. If that is 8, it first permutes and sets both positions to 0. Squeezing
/// does not otherwise move the absorb position".
fn squeeze_element(field: &Field, record: &mut Session) -> u32 {
    if record.squeeze_position == RATE {
        permute_session(field, record);
        record.squeeze_position = 0;
        record.absorb_position = 0;
    }
    let element = record.state[record.squeeze_position as usize];
    record.squeeze_position += 1;
    element
}

/// "ABSORB and SQUEEZE check 7, 8, then accept length 0, then 9"; 9 wipes the record. "A refused SQUEEZE writes no
/// element."
pub fn squeeze(record: &mut Session, buffer: &mut [u32]) -> u32 {
    let field = match check_record(record) {
        Ok(field) => field,
        Err(number) => return number,
    };
    if buffer.is_empty() {
        return 0;
    }
    if !fits_phase(record, false, buffer.len()) {
        *record = WIPED;
        return 9;
    }
    for element in buffer.iter_mut() {
        *element = squeeze_element(field, record);
    }
    count_done(record, buffer.len());
    0
}

/// "FINISH checks 7, 8, 11." "FINISH before the last phase's end"; "FINISH wipes the caller's own record"; "Numbers 9
/// and 11 wipe the record; 7, 8 and 10 leave it."
pub fn finish(record: &mut Session) -> u32 {
    if let Err(number) = check_record(record) {
        return number;
    }
    let number = if record.phase < record.count { 11 } else { 0 };
    *record = WIPED;
    number
}
