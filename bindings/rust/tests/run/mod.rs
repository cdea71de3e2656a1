//! One test over many random cases: the calls by the library, each compared with the independent implementation's.
//!
//! The inputs follow from a seed. TUILARDER_SEED sets another one: a decimal number, or `random` for one from the clock.
//! A failure prints the seed, the case, the last call, and how to run it again.

// Each program that takes this file in uses only a part of it.
#![allow(dead_code)]

use crate::guarded::Random;
use crate::inputs::{Call, NoteCall};
use crate::interfaces::{perform, Independent, Interface};
use std::collections::BTreeMap;
use std::fmt::Debug;
use std::io::Write;
use tuilarder::ffi::Record;

const DEFAULT_SEED: u64 = 1;

/// How often each number, and each way to damage a record, has to come up at least.
const REACHED: u64 = 20;

/// Where a test is, its random numbers, and how often each call answered each number.
pub struct Run {
    test: &'static str,
    library: &'static dyn Interface,
    seed: u64,
    pub case: u64,
    pub last: Box<dyn Debug>,
    pub random: Random,
    /// For what surrounds the lent lists.
    pub noise: Random,
    answers: BTreeMap<(&'static str, u32), u64>,
}

impl Drop for Run {
    fn drop(&mut self) {
        if std::thread::panicking() {
            eprintln!("seed {}, case {}, last call: {:x?}", self.seed, self.case, self.last);
            eprintln!(
                "again: TUILARDER_SEED={} cargo test --test {} {}",
                self.seed,
                env!("CARGO_CRATE_NAME"),
                self.test
            );
        }
    }
}

fn seed() -> u64 {
    let Ok(text) = std::env::var("TUILARDER_SEED") else {
        return DEFAULT_SEED;
    };
    if text != "random" {
        return text.parse().expect("TUILARDER_SEED is a decimal number or `random`");
    }
    let now = std::time::SystemTime::now().duration_since(std::time::UNIX_EPOCH);
    let seed = now.expect("the clock is past 1970").as_nanos() as u64;
    // Written as the test harness does not hold it back, so that it is known even if the process dies.
    let line = format!("TUILARDER_SEED={seed}\n");
    std::io::stderr()
        .write_all(line.as_bytes())
        .expect("standard error is open");
    seed
}

impl Run {
    pub fn of(test: &'static str, library: &'static dyn Interface, cases: u64, one: impl Fn(&mut Run)) -> Run {
        let seed = seed();
        let (random, noise) = (Random::new(seed), Random::new(!seed));
        let mut run = Run {
            test,
            library,
            seed,
            case: 0,
            last: Box::new(()),
            random,
            noise,
            answers: BTreeMap::new(),
        };
        for case in 0..cases {
            run.case = case;
            one(&mut run);
        }
        println!("{test}: {:?}", run.answers);
        run
    }

    pub fn answered(&mut self, call: &'static str, number: u32) {
        *self.answers.entry((call, number)).or_default() += 1;
    }

    /// That a call answered each of these numbers, and often enough.
    pub fn assert_reached(&self, call: &'static str, numbers: &[u32]) {
        for number in numbers {
            let times = self.answers.get(&(call, *number)).copied().unwrap_or(0);
            assert!(times >= REACHED, "{call} answered {number} only {times} times");
        }
    }

    /// That a call answered each of these numbers, and often enough, and no other.
    pub fn assert_numbers(&self, call: &'static str, numbers: &[u32]) {
        self.assert_reached(call, numbers);
        let others = self
            .answers
            .keys()
            .filter(|(name, number)| *name == call && !numbers.contains(number));
        assert_eq!(
            others.count(),
            0,
            "{call} answered another number than {numbers:?}: {:?}",
            self.answers
        );
    }

    pub fn total(&self, calls: &[&str]) -> u64 {
        self.answers
            .iter()
            .filter(|((name, _), _)| calls.contains(name))
            .map(|(_, times)| times)
            .sum()
    }

    pub fn session_calls(&self) -> u64 {
        self.total(&["START", "ABSORB", "SQUEEZE", "FINISH"])
    }

    /// Does a call on a record by both and compares all that they left.
    pub fn call(&mut self, record: &mut Record, call: Call) -> u32 {
        self.last = Box::new((call.clone(), *record));
        let mut expected = *record;
        let (_, number, expected_buffer) = perform(&Independent, &mut self.noise, &mut expected, &call);
        let (name, answer, buffer) = perform(self.library, &mut self.noise, record, &call);
        assert_eq!(answer, number, "the number");
        assert_eq!(*record, expected, "the record");
        assert_eq!(buffer, expected_buffer, "the buffer");
        self.answered(name, number);
        number
    }

    /// Writing by both into a buffer of a size. Gives the number and the bytes written.
    pub fn write_tag(&mut self, form: u32, words: &[u32], separator: &[u8], size: usize) -> (u32, Vec<u8>) {
        let mut out: Vec<u8> = self.random.list(size);
        let mut expected = out.clone();
        self.last = Box::new(("write_tag", form, words.to_vec(), separator.to_vec(), out.clone()));
        let answer = self
            .library
            .write_tag(&mut self.noise, form, words, separator, &mut out);
        let (number, written) = Independent.write_tag(&mut self.noise, form, words, separator, &mut expected);
        assert_eq!(answer, (number, written), "the number and what was written");
        assert_eq!(out, expected, "the buffer");
        self.answered("write_tag", number);
        out.truncate(written);
        (number, out)
    }

    /// Reading by both. Gives the number, the words and the separator.
    pub fn read_tag(&mut self, form: u32, string: &[u8], separator_length: usize) -> (u32, Vec<u32>, Vec<u8>) {
        self.last = Box::new(("read_tag", form, string.to_vec(), separator_length));
        let expected = Independent.read_tag(&mut self.noise, form, string, separator_length);
        let answer = self.library.read_tag(&mut self.noise, form, string, separator_length);
        assert_eq!(answer, expected, "the number, the words and where the separator lies");
        self.answered("read_tag", answer.number);
        let separator = &string[answer.separator_start..][..answer.separator_count];
        (answer.number, answer.words[..answer.count].to_vec(), separator.to_vec())
    }

    /// Words cut by both. Gives the number and the calls.
    pub fn cut(&mut self, words: &[u32]) -> (u32, Vec<u32>) {
        self.last = Box::new(("cut", words.to_vec()));
        let expected = Independent.cut(&mut self.noise, words);
        let answer = self.library.cut(&mut self.noise, words);
        assert_eq!(answer, expected, "the number, the calls and their count");
        self.answered("cut", answer.0);
        (answer.0, answer.1[..answer.2].to_vec())
    }

    /// Hashing by both.
    pub fn sha3_256(&mut self, data: &[u8]) {
        self.last = Box::new(("sha3_256", data.to_vec()));
        let expected = Independent.sha3_256(&mut self.noise, data);
        assert_eq!(self.library.sha3_256(&mut self.noise, data), expected, "the digest");
        self.answered("sha3_256", 0);
    }

    /// One permutation by both. Gives the number.
    pub fn permute(&mut self, field: u32, state: &mut [u32; 24]) -> u32 {
        self.last = Box::new(("permute", field, *state));
        let mut expected = *state;
        let number = Independent.permute(&mut self.noise, field, &mut expected);
        assert_eq!(
            self.library.permute(&mut self.noise, field, state),
            number,
            "the number"
        );
        assert_eq!(*state, expected, "the state");
        self.answered("permute", number);
        number
    }

    /// The generator by both. Gives the number and how many constants were found.
    pub fn generate(&mut self, field: u32) -> (u32, usize) {
        self.last = Box::new(("generate", field));
        let expected = Independent.generate(&mut self.noise, field);
        let answer = self.library.generate(&mut self.noise, field);
        assert_eq!(answer, expected, "the number, the places and how many were found");
        self.answered("generate", answer.0);
        (answer.0, answer.2)
    }

    /// A table of owners checked by both. Gives the number and the place.
    pub fn check_owners(&mut self, table: &[u8]) -> (u32, u32) {
        self.last = Box::new(("check_owners", table.to_vec()));
        let expected = Independent.check_owners(&mut self.noise, table);
        let answer = self.library.check_owners(&mut self.noise, table);
        assert_eq!(answer, expected, "the number and the place");
        self.answered("check_owners", answer.0);
        answer
    }

    /// A table of owners asked about a separator by both.
    pub fn owner(&mut self, table: &[u8], separator: &[u8]) {
        self.last = Box::new(("owner", table.to_vec(), separator.to_vec()));
        let expected = Independent.owner(&mut self.noise, table, separator);
        let answer = self.library.owner(&mut self.noise, table, separator);
        assert_eq!(answer, expected, "the number and the value");
        self.answered("owner", answer.0);
    }

    /// A note sealed or opened by both. Gives the number and what the buffer holds afterwards, which is also compared with the document's words.
    pub fn note(&mut self, call: &NoteCall) -> (u32, Vec<u32>) {
        self.last = Box::new(call.clone());
        let (inputs, mut out, mut expected) = (call.inputs(), call.out.clone(), call.out.clone());
        let (name, noise) = (if call.opening { "open" } else { "seal" }, &mut self.noise);
        let (answer, number) = if call.opening {
            (
                self.library.open(noise, &inputs, &call.text, &mut out),
                Independent.open(noise, &inputs, &call.text, &mut expected),
            )
        } else {
            (
                self.library.seal(noise, &inputs, &call.text, &mut out),
                Independent.seal(noise, &inputs, &call.text, &mut expected),
            )
        };
        assert_eq!(answer, number, "the number");
        assert_eq!(out, expected, "the buffer");
        match number {
            0 => (),
            // "a wrong mark leaves zeros where the blocks would be"
            21 => assert_eq!(out, vec![0; call.out.len()]),
            // "A refused seal or open writes nothing"
            _ => assert_eq!(out, call.out),
        }
        self.answered(name, number);
        (number, out)
    }
}
