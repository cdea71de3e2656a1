//! The stored sessions of `crates/session_vectors`, replayed through the functions of `ffi`, the crate's types and the independent
//! implementation.
//! Their answers are those of the second implementation, in Python, by other hands (`tests/oracle`). The lines are described at the top
//! of `tests/sessions.py`.

mod guarded;
mod independent;
#[macro_use]
mod same_fields;
mod inputs;
mod interfaces;
mod stored;

use guarded::Random;
use interfaces::{Functions, Independent, Interface, Types};
use stored::{bytes_of, words_of, Line};
use tuilarder::ffi::Record;

const PROGRAM: &str = "session_vectors";
const LINES: usize = 9009;
const CALLS: usize = 7748;
const RECORDS: usize = 1261;

/// A record as its three lists: the numbers with the permutations as two words, the state, and the pattern words.
type Lists = [Vec<u32>; 3];

fn lists_of(r: &Record) -> Lists {
    let permutations = [(r.permutations >> 32) as u32, r.permutations as u32];
    let numbers = [
        r.status,
        r.field,
        r.form,
        r.count,
        r.phase,
        r.done,
        r.absorb_position,
        r.squeeze_position,
    ];
    [
        [&numbers[..], &permutations].concat(),
        r.state.to_vec(),
        r.words.to_vec(),
    ]
}

fn record_of([numbers, state, words]: &Lists) -> Record {
    Record {
        status: numbers[0],
        field: numbers[1],
        form: numbers[2],
        state: state[..].try_into().unwrap(),
        words: words[..].try_into().unwrap(),
        count: numbers[3],
        phase: numbers[4],
        done: numbers[5],
        absorb_position: numbers[6],
        squeeze_position: numbers[7],
        permutations: u64::from(numbers[8]) << 32 | u64::from(numbers[9]),
    }
}

/// What replays the calls, and its record.
struct Replay {
    by: &'static dyn Interface,
    record: Record,
    noise: Random,
}

/// The three lists of a record with the zeros at their ends, where `=` is the list before.
fn lists_in(fields: &[&str], before: &Lists) -> Lists {
    let list = |k: usize, size: usize| {
        if fields[k] == "=" {
            return before[k].clone();
        }
        let mut words = words_of(fields[k]);
        assert!(words.len() <= size);
        words.resize(size, 0);
        words
    };
    [list(0, 10), list(1, 24), list(2, 64)]
}

/// Does one line's call and compares all that it left with the line of output.
fn replay_line(replay: &mut Replay, input: &str, output: &str) {
    let before = lists_of(&replay.record);
    let fields: Vec<&str> = input.split(' ').collect();
    let answers: Vec<&str> = output.split(' ').collect();
    assert_eq!(fields[0], answers[0], "the kind of line");
    if fields[0] == "t" {
        let put = lists_in(&fields[1..], &before);
        assert_eq!(put, lists_in(&answers[1..], &before), "the record put");
        replay.record = record_of(&put);
        return;
    }
    let Replay { by, record, noise } = replay;
    let mut buffer = words_of(if fields[0] == "q" { fields[1] } else { "" });
    let number = match fields[0] {
        "s" => {
            let (numbers, words, separator) = (words_of(fields[1]), words_of(fields[2]), bytes_of(fields[3]));
            assert_eq!(numbers.len(), 2, "a field and a form");
            by.start(noise, record, numbers[0], numbers[1], &words, &separator)
        }
        "a" => by.absorb(noise, record, &words_of(fields[1])),
        "q" => by.squeeze(noise, record, &mut buffer),
        "f" => by.finish(noise, record),
        _ => panic!("no such kind of line"),
    };
    assert_eq!(number.to_string(), answers[1], "the number");
    assert_eq!(lists_of(record), lists_in(&answers[2..5], &before), "the record");
    assert_eq!(buffer, words_of(answers.get(5).unwrap_or(&"")), "the buffer");
}

fn replay_all(by: &'static dyn Interface) {
    let (record, noise) = (record_of(&[vec![0; 10], vec![0; 24], vec![0; 64]]), Random::new(1));
    let mut replay = Replay { by, record, noise };
    let (inputs, outputs) = (stored::lines(PROGRAM, "stdin"), stored::lines(PROGRAM, "stdout"));
    let records = inputs.iter().filter(|line| line.starts_with("t ")).count();
    assert_eq!((inputs.len(), outputs.len(), records), (LINES, LINES, RECORDS));
    let mut calls = 0;
    for (k, (input, output)) in inputs.iter().zip(&outputs).enumerate() {
        let _line = Line(k + 1, input);
        replay_line(&mut replay, input, output);
        calls += usize::from(!input.starts_with('t'));
    }
    assert_eq!(calls, CALLS);
}

#[test]
fn functions_give_the_stored_answers() {
    replay_all(&Functions);
}

#[test]
fn types_give_the_stored_answers() {
    replay_all(&Types);
}

#[test]
fn independent_implementation_gives_the_stored_answers() {
    replay_all(&Independent);
}
