//! The stored questions of `seal_vectors`, sealed and opened through the functions of `ffi`, the crate's types and the independent implementation.
//! Their answers are those of the second implementation, in Python, by other hands (`tests/oracle`). The lines are described at the top
//! of `tests/seal.py`.

mod guarded;
mod independent;
#[macro_use]
mod same_fields;
mod inputs;
mod interfaces;
mod stored;

use guarded::Random;
use independent::SealInputs;
use inputs::FILLED;
use interfaces::{Functions, Independent, Interface, Types};
use stored::{bytes_of, words_of, Line};

const PROGRAM: &str = "seal_vectors";
/// The lines that seal and open.
const LINES: [(&str, usize); 2] = [("s ", 880), ("o ", 1454)];

/// The line of output for a line of input.
fn answer(by: &dyn Interface, noise: &mut Random, input: &str) -> String {
    let [kind, field, key, nonce, separator, lengths, text, size] = input.split(' ').collect::<Vec<_>>()[..] else {
        panic!("no line of eight fields");
    };
    let inputs = SealInputs {
        field: words_of(field)[0],
        key: &words_of(key),
        nonce: &words_of(nonce),
        separator: &bytes_of(separator),
        lengths: &words_of(lengths),
    };
    let mut buffer = vec![FILLED; usize::from_str_radix(size, 16).unwrap()];
    let number = match kind {
        "s" => by.seal(noise, &inputs, &words_of(text), &mut buffer),
        "o" => by.open(noise, &inputs, &words_of(text), &mut buffer),
        _ => panic!("no such kind of line"),
    };
    let left: String = buffer.iter().map(|place| format!("{place:08x}")).collect();
    format!("{kind} {number} {left}")
}

fn replay_all(by: &dyn Interface) {
    let mut noise = Random::new(1);
    let inputs = stored::lines(PROGRAM, "stdin");
    let outputs = stored::lines(PROGRAM, "stdout");
    assert_eq!(inputs.len(), outputs.len());
    for (kind, count) in LINES {
        let lines = inputs.iter().filter(|input| input.starts_with(kind));
        assert_eq!(lines.count(), count, "lines of {kind}");
    }
    for (k, (input, output)) in inputs.iter().zip(&outputs).enumerate() {
        let _line = Line(k + 1, input);
        assert_eq!(answer(by, &mut noise, input), *output);
    }
}

#[test]
fn functions_give_the_stored_answers() {
    replay_all(&Functions);
}

#[test]
fn types_give_the_stored_answers() {
    replay_all(&Types);
}

#[test]
fn independent_implementation_gives_the_stored_answers() {
    replay_all(&Independent);
}
