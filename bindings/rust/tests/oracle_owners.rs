//! The stored tables of owners of `crates/owner_vectors`, checked and asked through the functions of `ffi`, the crate's types and the
//! independent implementation.
//! Their answers are those of the second implementation, in Python, by other hands (`tests/oracle`). The lines are described at the top
//! of `tests/owners.py`.

mod guarded;
mod independent;
#[macro_use]
mod same_fields;
mod inputs;
mod interfaces;
mod stored;

use guarded::Random;
use interfaces::{Functions, Independent, Interface, Types};
use stored::{bytes_of, Line};

const PROGRAM: &str = "owner_vectors";
const LINES: usize = 561;

/// The line of output for a table and a separator.
fn answer(by: &dyn Interface, noise: &mut Random, table: &[u8], separator: &[u8]) -> String {
    let (checked, place) = by.check_owners(noise, table);
    let owned = match by.owner(noise, table, separator) {
        (0, line) => format!("0 0 {line}"),
        (number, place) => format!("{number} {place} 0"),
    };
    format!("c {checked} {place}, o {owned}")
}

fn replay_all(by: &dyn Interface) {
    let mut noise = Random::new(1);
    let (inputs, outputs) = (stored::lines(PROGRAM, "stdin"), stored::lines(PROGRAM, "stdout"));
    assert_eq!((inputs.len(), outputs.len()), (LINES, LINES));
    for (k, (input, output)) in inputs.iter().zip(&outputs).enumerate() {
        let _line = Line(k + 1, input);
        let (table, separator) = input.split_once(' ').expect("two fields");
        let found = answer(by, &mut noise, &bytes_of(table), &bytes_of(separator));
        assert_eq!(found, *output);
    }
}

#[test]
fn functions_give_the_stored_answers() {
    replay_all(&Functions);
}

#[test]
fn types_give_the_stored_answers() {
    replay_all(&Types);
}

#[test]
fn independent_implementation_gives_the_stored_answers() {
    replay_all(&Independent);
}
