//! The stored patterns, strings and words of `crates/tag_vectors`, written, read and cut through the functions of `ffi`, the crate's types and the
//! independent implementation.
//! Their answers are those of the second implementation, in Python, by other hands (`tests/oracle`). The lines are described at the top
//! of `tests/tags.py`; of what the program answers, that is compared which an exported function gives.

mod guarded;
mod independent;
#[macro_use]
mod same_fields;
mod inputs;
mod interfaces;
mod stored;

use guarded::{Random, ReadTag};
use interfaces::{Functions, Independent, Interface, Types};
use stored::{bytes_of, word_of, words_of, Line};

const PROGRAM: &str = "tag_vectors";
/// The lines that write, read and cut.
const LINES: [(&str, usize); 3] = [("w ", 797), ("r ", 604), ("c ", 147)];

/// A number, how many words there are, those, and the sum of the unused ones.
fn shown((number, words, count): (u32, [u32; 64], usize)) -> String {
    let used: String = words[..count].iter().map(|word| format!("{word:08x}")).collect();
    let others: u64 = words[count..].iter().map(|word| u64::from(*word)).sum();
    format!("{number} {count} {used} {others}")
}

/// Of a buffer that holds a5 at every place.
fn written(by: &dyn Interface, noise: &mut Random, form: u32, words: &str, separator: &str, length: &str) -> String {
    let mut buffer = vec![0xa5; usize::from_str_radix(length, 16).unwrap()];
    let (number, written) = by.write_tag(noise, form, &words_of(words), &bytes_of(separator), &mut buffer);
    let bytes: String = buffer.iter().map(|byte| format!("{byte:02x}")).collect();
    format!("{number} {written} {bytes}")
}

/// What was read, and where the separator lies, its length and its bytes.
fn read(by: &dyn Interface, noise: &mut Random, form: u32, string: &[u8], length: &str) -> String {
    let length = usize::from_str_radix(length, 16).unwrap();
    let ReadTag {
        number,
        words,
        count,
        separator_start,
        separator_count,
    } = by.read_tag(noise, form, string, length);
    let separator = &string[separator_start..][..separator_count];
    let bytes: String = separator.iter().map(|byte| format!("{byte:02x}")).collect();
    let words = shown((number, words, count));
    format!("{words}, {separator_start} {separator_count} {bytes}")
}

/// What is found for a line of input, and what the line of output has for it.
fn replay_line<'a>(by: &dyn Interface, noise: &mut Random, input: &str, output: &'a str) -> (String, &'a str) {
    let all = &output[2..];
    let second = all.split_once(", ").map_or("", |(_, second)| second);
    match input.split(' ').collect::<Vec<_>>()[..] {
        ["w", form, words, separator, length] => (written(by, noise, word_of(form), words, separator, length), second),
        ["r", form, string, length] => (read(by, noise, word_of(form), &bytes_of(string), length), all),
        ["c", words] => (shown(by.cut(noise, &words_of(words))), all),
        _ => panic!("no such kind of line"),
    }
}

fn replay_all(by: &dyn Interface) {
    let mut noise = Random::new(1);
    let (inputs, outputs) = (stored::lines(PROGRAM, "stdin"), stored::lines(PROGRAM, "stdout"));
    assert_eq!(inputs.len(), outputs.len());
    for (kind, count) in LINES {
        let lines = inputs.iter().zip(&outputs).enumerate();
        let lines = lines.filter(|(_, (input, _))| input.starts_with(kind));
        assert_eq!(lines.clone().count(), count, "lines of {kind}");
        for (k, (input, output)) in lines {
            let _line = Line(k + 1, input);
            let (found, expected) = replay_line(by, &mut noise, input, output);
            assert_eq!(found, expected);
        }
    }
}

#[test]
fn functions_give_the_stored_answers() {
    replay_all(&Functions);
}

#[test]
fn types_give_the_stored_answers() {
    replay_all(&Types);
}

#[test]
fn independent_implementation_gives_the_stored_answers() {
    replay_all(&Independent);
}
