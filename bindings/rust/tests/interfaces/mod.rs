//! The same calls by three: the functions of `ffi`, the crate's types, and the independent implementation.

// Each program that takes this file in uses only a part of it.
#![allow(dead_code, unused_macros)]

use crate::guarded::{self, Any, Lent, Random, ReadTag};
use crate::independent::{self, SealInputs, Session as Other};
use crate::inputs::Call;
use std::ptr;
use tuilarder::ffi::Record;
use tuilarder::{Field, Form, Owners, OwnersFault, Pattern, Protocol, Refusal, Seal, Session};

/// What takes calls, and answers each with a number. The random numbers are for what surrounds the lent lists.
pub trait Interface {
    fn start(
        &self,
        noise: &mut Random,
        record: &mut Record,
        field: u32,
        form: u32,
        words: &[u32],
        separator: &[u8],
    ) -> u32;
    fn absorb(&self, noise: &mut Random, record: &mut Record, elements: &[u32]) -> u32;
    fn squeeze(&self, noise: &mut Random, record: &mut Record, buffer: &mut [u32]) -> u32;
    fn finish(&self, noise: &mut Random, record: &mut Record) -> u32;
    fn permute(&self, noise: &mut Random, field: u32, state: &mut [u32; 24]) -> u32;
    /// The number, the places and how many constants were found.
    fn generate(&self, noise: &mut Random, field: u32) -> (u32, [u32; 744], usize);
    /// The number, and how many bytes were written.
    fn write_tag(&self, noise: &mut Random, form: u32, words: &[u32], separator: &[u8], out: &mut [u8])
        -> (u32, usize);
    fn read_tag(&self, noise: &mut Random, form: u32, string: &[u8], separator_length: usize) -> ReadTag;
    /// The number, the calls and their count.
    fn cut(&self, noise: &mut Random, words: &[u32]) -> (u32, [u32; 64], usize);
    fn sha3_256(&self, noise: &mut Random, data: &[u8]) -> [u8; 32];
    /// The number, and the place that comes with it.
    fn check_owners(&self, noise: &mut Random, table: &[u8]) -> (u32, u32);
    /// The number, and the value that comes with it.
    fn owner(&self, noise: &mut Random, table: &[u8], separator: &[u8]) -> (u32, u32);
    fn seal(&self, noise: &mut Random, inputs: &SealInputs, plain: &[u32], out: &mut [u32]) -> u32;
    fn open(&self, noise: &mut Random, inputs: &SealInputs, sealed: &[u32], out: &mut [u32]) -> u32;
}

/// Each test by the functions and by the types.
macro_rules! by_both {
    ($($test:ident)*) => {
        mod functions {
            $(
                #[test]
                fn $test() {
                    super::$test(&super::interfaces::Functions);
                }
            )*
        }
        mod types {
            $(
                #[test]
                fn $test() {
                    super::$test(&super::interfaces::Types);
                }
            )*
        }
    };
}

/// Does a session's call: its name, the number, and the buffer it left.
pub fn perform(
    interface: &dyn Interface,
    noise: &mut Random,
    record: &mut Record,
    call: &Call,
) -> (&'static str, u32, Vec<u32>) {
    match call {
        Call::Start(field, form, words, separator) => {
            let number = interface.start(noise, record, *field, *form, words, separator);
            ("START", number, vec![])
        }
        Call::Absorb(elements) => ("ABSORB", interface.absorb(noise, record, elements), vec![]),
        Call::Squeeze(buffer) => {
            let mut buffer = buffer.clone();
            ("SQUEEZE", interface.squeeze(noise, record, &mut buffer), buffer)
        }
        Call::Finish => ("FINISH", interface.finish(noise, record), vec![]),
    }
}

// The functions

pub struct Functions;

impl Interface for Functions {
    fn start(
        &self,
        noise: &mut Random,
        record: &mut Record,
        field: u32,
        form: u32,
        words: &[u32],
        separator: &[u8],
    ) -> u32 {
        guarded::start(noise, record, field, form, words, separator)
    }
    fn absorb(&self, noise: &mut Random, record: &mut Record, elements: &[u32]) -> u32 {
        guarded::absorb(noise, record, elements)
    }
    fn squeeze(&self, noise: &mut Random, record: &mut Record, buffer: &mut [u32]) -> u32 {
        guarded::squeeze(noise, record, buffer)
    }
    fn finish(&self, noise: &mut Random, record: &mut Record) -> u32 {
        guarded::finish(noise, record)
    }
    fn permute(&self, noise: &mut Random, field: u32, state: &mut [u32; 24]) -> u32 {
        guarded::permute(noise, field, state)
    }
    fn generate(&self, noise: &mut Random, field: u32) -> (u32, [u32; 744], usize) {
        guarded::generate(noise, field)
    }
    fn write_tag(
        &self,
        noise: &mut Random,
        form: u32,
        words: &[u32],
        separator: &[u8],
        out: &mut [u8],
    ) -> (u32, usize) {
        guarded::write_tag(noise, form, words, separator, out)
    }
    fn read_tag(&self, noise: &mut Random, form: u32, string: &[u8], separator_length: usize) -> ReadTag {
        guarded::read_tag(noise, form, string, separator_length)
    }
    fn cut(&self, noise: &mut Random, words: &[u32]) -> (u32, [u32; 64], usize) {
        guarded::cut(noise, words)
    }
    fn sha3_256(&self, noise: &mut Random, data: &[u8]) -> [u8; 32] {
        guarded::sha3_256(noise, data)
    }
    fn check_owners(&self, noise: &mut Random, table: &[u8]) -> (u32, u32) {
        guarded::check_owners(noise, table)
    }
    fn owner(&self, noise: &mut Random, table: &[u8], separator: &[u8]) -> (u32, u32) {
        guarded::owner(noise, table, separator)
    }
    fn seal(&self, noise: &mut Random, inputs: &SealInputs, plain: &[u32], out: &mut [u32]) -> u32 {
        guarded::seal(noise, inputs, plain, out)
    }
    fn open(&self, noise: &mut Random, inputs: &SealInputs, sealed: &[u32], out: &mut [u32]) -> u32 {
        guarded::open(noise, inputs, sealed, out)
    }
}

// The types

/// The refusals, each with the number that documents 01 and 02 have for it; 14 belongs to cards.
const REFUSALS: [(u32, Refusal); 21] = [
    (1, Refusal::WordCountOutOfRange),
    (2, Refusal::WordLengthZero),
    (3, Refusal::FirstWordSqueeze),
    (4, Refusal::LastWordAbsorb),
    (5, Refusal::MergedLengthTooLong),
    (6, Refusal::SeparatorTooLong),
    (7, Refusal::RecordNotOpen),
    (8, Refusal::RecordNotSound),
    (9, Refusal::CallNotInPattern),
    (10, Refusal::ElementNotReduced),
    (11, Refusal::PatternNotDone),
    (12, Refusal::BufferTooShort),
    (13, Refusal::NotTagString),
    (15, Refusal::OwnersRowInvalid),
    (16, Refusal::OwnersGap),
    (17, Refusal::SeparatorTooShort),
    (18, Refusal::FieldUnknown),
    (19, Refusal::CallTooLong),
    (20, Refusal::SealLengthInvalid),
    (21, Refusal::MarkDiffers),
    (22, Refusal::FormUnknown),
];

/// The number of an answer by its variant, which has to be the one that the crate gives it.
pub fn number_of<T>(answer: &Result<T, Refusal>) -> u32 {
    let Err(refusal) = answer else {
        return 0;
    };
    let row = REFUSALS.iter().find(|(_, other)| other == refusal);
    let number = row.expect("a refusal of the list").0;
    assert_eq!(refusal.number(), number, "the number of {refusal:?}");
    assert_eq!(Refusal::from_number(number), Some(*refusal));
    number
}

/// The number of a table's fault by its variant, and the place.
pub fn number_and_place(fault: &OwnersFault) -> (u32, u32) {
    let (number, place) = match fault {
        OwnersFault::Row(row) => (15, *row),
        OwnersFault::Gap(least) => (16, *least),
    };
    assert_eq!(number_of::<()>(&Err(fault.refusal())), number);
    (number, place)
}

/// The field with this number, if there is one: "1 for today's and 2 for this one".
pub fn field_of(number: u32) -> Option<Field> {
    let field = match number {
        1 => Some(Field::BabyBear),
        2 => Some(Field::KoalaBear),
        _ => None,
    };
    assert_eq!(Field::from_number(number), field);
    field
}

/// The form with this number, if there is one: "a form number, 1 for today's string", and 2.
pub fn form_of(number: u32) -> Option<Form> {
    let form = match number {
        1 => Some(Form::One),
        2 => Some(Form::Two),
        _ => None,
    };
    assert_eq!(Form::from_number(number), form);
    form
}

/// The record of a session, which has to be what is seen of it otherwise, and in its fork.
pub fn record_of(session: &Session) -> Record {
    let record = *session.record();
    assert_eq!(session.field(), field_of(record.field), "the field");
    assert_eq!(session.form(), form_of(record.form), "the form");
    assert_eq!(session.permutations(), record.permutations, "the permutations");
    let (open, phase, done, permutations) = (record.status == 1, record.phase, record.done, record.permutations);
    assert_eq!(
        format!("{session:?}"),
        format!("Session {{ open: {open}, phase: {phase}, done: {done}, permutations: {permutations}, .. }}")
    );
    assert_eq!(*session.fork().record(), record, "the fork's record");
    record
}

/// The session of a record, which holds just that.
fn session_of(record: &Record) -> Session {
    let session = Session::from_record(*record);
    assert_eq!(record_of(&session), *record, "the record put in");
    session
}

/// That a protocol holds what it was made of, and the tag string that belongs to it.
pub fn check_protocol(protocol: &Protocol, field: Field, form: Form, words: &[u32], separator: &[u8]) {
    let mut string = [0; 516];
    let size = independent::write_tag(form.number(), words, separator, &mut string).expect("an accepted opening");
    assert_eq!(protocol.field(), field, "the protocol's field");
    assert_eq!(protocol.form(), form, "the protocol's form");
    assert_eq!(protocol.pattern().words(), words, "the protocol's words");
    assert_eq!(protocol.separator(), separator, "the protocol's separator");
    assert_eq!(protocol.tag_string(), &string[..size], "the protocol's tag string");
}

/// A protocol; form 1 has a constructor of its own, which has to make the same.
pub fn protocol_of(field: Field, form: Form, pattern: &Pattern, separator: &[u8]) -> Result<Protocol, Refusal> {
    let answer = Protocol::with_form(field, form, pattern, separator);
    if form == Form::One {
        assert_eq!(Protocol::new(field, pattern, separator), answer, "form 1 by both");
    }
    answer
}

/// Sealing or opening, of a text and a buffer.
type OfSeal = fn(&Seal, &[u32], &mut [u32]) -> Result<(), Refusal>;

/// A note sealed or opened by the types, in lent lists. No type holds an unknown field, or a key or nonce of another length than eight: these are not
/// asked for, and get nothing.
fn note_by_types(noise: &mut Random, inputs: &SealInputs, text: &[u32], out: &mut [u32], call: OfSeal) -> Option<u32> {
    let field = field_of(inputs.field)?;
    let (key, nonce) = (inputs.key.try_into().ok()?, inputs.nonce.try_into().ok()?);
    let (keys, separator) = (Lent::new(&[key, nonce], noise), Lent::new(inputs.separator, noise));
    let [lengths, text, mut lent] = [inputs.lengths, text, out].map(|list| Lent::new(list, noise));
    let seal = Seal {
        field,
        key: &keys.part()[0],
        nonce: &keys.part()[1],
        separator: separator.part(),
        lengths: lengths.part(),
    };
    let number = number_of(&call(&seal, text.part(), lent.part_mut()));
    keys.only_read();
    separator.only_read();
    lengths.only_read();
    text.only_read();
    out.copy_from_slice(lent.returned());
    Some(number)
}

/// Words with zeros behind them.
fn in_64_places(words: &[u32]) -> [u32; 64] {
    std::array::from_fn(|k| words.get(k).copied().unwrap_or(0))
}

/// The merged words of a pattern, by its tag string.
fn merged_words(pattern: &Pattern) -> Vec<u32> {
    let mut buffer = [0; 256];
    let string = pattern.tag_string(&[], &mut buffer).expect("an accepted pattern");
    let words = string.chunks(4).map(|four| four.try_into().expect("four bytes"));
    words.map(u32::from_be_bytes).collect()
}

pub struct Types;

impl Interface for Types {
    /// No type holds an unknown field or form, so that 18 and 22 are not asked for. Numbers 1, 2, 19 and 3 are those of the pattern, 6 is the
    /// protocol's. Refused, it gives no record.
    fn start(
        &self,
        noise: &mut Random,
        record: &mut Record,
        field: u32,
        form: u32,
        words: &[u32],
        separator: &[u8],
    ) -> u32 {
        *record = Record::WIPED;
        let Some(field) = field_of(field) else {
            return 18;
        };
        let Some(form) = form_of(form) else {
            return 22;
        };
        let (words, separator) = (Lent::new(words, noise), Lent::new(separator, noise));
        let pattern = Pattern::from_words(words.part());
        let answer = pattern.and_then(|pattern| protocol_of(field, form, &pattern, separator.part()));
        if let Ok(protocol) = &answer {
            check_protocol(protocol, field, form, words.part(), separator.part());
            *record = record_of(&protocol.start());
        }
        number_of(&answer)
    }

    fn absorb(&self, noise: &mut Random, record: &mut Record, elements: &[u32]) -> u32 {
        let (mut session, elements) = (session_of(record), Lent::new(elements, noise));
        let number = number_of(&session.absorb(elements.part()));
        elements.only_read();
        *record = record_of(&session);
        number
    }

    fn squeeze(&self, noise: &mut Random, record: &mut Record, buffer: &mut [u32]) -> u32 {
        let (mut session, mut out) = (session_of(record), Lent::new(buffer, noise));
        let number = number_of(&session.squeeze(out.part_mut()));
        buffer.copy_from_slice(out.returned());
        *record = record_of(&session);
        number
    }

    /// The session is over and shows no record: here is left what document 01 leaves.
    fn finish(&self, _: &mut Random, record: &mut Record) -> u32 {
        let number = number_of(&session_of(record).finish());
        if !matches!(number, 7 | 8) {
            *record = Record::WIPED;
        }
        number
    }

    fn permute(&self, noise: &mut Random, field: u32, state: &mut [u32; 24]) -> u32 {
        let Some(field) = field_of(field) else {
            return 18;
        };
        let mut lent = Lent::new(&[*state], noise);
        let number = number_of(&tuilarder::permute(field, &mut lent.part_mut()[0]));
        *state = lent.returned()[0];
        number
    }

    fn generate(&self, noise: &mut Random, field: u32) -> (u32, [u32; 744], usize) {
        let Some(field) = field_of(field) else {
            return (18, [0; 744], 0);
        };
        let mut lent = Lent::new(&[<[u32; 744]>::any(noise)], noise);
        let start = lent.part()[0].as_ptr();
        let constants = tuilarder::round_constants(field, &mut lent.part_mut()[0]);
        assert!(ptr::eq(constants.as_ptr(), start), "not the buffer's start");
        let count = constants.len();
        (0, lent.returned()[0], count)
    }

    /// No type holds an unknown form, so that 22 is not asked for. Numbers 1, 2, 19 and 3 are those of the pattern.
    fn write_tag(
        &self,
        noise: &mut Random,
        form: u32,
        words: &[u32],
        separator: &[u8],
        out: &mut [u8],
    ) -> (u32, usize) {
        let Some(form) = form_of(form) else {
            return (22, 0);
        };
        let mut lent = Lent::new(out, noise);
        let start = lent.part().as_ptr();
        let answer = Pattern::from_words(words).and_then(|pattern| {
            let string = match form {
                Form::One => pattern.tag_string(separator, lent.part_mut())?,
                Form::Two => pattern.tag_string_with_form(form, separator, lent.part_mut())?,
            };
            assert!(ptr::eq(string.as_ptr(), start), "not the buffer's start");
            Ok(string.len())
        });
        out.copy_from_slice(lent.returned());
        (number_of(&answer), answer.unwrap_or(0))
    }

    /// What was read are the merged words, which the pattern's own tag string has; what it declares is compared with them cut. Refused, it gives
    /// no words and no separator. With 1 they are read, and no type shows them: 64 calls must not suffice for those that the independent
    /// implementation reads. No type takes a length for form 2.
    fn read_tag(&self, noise: &mut Random, form: u32, string: &[u8], separator_length: usize) -> ReadTag {
        let refused = |number| ReadTag {
            number,
            words: [0; 64],
            count: 0,
            separator_start: string.len(),
            separator_count: 0,
        };
        let Some(known) = form_of(form) else {
            return refused(22);
        };
        let lent = Lent::new(string, noise);
        let answer = match known {
            Form::One => Pattern::read(lent.part(), separator_length),
            Form::Two => Pattern::read_form_2(lent.part()),
        };
        let number = number_of(&answer);
        lent.only_read();
        let (pattern, separator) = match answer {
            Ok(read) => read,
            Err(Refusal::WordCountOutOfRange) => {
                let read = Independent.read_tag(noise, form, string, separator_length);
                let cut = independent::cut(&read.words[..read.count]).0;
                assert_eq!((read.number, cut), (0, 1), "read, and not cut");
                return read;
            }
            Err(_) => return refused(number),
        };
        let separator_start = (separator.as_ptr() as usize).wrapping_sub(lent.part().as_ptr() as usize);
        assert!(
            separator_start <= string.len() && separator.len() <= string.len() - separator_start,
            "not a part of the string"
        );
        let calls = pattern.words();
        assert_eq!(pattern, Pattern::from_words(calls).expect("calls of a tag string"));
        let merged = merged_words(&pattern);
        assert_eq!(
            (0, in_64_places(calls), calls.len()),
            independent::cut(&merged),
            "the calls"
        );
        ReadTag {
            number,
            words: in_64_places(&merged),
            count: merged.len(),
            separator_start,
            separator_count: separator.len(),
        }
    }

    /// Only a tag string's words are cut, as it is read; others are not asked for.
    fn cut(&self, noise: &mut Random, words: &[u32]) -> (u32, [u32; 64], usize) {
        let string: Vec<u8> = words.iter().flat_map(|word| word.to_be_bytes()).collect();
        let string = Lent::new(&string, noise);
        match Pattern::read(string.part(), 0) {
            Ok((pattern, _)) => (0, in_64_places(pattern.words()), pattern.words().len()),
            Err(Refusal::NotTagString) => independent::cut(words),
            refused => (number_of(&refused), [0; 64], 0),
        }
    }

    fn sha3_256(&self, noise: &mut Random, data: &[u8]) -> [u8; 32] {
        tuilarder::sha3_256(Lent::new(data, noise).part())
    }

    /// Accepted, it gives no place.
    fn check_owners(&self, noise: &mut Random, table: &[u8]) -> (u32, u32) {
        let table = Lent::new(table, noise);
        let answer = Owners::new(table.part());
        table.only_read();
        answer.map_or_else(|fault| number_and_place(&fault), |_| (0, 0))
    }

    /// Numbers 15 and 16 are those of the table. With 17 it gives no value.
    fn owner(&self, noise: &mut Random, table: &[u8], separator: &[u8]) -> (u32, u32) {
        let (table, separator) = (Lent::new(table, noise), Lent::new(separator, noise));
        let owners = match Owners::new(table.part()) {
            Ok(owners) => owners,
            Err(fault) => return number_and_place(&fault),
        };
        let answer = owners.owner(separator.part());
        table.only_read();
        separator.only_read();
        (number_of(&answer), answer.map_or(0, u32::from))
    }

    fn seal(&self, noise: &mut Random, inputs: &SealInputs, plain: &[u32], out: &mut [u32]) -> u32 {
        let answer = note_by_types(noise, inputs, plain, out, |seal, plain, out| seal.seal(plain, out));
        answer.unwrap_or_else(|| independent::seal(inputs, plain, out))
    }

    fn open(&self, noise: &mut Random, inputs: &SealInputs, sealed: &[u32], out: &mut [u32]) -> u32 {
        let answer = note_by_types(noise, inputs, sealed, out, |seal, sealed, out| seal.open(sealed, out));
        answer.unwrap_or_else(|| independent::open(inputs, sealed, out))
    }
}

// The independent implementation

pub struct Independent;

/// A call on the record as the independent implementation has it.
fn on_other<T>(record: &mut Record, call: impl FnOnce(&mut Other) -> T) -> T {
    let mut other = same_fields!(Other, record);
    let answer = call(&mut other);
    *record = same_fields!(Record, other);
    answer
}

impl Interface for Independent {
    fn start(
        &self,
        _: &mut Random,
        record: &mut Record,
        field: u32,
        form: u32,
        words: &[u32],
        separator: &[u8],
    ) -> u32 {
        let (number, started) = independent::start(field, form, words, separator);
        *record = same_fields!(Record, started);
        number
    }
    fn absorb(&self, _: &mut Random, record: &mut Record, elements: &[u32]) -> u32 {
        on_other(record, |other| independent::absorb(other, elements))
    }
    fn squeeze(&self, _: &mut Random, record: &mut Record, buffer: &mut [u32]) -> u32 {
        on_other(record, |other| independent::squeeze(other, buffer))
    }
    fn finish(&self, _: &mut Random, record: &mut Record) -> u32 {
        on_other(record, independent::finish)
    }
    fn permute(&self, _: &mut Random, field: u32, state: &mut [u32; 24]) -> u32 {
        independent::permute(field, state)
    }
    fn generate(&self, _: &mut Random, field: u32) -> (u32, [u32; 744], usize) {
        independent::generate(field)
    }
    fn write_tag(&self, _: &mut Random, form: u32, words: &[u32], separator: &[u8], out: &mut [u8]) -> (u32, usize) {
        match independent::write_tag(form, words, separator, out) {
            Ok(written) => (0, written),
            Err(number) => (number, 0),
        }
    }
    /// "the separator comes back as that part of the string itself (empty on a refusal)": the last part, which in form 2 has four bytes behind it.
    /// A refused one is at the string's end.
    fn read_tag(&self, _: &mut Random, form: u32, string: &[u8], separator_length: usize) -> ReadTag {
        let (number, words, count) = independent::read_tag(form, string, separator_length);
        let separator = independent::read_separator(form, string, separator_length);
        let behind = if number == 0 && form == 2 { 4 } else { 0 };
        let separator_start = string.len() - behind - separator.len();
        assert_eq!(&string[separator_start..][..separator.len()], separator);
        ReadTag {
            number,
            words,
            count,
            separator_start,
            separator_count: separator.len(),
        }
    }
    fn cut(&self, _: &mut Random, words: &[u32]) -> (u32, [u32; 64], usize) {
        independent::cut(words)
    }
    fn sha3_256(&self, _: &mut Random, data: &[u8]) -> [u8; 32] {
        independent::sha3_256(data)
    }
    fn check_owners(&self, _: &mut Random, table: &[u8]) -> (u32, u32) {
        independent::check_owners(table)
    }
    fn owner(&self, _: &mut Random, table: &[u8], separator: &[u8]) -> (u32, u32) {
        independent::owner(table, separator)
    }
    fn seal(&self, _: &mut Random, inputs: &SealInputs, plain: &[u32], out: &mut [u32]) -> u32 {
        independent::seal(inputs, plain, out)
    }
    fn open(&self, _: &mut Random, inputs: &SealInputs, sealed: &[u32], out: &mut [u32]) -> u32 {
        independent::open(inputs, sealed, out)
    }
}
