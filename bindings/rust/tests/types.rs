//! The crate's types against the independent implementation, where `differential.rs` does not reach: fields and forms by their numbers, patterns by their
//! calls, protocols, each length of a separator and of a hashed string, sessions that live through all of their calls, forks, challenges, records
//! of every status, tables of owners that are asked often, and what is seen of a seal.

mod guarded;
mod independent;
#[macro_use]
mod same_fields;
mod inputs;
mod interfaces;
mod run;

use independent::{ABSORB, LONGEST, LONGEST_CALL};
use inputs::*;
use interfaces::{
    check_protocol, field_of, form_of, number_and_place, number_of, perform, protocol_of, record_of, Independent,
    Interface, Types,
};
use run::Run;
use std::fmt::Debug;
use std::hash::{DefaultHasher, Hash, Hasher};
use std::mem::ManuallyDrop;
use std::ptr;
use tuilarder::ffi::Record;
use tuilarder::Call::{Absorb, Squeeze};
use tuilarder::{
    Field, Form, Owners, OwnersFault, Pattern, Protocol, Refusal, Seal, Session, CAPACITY, MAX_ROUND_CONSTANTS, RATE,
    WIDTH,
};

/// A call that a pattern declares; `Call` here is one of a session.
type Declared = tuilarder::Call;

// Figures

/// The figures of documents 01 and 02; the longest tag string is 64 words of four bytes, 256 bytes, and four for their length.
#[test]
fn figures_are_those_of_the_documents() {
    assert_eq!((RATE, CAPACITY, WIDTH, MAX_ROUND_CONSTANTS), (8, 16, 24, 744));
    assert_eq!(Pattern::MAX_CALL, LONGEST_CALL);
    assert_eq!(
        (Pattern::MAX_WORDS, Pattern::MAX_SEPARATOR, Pattern::MAX_TAG_STRING),
        (64, 256, 516)
    );
    assert_eq!((Owners::ROW_BYTES, Owners::MAX_ROWS), (10, 128));
    assert_eq!(
        (
            Seal::KEY_LENGTH,
            Seal::NONCE_LENGTH,
            Seal::MARK_LENGTH,
            Seal::MAX_BLOCKS
        ),
        (8, 8, 8, 31)
    );
    let wiped = independent::WIPED;
    assert_eq!(Record::WIPED, same_fields!(Record, wiped));
}

#[test]
fn fields_have_the_numbers_1_and_2() {
    for (number, field) in [(1, Field::BabyBear), (2, Field::KoalaBear)] {
        let expected = independent::named(number).expect("a field");
        assert_eq!((field.number(), field.prime()), (number, expected.p));
        assert_eq!(field_of(number), Some(field));
    }
    for number in (3..1 << 20)
        .chain((2..32).flat_map(|k| [1 << k, (1 << k) + 1, (1 << k) + 2]))
        .chain([0, u32::MAX])
    {
        assert_eq!(Field::from_number(number), None, "{number}");
    }
}

#[test]
fn forms_have_the_numbers_1_and_2() {
    for (number, form) in [(1, Form::One), (2, Form::Two)] {
        assert_eq!(form.number(), number);
        assert_eq!(form_of(number), Some(form));
    }
    for number in (3..1 << 20)
        .chain((2..32).flat_map(|k| [1 << k, (1 << k) + 1, (1 << k) + 2]))
        .chain([0, u32::MAX])
    {
        assert_eq!(Form::from_number(number), None, "{number}");
    }
}

// These are known at compile time too, and there is no third: if there were, this `match` would not compile.
const _: () = assert!(Form::Two.number() == 2 && matches!(Form::from_number(1), Some(Form::One)));
const _: fn(Form) = |form| match form {
    Form::One | Form::Two => (),
};
const _: () = assert!(Field::KoalaBear.number() == 2 && Field::BabyBear.prime() == 2013265921);
const _: () = assert!(matches!(Field::from_number(1), Some(Field::BabyBear)));
const _: fn(Field) = |field| match field {
    Field::BabyBear | Field::KoalaBear => (),
};

#[test]
fn refusals_have_the_numbers_1_to_13_and_15_to_22() {
    for number in (1..=13).chain(15..=22) {
        let refusal = Refusal::from_number(number).expect("a refusal");
        assert_eq!(number_of::<()>(&Err(refusal)), number);
    }
    let others = (23..1 << 20)
        .chain((5..32).map(|k| (1 << k) + 22))
        .chain([0, 14, u32::MAX]);
    for number in others {
        assert_eq!(Refusal::from_number(number), None, "{number}");
    }
}

// The numbers are known at compile time too.
const _: () = assert!(Refusal::FieldUnknown.number() == 18 && Refusal::from_number(14).is_none());
const _: () = assert!(OwnersFault::Gap(0).refusal().number() == 16);

/// A `match` needs an arm for other refusals: if it did not, `_` would be unreachable, and this would not compile.
#[deny(unreachable_patterns)]
#[allow(dead_code)]
fn others_are_possible(refusal: Refusal) -> bool {
    use Refusal::*;
    match refusal {
        WordCountOutOfRange | WordLengthZero | FirstWordSqueeze | LastWordAbsorb | MergedLengthTooLong => false,
        SeparatorTooLong | RecordNotOpen | RecordNotSound | CallNotInPattern | ElementNotReduced => false,
        PatternNotDone | BufferTooShort | NotTagString | OwnersRowInvalid | OwnersGap | SeparatorTooShort => false,
        FieldUnknown | CallTooLong | SealLengthInvalid | MarkDiffers | FormUnknown => false,
        _ => true,
    }
}

// What callers may do with the types.
const fn plain<T: Copy + Eq + Hash + Debug>() {}
const fn cloned<T: Clone + Eq + Hash + Debug>() {}
const fn printed<T: Debug>() {}
const fn copied<T: Copy>() {}
const _: () = {
    plain::<Refusal>();
    plain::<Field>();
    plain::<Form>();
    plain::<Declared>();
    plain::<Owners>();
    plain::<OwnersFault>();
    cloned::<Pattern>();
    cloned::<Protocol>();
    printed::<Session>();
    printed::<Seal>();
    copied::<Seal>();
};

// That a session is no `Clone`, and so no `Copy`: if it were, there would be two candidates for `_`, and this would not compile.
const _: fn() = || {
    trait OneCandidate<A> {
        fn candidate() {}
    }
    impl<T> OneCandidate<()> for T {}
    impl<T: Clone> OneCandidate<u8> for T {}
    let _ = <Session as OneCandidate<_>>::candidate;
};

// Patterns

/// The word of a call, with the longest length in the place of one that no word can hold: that one is above 16,777,216 too, and gets 19.
fn word_of(call: Declared) -> u32 {
    match call {
        Absorb(length) => ABSORB + length.min(LONGEST),
        Squeeze(length) => length.min(LONGEST),
    }
}

fn call_of_kind(absorbing: bool, length: u32) -> Declared {
    if absorbing {
        Absorb(length)
    } else {
        Squeeze(length)
    }
}

/// The merged words, cut into calls, or the number.
fn merged(words: &[u32]) -> Result<Vec<u32>, u32> {
    let mut string = [0; 256];
    let size = independent::write_tag(1, words, &[], &mut string)?;
    let (number, merged, count) = independent::read_tag(1, &string[..size], 0);
    assert_eq!(number, 0);
    let (number, calls, count) = independent::cut(&merged[..count]);
    assert_eq!(number, 0);
    Ok(calls[..count].to_vec())
}

fn hash_of(value: &impl Hash) -> u64 {
    let mut hasher = DefaultHasher::new();
    value.hash(&mut hasher);
    hasher.finish()
}

fn assert_equal(pattern: &Pattern, other: &Pattern) {
    assert_eq!(pattern, other);
    assert_eq!(hash_of(pattern), hash_of(other));
}

/// That a pattern differs from each that has one of its words one longer.
fn assert_differs_by_each_word(pattern: &Pattern, words: &[u32]) {
    for k in 0..words.len() {
        let mut longer = words.to_vec();
        longer[k] = words[k].wrapping_add(1);
        if let Ok(other) = Pattern::from_words(&longer) {
            assert_ne!(*pattern, other, "word {k}");
        }
    }
}

fn compare_accepted(pattern: &Pattern, calls: &[Declared], merged: &[u32]) {
    let words: Vec<u32> = calls.iter().map(|call| word_of(*call)).collect();
    assert_eq!(pattern.words(), words, "the words");
    assert_eq!(pattern.calls().collect::<Vec<_>>(), calls, "the calls");
    assert_eq!(format!("{pattern:?}"), format!("Pattern {calls:?}"));
    assert_eq!(pattern.merged().words(), merged, "the merged words");
    assert_equal(&pattern.clone(), pattern);
    assert_equal(&Pattern::from_words(&words).expect("accepted calls"), pattern);
    let of_merged = Pattern::from_words(merged).expect("accepted calls");
    assert_equal(&pattern.merged(), &of_merged);
    assert_eq!(*pattern == of_merged, words == merged);
    assert_differs_by_each_word(pattern, &words);
}

/// Makes a pattern of calls by both and compares all that it shows.
fn compare_pattern(run: &mut Run, calls: &[Declared]) {
    run.last = Box::new(calls.to_vec());
    let words: Vec<u32> = calls.iter().map(|call| word_of(*call)).collect();
    let (answer, expected) = (Pattern::new(calls), merged(&words));
    let number = number_of(&answer);
    assert_eq!(number, expected.as_ref().err().copied().unwrap_or(0), "the number");
    if let (Ok(pattern), Ok(merged)) = (answer, expected) {
        compare_accepted(&pattern, calls, &merged);
    }
    run.answered("Pattern::new", number);
}

/// Lengths at and above each limit of a call's.
const LIMITS: [u32; 8] = [
    0,
    1,
    LONGEST_CALL - 1,
    LONGEST_CALL,
    LONGEST_CALL + 1,
    2147483647,
    2147483648,
    u32::MAX,
];

/// Whether call k of so many absorbs.
const KINDS: [fn(usize, usize) -> bool; 5] = [
    |_, k| k % 2 == 0,
    |count, k| k + 1 < count,
    |_, k| k == 0,
    |_, _| true,
    |_, _| false,
];

#[test]
fn patterns_of_up_to_66_calls_with_each_limit_in_every_place() {
    let run = Run::of(
        "patterns_of_up_to_66_calls_with_each_limit_in_every_place",
        &Types,
        67,
        |run| {
            let count = run.case as usize;
            for absorbs in KINDS {
                let calls: Vec<Declared> = (0..count)
                    .map(|k| call_of_kind(absorbs(count, k), 1 + k as u32))
                    .collect();
                compare_pattern(run, &calls);
                for (k, limit) in (0..count).flat_map(|k| LIMITS.map(|limit| (k, limit))) {
                    let mut changed = calls.clone();
                    changed[k] = call_of_kind(absorbs(count, k), limit);
                    compare_pattern(run, &changed);
                }
            }
        },
    );
    run.assert_numbers("Pattern::new", &[0, 1, 2, 3, 19]);
}

#[test]
fn patterns_of_any_calls() {
    let run = Run::of("patterns_of_any_calls", &Types, 20_000, |run| {
        let words = any_pattern(&mut run.random);
        let mut calls: Vec<Declared> = words
            .iter()
            .map(|word| call_of_kind(word & ABSORB != 0, word & LONGEST))
            .collect();
        if !calls.is_empty() && run.random.once_in(4) {
            let k = run.random.below(calls.len() as u64) as usize;
            calls[k] = call_of_kind(words[k] & ABSORB != 0, run.random.pick(&LIMITS));
        }
        compare_pattern(run, &calls);
    });
    run.assert_numbers("Pattern::new", &[0, 1, 2, 3, 19]);
}

#[test]
fn patterns_of_far_too_many_calls() {
    for count in [65, 66, 128, 130, 256, 258, 65536, 65538] {
        let calls: Vec<Declared> = (0..count).map(|k| call_of_kind(k % 2 == 0, 1)).collect();
        let words: Vec<u32> = calls.iter().map(|call| word_of(*call)).collect();
        assert_eq!(number_of(&Pattern::new(&calls)), 1, "{count}");
        assert_eq!(number_of(&Pattern::from_words(&words)), 1, "{count}");
    }
}

// Separators and hashes

/// The case's separator length: each up to 257, then some far above.
fn separator_length(case: u64) -> usize {
    const FAR: [usize; 6] = [258, 512, 513, 65536, 65538, 1 << 20];
    match case {
        0..=257 => case as usize,
        _ => FAR[case as usize - 258],
    }
}

#[test]
fn separators_of_every_length() {
    let run = Run::of("separators_of_every_length", &Types, 264, |run| {
        let length = separator_length(run.case);
        for count in [1, 2, 3, 63, 64] {
            let merged = merged_words(&mut run.random, count, short_length);
            let words = split_words(&mut run.random, &merged);
            let separator: Vec<u8> = run.random.list(length);
            let mut record = Record::WIPED;
            let field = known_field(&mut run.random);
            for form in [1, 2] {
                let start = Call::Start(field, form, words.clone(), separator.clone());
                let wanted = if length <= 256 { 0 } else { 6 };
                assert_eq!(run.call(&mut record, start), wanted);
                let string = string_of(form, &merged, &separator);
                let needed = string.len();
                for size in [needed, needed - 1, needed - 4, needed + 3, 0] {
                    run.write_tag(form, &words, &separator, size);
                }
                // in form 2 "ignores any length given"
                let (number, read, part) = run.read_tag(form, &string, length);
                assert_eq!(number, wanted);
                if number == 0 {
                    assert_eq!((&read, &part), (&merged, &separator));
                }
                run.answered(["", "form 1", "form 2"][form as usize], number);
            }
        }
    });
    run.assert_reached("write_tag", &[0, 12]);
    run.assert_numbers("form 1", &[0, 6]);
    run.assert_numbers("form 2", &[0, 6]);
}

#[test]
fn hashes_of_every_length_up_to_2000() {
    Run::of("hashes_of_every_length_up_to_2000", &Types, 2003, |run| {
        let size = match run.case {
            2001 => 70_000,
            2002 => (1 << 20) + 1,
            case => case,
        };
        let data: Vec<u8> = run.random.list(size as usize);
        run.sha3_256(&data);
    });
}

// Protocols

/// What a protocol is made of.
#[derive(Clone, Debug)]
struct Parts {
    field: Field,
    form: Form,
    words: Vec<u32>,
    separator: Vec<u8>,
}

impl Parts {
    fn protocol(&self) -> Protocol {
        let pattern = Pattern::from_words(&self.words).expect("an accepted pattern");
        protocol_of(self.field, self.form, &pattern, &self.separator).expect("accepted parts")
    }
}

/// The parts of a protocol of any pattern that is accepted.
fn any_parts(run: &mut Run) -> Parts {
    let words = good_pattern(&mut run.random);
    let (field, form) = (known_field(&mut run.random), known_form(&mut run.random));
    Parts {
        field: field_of(field).expect("a field"),
        form: form_of(form).expect("a form"),
        words,
        separator: good_separator(&mut run.random),
    }
}

/// That it is equal to one of the same parts, and to none that differs in one of them.
fn assert_equal_by_parts(run: &mut Run, protocol: &Protocol, parts: &Parts) {
    let same = parts.protocol();
    assert_eq!((&same, hash_of(&same)), (protocol, hash_of(protocol)));
    let mut others = vec![parts.clone(), parts.clone(), parts.clone()];
    others[0].field = match parts.field {
        Field::BabyBear => Field::KoalaBear,
        Field::KoalaBear => Field::BabyBear,
    };
    others[1].form = match parts.form {
        Form::One => Form::Two,
        Form::Two => Form::One,
    };
    others[2].words[0] = parts.words[0].wrapping_add(1);
    if Pattern::from_words(&others[2].words).is_err() {
        others.truncate(2);
    }
    if !parts.separator.is_empty() {
        let (mut changed, mut shorter) = (parts.clone(), parts.clone());
        changed.separator[run.random.below(parts.separator.len() as u64) as usize] ^= 1 << run.random.below(8);
        shorter.separator.remove(0);
        others.extend([changed, shorter]);
    }
    for other in others {
        assert_ne!(other.protocol(), *protocol, "{other:?}");
    }
}

#[test]
fn protocols_of_any_parts() {
    let run = Run::of("protocols_of_any_parts", &Types, 3_000, |run| {
        let parts = any_parts(run);
        run.last = Box::new(parts.clone());
        let protocol = parts.protocol();
        let Parts {
            field,
            form,
            words,
            separator,
        } = &parts;
        check_protocol(&protocol, *field, *form, words, separator);
        let (number, started) = independent::start(field.number(), form.number(), words, separator);
        let expected = same_fields!(Record, started);
        // it opens as many sessions as are asked for
        for session in [protocol.start(), protocol.start(), protocol.clone().start()] {
            assert_eq!((0, record_of(&session)), (number, expected));
        }
        let escaped = separator.escape_ascii();
        let pattern = protocol.pattern();
        assert_eq!(
            format!("{protocol:?}"),
            format!("Protocol {{ field: {field:?}, form: {form:?}, pattern: {pattern:?}, separator: \"{escaped}\" }}")
        );
        assert_equal_by_parts(run, &protocol, &parts);
        run.answered("field", field.number());
        run.answered("form", form.number());
    });
    run.assert_numbers("field", &[1, 2]);
    run.assert_numbers("form", &[1, 2]);
}

// Sessions that live through all of their calls

/// A session, and the record that the independent implementation has.
struct Live {
    session: Session,
    expected: Record,
}

/// A squeeze as an array, for some lengths.
fn challenge(session: &mut Session, length: usize) -> Option<Result<Vec<u32>, Refusal>> {
    macro_rules! of_length {
        ($($n:literal)*) => {
            match length {
                $($n => Some(session.challenge::<$n>().map(Vec::from)),)*
                _ => None,
            }
        };
    }
    of_length!(0 1 2 3 4 5 7 8 9 10 15 16 17 18 20 24 25 33 40 3000)
}

impl Live {
    /// A session of either form.
    fn start(run: &mut Run, field: u32, words: &[u32], separator: &[u8]) -> Live {
        let (form, mut expected) = (known_form(&mut run.random), Record::WIPED);
        assert_eq!(
            Independent.start(&mut run.noise, &mut expected, field, form, words, separator),
            0
        );
        let pattern = Pattern::from_words(words).expect("an accepted pattern");
        let (field, form) = (field_of(field).expect("a field"), form_of(form).expect("a form"));
        let protocol = protocol_of(field, form, &pattern, separator).expect("an accepted separator");
        let session = protocol.start();
        let live = Live { session, expected };
        live.compare();
        live
    }

    fn compare(&self) {
        assert_eq!(record_of(&self.session), self.expected, "the record");
    }

    fn fork(&self) -> Live {
        Live {
            session: self.session.fork(),
            expected: self.expected,
        }
    }

    fn squeeze(&mut self, buffer: &[u32], expected: &[u32]) -> u32 {
        let mut left = buffer.to_vec();
        let number = number_of(&self.session.squeeze(&mut left));
        assert_eq!(left, expected, "the buffer");
        number
    }

    /// Squeezes as an array, or gives nothing where no array is of that length.
    fn challenge(&mut self, expected: &[u32]) -> Option<u32> {
        let answer = challenge(&mut self.session, expected.len())?;
        let number = number_of(&answer);
        if let Ok(elements) = answer {
            assert_eq!(elements, expected, "the challenge");
        }
        Some(number)
    }

    /// Does a call by both and compares all that it left. Gives nothing after FINISH.
    fn call(mut self, run: &mut Run, call: &Call) -> Option<Live> {
        run.last = Box::new((call.clone(), self.expected));
        let (name, number, expected_buffer) = perform(&Independent, &mut run.noise, &mut self.expected, call);
        run.answered(name, number);
        let answer = match call {
            Call::Finish => {
                assert_eq!(number_of(&self.session.finish()), number, "the number");
                return None;
            }
            Call::Absorb(elements) => number_of(&self.session.absorb(elements)),
            Call::Squeeze(buffer) if run.random.once_in(2) => self.squeeze(buffer, &expected_buffer),
            Call::Squeeze(buffer) => match self.challenge(&expected_buffer) {
                Some(number) => number,
                None => self.squeeze(buffer, &expected_buffer),
            },
            Call::Start(..) => unreachable!("a session starts once"),
        };
        assert_eq!(answer, number, "the number");
        self.compare();
        Some(self)
    }
}

/// START on a short pattern.
fn any_live(run: &mut Run) -> Live {
    let count = phases(&mut run.random).min(9);
    let merged = merged_words(&mut run.random, count, short_length);
    let words = split_words(&mut run.random, &merged);
    let size = run.random.below(257) as usize;
    let separator: Vec<u8> = run.random.list(size);
    let field = known_field(&mut run.random);
    Live::start(run, field, &words, &separator)
}

/// A fork, or the next call, of one of the sessions.
fn live_step(run: &mut Run, lives: &mut Vec<Live>, any_once_in: u64) {
    let live = lives.swap_remove(run.random.below(lives.len() as u64) as usize);
    if lives.len() < 5 && run.random.once_in(8) {
        let name = if live.expected.status == 1 {
            "fork"
        } else {
            "fork of a wiped one"
        };
        run.answered(name, live.expected.phase);
        lives.push(live.fork());
        lives.push(live);
        return;
    }
    let call = next_call(&mut run.random, &live.expected, any_once_in);
    lives.extend(live.call(run, &call));
}

#[test]
fn sessions_of_all_calls_with_forks_in_each_phase() {
    let run = Run::of("sessions_of_all_calls_with_forks_in_each_phase", &Types, 2_000, |run| {
        let mut lives = vec![any_live(run)];
        let any_once_in = run.random.pick(&[5, 30, 1000]);
        for _ in 0..40 {
            if lives.is_empty() {
                lives.push(any_live(run));
            }
            live_step(run, &mut lives, any_once_in);
            // each goes on by itself
            lives.iter().for_each(Live::compare);
        }
    });
    run.assert_reached("fork", &[0, 1, 2, 3, 4, 5, 6, 7, 8, 9]);
    run.assert_reached("fork of a wiped one", &[0]);
    run.assert_numbers("ABSORB", &[0, 7, 9, 10]);
    run.assert_numbers("SQUEEZE", &[0, 7, 9]);
    run.assert_numbers("FINISH", &[0, 7, 11]);
}

/// Goes on to the pattern's end and finishes. `any_once_in` is so large that no call is refused but for an element.
fn to_the_end(run: &mut Run, mut live: Live) {
    loop {
        let call = next_call(&mut run.random, &live.expected, u64::MAX);
        match live.call(run, &call) {
            Some(next) => live = next,
            None => return,
        }
    }
}

#[test]
fn forks_at_every_element() {
    let words = [ABSORB + 9, 17, ABSORB + 1, 1, ABSORB + 8, 8, ABSORB + 9];
    let elements: u32 = 9 + 17 + 1 + 1 + 8 + 8 + 9;
    let run = Run::of("forks_at_every_element", &Types, 4, |run| {
        let field = 1 + run.case as u32 % 2;
        let mut live = Live::start(run, field, &words, b"forked");
        for _ in 0..elements {
            to_the_end(run, live.fork());
            live.compare();
            let absorbing = phase_of(&live.expected).expect("a phase").0;
            let call = if absorbing {
                Call::Absorb(vec![good_element(&mut run.random, field)])
            } else {
                Call::Squeeze(vec![7])
            };
            live = live.call(run, &call).expect("no FINISH");
        }
        to_the_end(run, live.fork());
        to_the_end(run, live);
    });
    run.assert_numbers("FINISH", &[0]);
}

#[test]
fn lists_of_70000_elements() {
    const LENGTH: usize = 70_000;
    let run = Run::of("lists_of_70000_elements", &Types, 2, |run| {
        let field = 1 + run.case as u32;
        let words = [ABSORB + LENGTH as u32, LENGTH as u32, ABSORB + 1, 3000];
        let elements = (0..LENGTH).map(|_| good_element(&mut run.random, field)).collect();
        let calls = [
            Call::Absorb(elements),
            Call::Squeeze(run.random.list(LENGTH)),
            Call::Absorb(vec![1]),
        ];
        let mut live = Live::start(run, field, &words, b"long");
        for call in calls {
            live = live.call(run, &call).expect("no FINISH");
        }
        let mut left = vec![0; 3000];
        Independent.squeeze(&mut run.noise, &mut live.expected, &mut left);
        assert_eq!(live.challenge(&left), Some(0));
        live.compare();
        assert!(live.call(run, &Call::Finish).is_none());
    });
    assert_eq!(run.session_calls(), 8);
}

// Records

/// What the other tests compare with has to tell any two records apart.
#[test]
fn records_differ_by_each_byte() {
    let run = Run::of("records_differ_by_each_byte", &Types, 20, |run| {
        let record = sound_record(&mut run.random);
        for k in 0..size_of::<Record>() {
            let mut other = record;
            let place: *mut Record = &mut other;
            // SAFETY: it is a byte of an integer of the record, and any byte is one.
            unsafe { *place.cast::<u8>().add(k) ^= 1 << run.random.below(8) };
            assert_ne!(record, other, "byte {k}");
            run.answered("changed", 0);
        }
        assert_eq!(record, record.clone());
    });
    run.assert_numbers("changed", &[0]);
}

/// So with the calls.
#[test]
fn calls_differ_by_kind_and_length() {
    let calls = LIMITS.map(Absorb).into_iter().chain(LIMITS.map(Squeeze));
    let calls: Vec<Declared> = calls.collect();
    for (k, l) in (0..calls.len()).flat_map(|k| (0..calls.len()).map(move |l| (k, l))) {
        assert_eq!(calls[k] == calls[l], k == l, "{:?} and {:?}", calls[k], calls[l]);
    }
}

/// Small ones, each bit alone and beside bit 0, and all.
fn statuses() -> Vec<u32> {
    let bits = (0..32).flat_map(|k| [1 << k, 1 | 1 << k]);
    (0..300).chain(bits).chain([u32::MAX, u32::MAX - 1]).collect()
}

#[test]
fn records_of_every_status() {
    let statuses = statuses();
    let run = Run::of("records_of_every_status", &Types, 4 * statuses.len() as u64, |run| {
        let mut record = match run.case % 4 {
            0 => any_record(&mut run.random),
            _ => sound_record(&mut run.random),
        };
        record.status = statuses[run.case as usize / 4];
        for size in [0, 1, 9] {
            run.call(&mut record.clone(), Call::Squeeze(vec![7; size]));
            run.call(&mut record.clone(), Call::Absorb(vec![7; size]));
        }
        run.call(&mut record.clone(), Call::Finish);
    });
    for call in ["ABSORB", "SQUEEZE", "FINISH"] {
        run.assert_reached(call, &[7]);
    }
}

/// The record that dropping leaves of a session.
fn dropped(session: Session) -> Record {
    let mut session = ManuallyDrop::new(session);
    let place: *mut Session = &mut *session;
    // SAFETY: a session is a record and no more; it is in this function, and dropped once.
    unsafe {
        ptr::drop_in_place(place);
        ptr::read_volatile(place.cast::<Record>())
    }
}

#[test]
fn dropping_wipes_any_record() {
    let run = Run::of("dropping_wipes_any_record", &Types, 2_000, |run| {
        let record = match run.case % 2 {
            0 => any_record(&mut run.random),
            _ => sound_record(&mut run.random),
        };
        assert_eq!(dropped(Session::from_record(record)), Record::WIPED);
        assert_eq!(dropped(Session::from_record(record).fork()), Record::WIPED);
        run.answered("open", u32::from(record.status == 1));
    });
    run.assert_numbers("open", &[0, 1]);
}

// Tables of owners

/// A table is checked once, and it and a copy of it are asked about many separators.
fn compare_owners(run: &mut Run, owners: &Owners, table: &[u8]) {
    let copy = *owners;
    for k in 0..40 {
        let separator = asked_separator(&mut run.random, table);
        run.last = Box::new((table.to_vec(), separator.clone()));
        let answer = if k % 2 == 0 { owners } else { &copy }.owner(&separator);
        let (number, value) = independent::owner(table, &separator);
        assert_eq!((number_of(&answer), answer.map_or(0, u32::from)), (number, value));
        run.answered("owner", number);
    }
}

/// That it is equal to one of the same bytes in another place, and to no other.
fn assert_equal_by_bytes(run: &mut Run, owners: &Owners, table: &[u8]) {
    let mut bytes = table.to_vec();
    assert_eq!(*owners, Owners::new(&bytes).expect("accepted bytes"));
    assert_eq!(hash_of(owners), hash_of(&Owners::new(&bytes).expect("accepted bytes")));
    let rows = bytes.len() as u64 / 10;
    // a byte of a product line, which leaves the table an accepted one
    bytes[10 * run.random.below(rows) as usize + run.random.pick(&[8, 9])] ^= 1 << run.random.below(8);
    assert_ne!(*owners, Owners::new(&bytes).expect("another line"));
}

/// The condition of 15 and of 16, and the place.
fn words_of(number: u32, place: u32) -> String {
    const ROW: &str =
        "a row whose first is above its last or not above the previous row's last, a row 129 or a row cut short";
    match number {
        15 => format!("{ROW}: row {place}"),
        _ => format!("a number that no row holds: {place}"),
    }
}

#[test]
fn tables_of_owners_asked_often() {
    let run = Run::of("tables_of_owners_asked_often", &Types, 2_000, |run| {
        let table = any_table(&mut run.random);
        run.last = Box::new(table.clone());
        let (number, place) = independent::check_owners(&table);
        run.answered("Owners::new", number);
        match Owners::new(&table) {
            Ok(owners) => {
                assert_eq!(number, 0, "the number");
                compare_owners(run, &owners, &table);
                assert_equal_by_bytes(run, &owners, &table);
            }
            Err(fault) => {
                assert_eq!(number_and_place(&fault), (number, place));
                assert_eq!(fault.to_string(), words_of(number, place));
            }
        }
    });
    run.assert_numbers("Owners::new", &[0, 15, 16]);
    run.assert_numbers("owner", &[0, 17]);
}

/// Rows of 2^24 numbers each, the first of which begins at 0.
fn narrow_rows(count: u32) -> Vec<u8> {
    let row = |k: u32| (k << 24, (k << 24) + 0xffffff, 7);
    table_of(&(0..count).map(row).collect::<Vec<_>>())
}

/// Each length up to some rows more than the most.
#[test]
fn tables_of_owners_of_every_length() {
    let rows = narrow_rows(131);
    let run = Run::of("tables_of_owners_of_every_length", &Types, 1311, |run| {
        let answer = run.check_owners(&rows[..run.case as usize]);
        run.answered("row 129", u32::from(answer == (15, 129)));
    });
    run.assert_numbers("check_owners", &[15, 16]);
    run.assert_numbers("row 129", &[0, 1]);
}

/// Lengths whose low 16 bits are those of one row, which alone would be accepted; the row behind it begins at 0 again.
#[test]
fn tables_of_owners_far_too_long() {
    for length in [65546, 131082, (1 << 20) + 10] {
        let mut table = vec![0; length];
        table[4..10].copy_from_slice(&[255, 255, 255, 255, 0, 7]);
        assert!(Owners::new(&table[..10]).is_ok());
        assert_eq!(Owners::new(&table).map(drop), Err(OwnersFault::Row(2)), "{length}");
    }
}

// Seals

/// All but the key is shown, which has elements that nothing else has.
#[test]
fn seals_show_no_key() {
    let run = Run::of("seals_show_no_key", &Types, 200, |run| {
        let call = any_note(&mut run.random);
        run.last = Box::new(call.clone());
        let key: [u32; 8] = std::array::from_fn(|k| 1_234_567_890 + k as u32);
        let field = field_of(call.field).expect("a field");
        let seal = Seal {
            field,
            key: &key,
            nonce: call.nonce[..].try_into().expect("8 elements"),
            separator: &call.separator,
            lengths: &call.lengths,
        };
        let (nonce, escaped, lengths) = (&call.nonce, call.separator.escape_ascii(), &call.lengths);
        let expected = format!(
            "Seal {{ field: {field:?}, nonce: {nonce:?}, separator: \"{escaped}\", lengths: {lengths:?}, .. }}"
        );
        assert_eq!(format!("{seal:?}"), expected);
        run.answered("field", field.number());
    });
    run.assert_numbers("field", &[1, 2]);
}

/// A seal is lent all that it has, so it and a copy of it serve for many notes.
#[test]
fn seals_serve_again() {
    Run::of("seals_serve_again", &Types, 50, |run| {
        let call = any_note(&mut run.random);
        run.last = Box::new(call.clone());
        let seal = Seal {
            field: field_of(call.field).expect("a field"),
            key: call.key[..].try_into().expect("8 elements"),
            nonce: call.nonce[..].try_into().expect("8 elements"),
            separator: &call.separator,
            lengths: &call.lengths,
        };
        let mut expected = call.out.clone();
        assert_eq!(independent::seal(&call.inputs(), &call.text, &mut expected), 0);
        for seal in [seal, seal, Seal { ..seal }] {
            let (mut sealed, mut plain) = (call.out.clone(), vec![FILLED; call.text.len()]);
            assert_eq!((seal.seal(&call.text, &mut sealed), &sealed), (Ok(()), &expected));
            assert_eq!((seal.open(&sealed, &mut plain), &plain), (Ok(()), &call.text));
            sealed[0] ^= 1;
            assert_eq!(seal.open(&sealed, &mut plain), Err(Refusal::MarkDiffers));
            assert_eq!(plain, vec![0; plain.len()]);
        }
    });
}
