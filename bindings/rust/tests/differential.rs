//! Random and damaged calls, done by the library and by the independent implementation, which has to answer the same number
//! and to leave the same in all that was lent. The library is called twice: by the functions of `ffi` and by the crate's types.
//!
//! The inputs follow from a seed: see `run/mod.rs`.

mod guarded;
mod independent;
#[macro_use]
mod same_fields;
mod inputs;
#[macro_use]
mod interfaces;
mod run;

use guarded::{Any, Random};
use independent::{length, ABSORB, LONGEST_CALL, P_1, P_2};
use inputs::*;
use interfaces::Interface;
use run::Run;
use tuilarder::ffi::Record;

/// How many session calls each test compares at least.
const START_CALLS: u64 = 30_000;
const SESSION_CALLS: u64 = 60_000;
const UNSOUND_CALLS: u64 = 45_000;
const FAR_CALLS: u64 = 15_000;
const _: () = assert!(START_CALLS + SESSION_CALLS + UNSOUND_CALLS + FAR_CALLS >= 100_000);

by_both! {
    start_on_any_pattern_and_separator
    sessions_with_forks_and_refused_calls
    calls_on_unsound_and_closed_records
    calls_far_into_long_phases
    long_calls
    tags_written_and_read_back
    reading_of_any_string
    tails_of_any_string
    strings_of_up_to_8_bytes
    words_cut_into_calls
    long_words_read_cut_and_written
    hashes_of_any_bytes
    permutations_of_any_state
    constants_of_any_field
    elements_between_the_primes
    records_of_the_other_field
    records_of_the_other_form
    owners_by_any_table
    notes_sealed_and_opened
}

fn start_on_any_pattern_and_separator(library: &'static dyn Interface) {
    let run = Run::of("start_on_any_pattern_and_separator", library, START_CALLS, |run| {
        let (words, separator) = (any_pattern(&mut run.random), any_separator(&mut run.random));
        let (field, form) = (any_field(&mut run.random), any_form(&mut run.random));
        let mut record = Record::any(&mut run.random);
        let number = run.call(&mut record, Call::Start(field, form, words, separator));
        run.answered("field of a session", record.field);
        run.answered("form of a session", record.form);
        assert_eq!(
            (record.field, record.form),
            if number == 0 { (field, form) } else { (0, 0) }
        );
        if !matches!((field, form), (1 | 2, 1 | 2)) {
            assert_eq!(number, if matches!(field, 1 | 2) { 22 } else { 18 });
        }
        if number == 0 {
            run.answered("ends with ABSORB", record.count % 2);
        }
    });
    run.assert_numbers("START", &[0, 1, 2, 3, 6, 18, 19, 22]);
    run.assert_numbers("ends with ABSORB", &[0, 1]);
    run.assert_numbers("field of a session", &[0, 1, 2]);
    run.assert_numbers("form of a session", &[0, 1, 2]);
    assert!(run.session_calls() >= START_CALLS);
}

/// START on a short pattern, as a protocol has it.
fn open(run: &mut Run, record: &mut Record) {
    let count = phases(&mut run.random).min(9);
    let merged = merged_words(&mut run.random, count, short_length);
    let words = split_words(&mut run.random, &merged);
    let (field, form) = (known_field(&mut run.random), known_form(&mut run.random));
    let separator = good_separator(&mut run.random);
    assert_eq!(run.call(record, Call::Start(field, form, words, separator)), 0);
}

/// One step with the sessions of a case: a fork, a call on a damaged copy, another START, or the next call of one.
fn session_step(run: &mut Run, records: &mut Vec<Record>, any_once_in: u64) {
    let k = run.random.below(records.len() as u64) as usize;
    let mut copy = records[k];
    match run.random.below(32) {
        0 if records.len() < 4 => {
            records.push(copy);
            run.answered("fork", 0);
        }
        1 | 2 => {
            damage_parts(&mut run.random, &mut copy);
            for _ in 0..2 {
                let call = any_call(&mut run.random, &copy);
                run.call(&mut copy, call);
            }
        }
        _ if copy.status == 0 && run.random.once_in(2) => open(run, &mut records[k]),
        _ => {
            let call = next_call(&mut run.random, &copy, any_once_in);
            let finishing = matches!(call, Call::Finish);
            if run.call(&mut records[k], call) == 0 && finishing {
                run.answered("finished after ABSORB", copy.count % 2);
            }
        }
    }
}

fn sessions_with_forks_and_refused_calls(library: &'static dyn Interface) {
    let run = Run::of(
        "sessions_with_forks_and_refused_calls",
        library,
        SESSION_CALLS / 40 + 200,
        |run| {
            let mut records = vec![Record::any(&mut run.random)];
            open(run, &mut records[0]);
            let any_once_in = run.random.pick(&[3, 10, 30, 1000]);
            for _ in 0..40 {
                session_step(run, &mut records, any_once_in);
            }
        },
    );
    run.assert_numbers("START", &[0]);
    run.assert_numbers("ABSORB", &[0, 7, 8, 9, 10]);
    run.assert_numbers("SQUEEZE", &[0, 7, 8, 9]);
    run.assert_numbers("FINISH", &[0, 7, 8, 11]);
    run.assert_numbers("finished after ABSORB", &[0, 1]);
    run.assert_reached("fork", &[0]);
    assert!(run.session_calls() >= SESSION_CALLS, "{}", run.session_calls());
}

/// Each of the three calls on a record. Gives their numbers.
fn each_call(run: &mut Run, record: &Record) -> Vec<u32> {
    let sizes: [usize; 2] = std::array::from_fn(|_| run.random.pick(&[0, 1, 1, 9]));
    let absorb = call_of(&mut run.random, record.field, true, sizes[0]);
    let squeeze = call_of(&mut run.random, record.field, false, sizes[1]);
    [absorb, squeeze, Call::Finish]
        .map(|call| run.call(&mut record.clone(), call))
        .to_vec()
}

fn calls_on_unsound_and_closed_records(library: &'static dyn Interface) {
    let damages: Vec<Damage> = PART_DAMAGES.into_iter().chain(CONDITION_DAMAGES).collect();
    let run = Run::of(
        "calls_on_unsound_and_closed_records",
        library,
        UNSOUND_CALLS / 9 + 1,
        |run| {
            let mut record = sound_record(&mut run.random);
            damage_parts(&mut run.random, &mut record);
            each_call(run, &record);
            let record = any_record(&mut run.random);
            each_call(run, &record);
            let (name, damage) = damages[run.case as usize % damages.len()];
            let mut record = sound_record(&mut run.random);
            damage(&mut run.random, &mut record);
            for number in each_call(run, &record) {
                run.answered(name, number);
            }
        },
    );
    for call in ["ABSORB", "SQUEEZE", "FINISH"] {
        run.assert_reached(call, &[7, 8]);
    }
    run.assert_numbers("status", &[7]);
    for (name, _) in &PART_DAMAGES[1..] {
        run.assert_reached(name, &[8]);
    }
    for (name, _) in CONDITION_DAMAGES {
        run.assert_numbers(name, &[8]);
    }
    assert!(run.session_calls() >= UNSOUND_CALLS);
}

fn calls_far_into_long_phases(library: &'static dyn Interface) {
    let run = Run::of("calls_far_into_long_phases", library, FAR_CALLS / 6 + 1, |run| {
        let mut record = sound_record(&mut run.random);
        for _ in 0..6 {
            if record.status == 0 && !run.random.once_in(4) {
                record = sound_record(&mut run.random);
            }
            let call = next_call(&mut run.random, &record, 12);
            run.call(&mut record, call);
        }
    });
    run.assert_numbers("ABSORB", &[0, 7, 9, 10]);
    run.assert_numbers("SQUEEZE", &[0, 7, 9]);
    run.assert_numbers("FINISH", &[0, 7, 11]);
    assert!(run.session_calls() >= FAR_CALLS);
}

fn long_calls(library: &'static dyn Interface) {
    let run = Run::of("long_calls", library, 10, |run| {
        let mut record = Record::any(&mut run.random);
        let (absorbed, squeezed) = (run.random.below(3000) as usize + 1, run.random.below(3000) as usize + 1);
        let (field, ends_with_absorb) = (1 + run.case as u32 % 2, run.case / 2 % 2 == 1);
        let form = 1 + run.case as u32 / 4 % 2;
        let mut words = vec![ABSORB + absorbed as u32, squeezed as u32];
        words.extend(ends_with_absorb.then_some(ABSORB + absorbed as u32));
        run.call(&mut record, Call::Start(field, form, words, vec![]));
        let elements: Vec<u32> = (0..absorbed).map(|_| good_element(&mut run.random, field)).collect();
        assert_eq!(run.call(&mut record, Call::Absorb(elements.clone())), 0);
        let buffer = run.random.list(squeezed);
        assert_eq!(run.call(&mut record, Call::Squeeze(buffer)), 0);
        if ends_with_absorb {
            assert_eq!(run.call(&mut record, Call::Absorb(elements)), 0);
        }
        assert_eq!(run.call(&mut record, Call::Finish), 0);
    });
    assert_eq!(run.session_calls(), 44);
}

fn tags_written_and_read_back(library: &'static dyn Interface) {
    let run = Run::of("tags_written_and_read_back", library, 25_000, |run| {
        let (words, separator) = (any_pattern(&mut run.random), any_separator(&mut run.random));
        let form = any_form(&mut run.random);
        let needed = independent::write_tag(form, &words, &separator, &mut [0; 516]).unwrap_or(40);
        let any = run.random.below(525) as usize;
        let size = run
            .random
            .pick(&[needed, needed, needed + 1, needed + 9, needed - 1, needed - 4, any, 0]);
        let (number, string) = run.write_tag(form, &words, &separator, size);
        if number == 0 {
            run.answered("form of a string", form);
            // "ignores any length given"
            let given = match form {
                1 => separator.len(),
                _ => any_given(&mut run.random, &string, separator.len()),
            };
            let (number, merged, read) = run.read_tag(form, &string, given);
            assert_eq!((number, &read), (0, &separator));
            let (number, calls) = run.cut(&merged);
            assert_eq!(number, 0);
            assert!(calls.len() <= words.len());
            assert_eq!(run.write_tag(form, &calls, &separator, size), (0, string));
            run.answered("cut further", u32::from(calls != merged));
        }
    });
    run.assert_numbers("write_tag", &[0, 1, 2, 3, 6, 12, 19, 22]);
    run.assert_numbers("form of a string", &[1, 2]);
    run.assert_numbers("cut further", &[0, 1]);
    assert!(run.total(&["write_tag", "read_tag"]) >= 30_000);
}

/// Any words that reading may accept, and a string of them, at times with too many.
fn words_to_read(random: &mut Random) -> Vec<u32> {
    let mut words = merged_words(random, 68, any_length);
    words.truncate(random.pick(&[0, 1, 2, 2, 3, 4, 6, 62, 63, 64, 64, 65, 66, 68]));
    words
}

fn reading_of_any_string(library: &'static dyn Interface) {
    let run = Run::of("reading_of_any_string", library, 40_000, |run| {
        let random = &mut run.random;
        let (words, separator, form) = (words_to_read(random), any_separator(random), any_form(random));
        let mut string = string_of(form, &words, &separator);
        for _ in 0..random.pick(&[0, 0, 0, 1, 2]) {
            damage_string(random, &mut string);
        }
        let given = any_given(random, &string, separator.len());
        let number = run.read_tag(form, &string, given).0;
        let name = ["read in form 1", "read in form 2"].get(form.wrapping_sub(1) as usize);
        if let Some(name) = name {
            run.answered(name, number);
        }
    });
    run.assert_numbers("read_tag", &[0, 6, 13, 22]);
    run.assert_numbers("read in form 1", &[0, 6, 13]);
    run.assert_numbers("read in form 2", &[0, 6, 13]);
}

/// "Reading form 2 goes by the string's last four bytes": any of them, behind words and any bytes. What is read has the string again.
fn tails_of_any_string(library: &'static dyn Interface) {
    let run = Run::of("tails_of_any_string", library, 30_000, |run| {
        let random = &mut run.random;
        let mut string = string_of(1, &words_to_read(random), &any_separator(random));
        let tail = any_tail(random, string.len());
        let preceding = string.len();
        string.extend(tail.to_be_bytes());
        let given = any_given(random, &string, tail as usize);
        let (number, words, separator) = run.read_tag(2, &string, given);
        if number == 0 {
            assert_eq!(string_of(2, &words, &separator), string);
        }
        // "a tail above 256 gets 6 before that"
        let of_tail = [(257, u32::MAX, 6), (preceding as u32 + 1, 256, 13)];
        for (first, last, wanted) in of_tail {
            if (first..=last).contains(&tail) {
                assert_eq!(number, wanted, "tail {tail}");
            }
        }
        match tail as usize {
            256 => run.answered("tail 256", number),
            257 => run.answered("tail 257", number),
            tail if tail == preceding => run.answered("all that precedes", number),
            tail if tail == preceding + 1 => run.answered("one more than precedes", number),
            _ => (),
        }
    });
    run.assert_numbers("read_tag", &[0, 6, 13]);
    run.assert_reached("tail 256", &[0, 13]);
    run.assert_numbers("tail 257", &[6]);
    run.assert_reached("all that precedes", &[6, 13]);
    run.assert_reached("one more than precedes", &[6, 13]);
}

/// In form 2 a string has four bytes at least, and with four bytes before them the shortest word.
fn strings_of_up_to_8_bytes(library: &'static dyn Interface) {
    let run = Run::of("strings_of_up_to_8_bytes", library, 9 * 1_000, |run| {
        let size = run.case as usize % 9;
        let random = &mut run.random;
        let word = ABSORB + random.pick(&[0, 1, 3, LONGEST_CALL + 1]);
        let tail = random.pick(&[0, 0, 1, 3, 4, 5, 256, 257, u32::MAX]);
        let mut string: Vec<u8> = [word, tail].map(u32::to_be_bytes).concat();
        string.drain(..8 - size);
        if random.once_in(4) {
            string = random.list(size);
        }
        let given = random.pick(&[0, 1, 4, 256, 257, usize::MAX]);
        let number = run.read_tag(2, &string, given).0;
        if size < 4 {
            assert_eq!(number, 13);
        }
        run.answered(["under 4 bytes", "4 to 7 bytes", "8 bytes"][size / 4], number);
        run.read_tag(1, &string, given);
    });
    run.assert_numbers("under 4 bytes", &[13]);
    run.assert_numbers("4 to 7 bytes", &[6, 13]);
    run.assert_numbers("8 bytes", &[0, 6, 13]);
}

fn words_cut_into_calls(library: &'static dyn Interface) {
    let run = Run::of("words_cut_into_calls", library, 20_000, |run| {
        let words = any_words(&mut run.random);
        let (number, calls) = run.cut(&words);
        if number == 0 {
            run.answered("calls", calls.len() as u32);
        }
    });
    run.assert_numbers("cut", &[0, 1]);
    run.assert_reached("calls", &[0, 1, 2, 62, 63, 64]);
}

/// A tag string whose words may be longer than a call. Its words are no pattern then; cut, where 64 calls suffice, they are one that has the string,
/// and START's record has the words that were read.
fn long_words_read_cut_and_written(library: &'static dyn Interface) {
    let run = Run::of("long_words_read_cut_and_written", library, 10_000, |run| {
        let count = phases(&mut run.random);
        let words = match run.random.below(2) {
            0 => words_of_about_64_calls(&mut run.random),
            _ => merged_words(&mut run.random, count, any_length),
        };
        let (field, form) = (known_field(&mut run.random), known_form(&mut run.random));
        let separator = good_separator(&mut run.random);
        let string = string_of(form, &words, &separator);
        let read = run.read_tag(form, &string, separator.len());
        assert_eq!(read, (0, words.clone(), separator.clone()));
        let (number, calls) = run.cut(&words);
        let mut record = Record::any(&mut run.random);
        if number == 0 {
            assert_eq!(run.write_tag(form, &calls, &separator, string.len()), (0, string));
            let start = Call::Start(field, form, calls, separator.clone());
            assert_eq!(run.call(&mut record, start), 0);
            assert_eq!(record.words[..words.len()], words);
        }
        let longest = words.iter().map(|word| length(*word)).max();
        let number = run.call(&mut record, Call::Start(field, form, words, separator));
        assert_eq!(number, if longest > Some(LONGEST_CALL) { 19 } else { 0 });
    });
    run.assert_numbers("cut", &[0, 1]);
    run.assert_numbers("START", &[0, 19]);
}

fn hashes_of_any_bytes(library: &'static dyn Interface) {
    let run = Run::of("hashes_of_any_bytes", library, 10_000, |run| {
        let size = if run.case < 1000 {
            run.case
        } else {
            run.random.below(600)
        };
        let data: Vec<u8> = run.random.list(size as usize);
        run.sha3_256(&data);
    });
    assert_eq!(run.total(&["sha3_256"]), 10_000);
}

fn permutations_of_any_state(library: &'static dyn Interface) {
    let run = Run::of("permutations_of_any_state", library, 20_000, |run| {
        let random = &mut run.random;
        let field = any_field(random);
        let mut state: [u32; 24] = match random.below(8) {
            0 => [random.pick(&[0, 1, P_1 - 1, P_1, P_2 - 1, P_2, u32::MAX]); 24],
            1 => Any::any(random),
            _ => std::array::from_fn(|_| good_element(random, field)),
        };
        if random.once_in(8) {
            state[random.below(24) as usize] = bad_element(random, field);
        }
        let name = ["permute in field 1", "permute in field 2"].get(field.wrapping_sub(1) as usize);
        let number = run.permute(field, &mut state);
        if let Some(name) = name {
            run.answered(name, number);
        }
    });
    run.assert_numbers("permute", &[0, 10, 18]);
    run.assert_numbers("permute in field 1", &[0, 10]);
    run.assert_numbers("permute in field 2", &[0, 10]);
}

fn constants_of_any_field(library: &'static dyn Interface) {
    let run = Run::of("constants_of_any_field", library, 90, |run| {
        let case = run.case as usize;
        let field = match case % 3 {
            0 => 1,
            1 => 2,
            _ => UNKNOWN_FIELDS[case / 3 % UNKNOWN_FIELDS.len()],
        };
        let (number, count) = run.generate(field);
        let wanted = match field {
            1 => (0, 696),
            2 => (0, 744),
            _ => (18, 0),
        };
        assert_eq!((number, count), wanted);
        run.answered("found", count as u32);
    });
    run.assert_numbers("generate", &[0, 18]);
    run.assert_numbers("found", &[0, 696, 744]);
}

/// Elements of field 2 that field 1 does not have: 10 where they are absorbed or permuted in field 1, and 8 where a record of it holds one.
fn elements_between_the_primes(library: &'static dyn Interface) {
    let run = Run::of("elements_between_the_primes", library, 600, |run| {
        let (field, place) = (1 + run.case as u32 % 2, run.case as usize / 2 % 24);
        let mut list = elements_of(&mut run.random, field);
        list[place] = between_the_primes(&mut run.random);
        let mut state: [u32; 24] = list[..].try_into().expect("24 elements");
        let form = known_form(&mut run.random);
        let mut record = record_at(&mut run.random, field, form, &[ABSORB + 30, 30], 0, 0);
        let numbers = [
            run.call(&mut record, Call::Absorb(list)),
            run.call(&mut Record { state, ..record }, Call::Absorb(vec![1])),
            run.permute(field, &mut state),
        ];
        assert_eq!(numbers, if field == 1 { [10, 8, 10] } else { [0, 0, 0] });
    });
    run.assert_numbers("ABSORB", &[0, 8, 10]);
}

fn elements_of(random: &mut Random, field: u32) -> Vec<u32> {
    (0..24).map(|_| good_element(random, field)).collect()
}

/// A session that goes on in the other field, as no call leads to: it is sound where its elements are that field's.
fn records_of_the_other_field(library: &'static dyn Interface) {
    let run = Run::of("records_of_the_other_field", library, 2_000, |run| {
        let mut record = sound_record(&mut run.random);
        if run.random.once_in(4) {
            record.state = record.state.map(|element| element % P_1);
        }
        let small = record.state.iter().all(|element| *element < P_1);
        record.field = 3 - record.field;
        let sound = record.field == 2 || small;
        for number in each_call(run, &record) {
            assert_eq!(number != 8, sound, "soundness");
        }
        run.answered("sound", u32::from(sound));
    });
    run.assert_numbers("sound", &[0, 1]);
}

/// A session whose record says the other form, as no call leads to: it is sound, and goes on as before.
fn records_of_the_other_form(library: &'static dyn Interface) {
    let run = Run::of("records_of_the_other_form", library, 2_000, |run| {
        let record = sound_record(&mut run.random);
        let other = Record {
            form: 3 - record.form,
            ..record
        };
        let call = next_call(&mut run.random, &record, 12);
        let (mut left, mut left_of_other) = (record, other);
        let number = run.call(&mut left, call.clone());
        assert_eq!(run.call(&mut left_of_other, call), number);
        if left.status == 1 {
            assert_eq!((left.form, left_of_other.form), (record.form, other.form));
            left_of_other.form = left.form;
        }
        assert_eq!(left, left_of_other);
        run.answered("form", record.form);
    });
    run.assert_numbers("form", &[1, 2]);
}

fn owners_by_any_table(library: &'static dyn Interface) {
    let run = Run::of("owners_by_any_table", library, 8_000, |run| {
        let table = any_table(&mut run.random);
        match run.check_owners(&table) {
            (15, 129) => run.answered("row 129", 15),
            (number, _) if table.len() == 1280 => run.answered("128 rows", number),
            _ => (),
        }
        for _ in 0..4 {
            let separator = asked_separator(&mut run.random, &table);
            run.owner(&table, &separator);
        }
    });
    run.assert_numbers("check_owners", &[0, 15, 16]);
    run.assert_numbers("owner", &[0, 15, 16, 17]);
    run.assert_reached("128 rows", &[0, 15, 16]);
    run.assert_reached("row 129", &[15]);
}

/// A note is sealed and opened, and then each once more with one or several things changed.
fn notes_sealed_and_opened(library: &'static dyn Interface) {
    let run = Run::of("notes_sealed_and_opened", library, 600, |run| {
        let sealing = any_note(&mut run.random);
        let (number, sealed) = run.note(&sealing);
        assert_eq!(number, 0);
        let opening = sealing.opening(sealed);
        assert_eq!(run.note(&opening), (0, sealing.text.clone()));
        for good in [&sealing, &opening, &opening] {
            let mut call = good.clone();
            for _ in 0..run.random.pick(&[1, 1, 1, 2, 3]) {
                damage_note(&mut run.random, &mut call);
            }
            run.note(&call);
        }
    });
    run.assert_numbers("seal", &[0, 6, 10, 18, 20]);
    run.assert_numbers("open", &[0, 6, 10, 18, 20, 21]);
    assert_eq!(run.total(&["seal", "open"]), 3_000);
}
