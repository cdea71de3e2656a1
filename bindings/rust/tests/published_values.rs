//! The independent implementation, held to what is published: the samples B1 to B10 and the table of refused calls in document
//! 01, document 02's sentences about tables of owners, fields, declared calls, sessions that end by absorbing, sealed notes and forms of tag
//! strings, and examples of SHA3-256 from NIST. What the library is compared with must itself be right.

mod guarded;
mod independent;

use independent::*;

/// "The buyers' house rule now limits one declared call to 16,777,216 elements."
const LIMIT: u32 = 16777216;

/// A session of form 1, unless a test is about forms.
fn started(field: u32, words: &[u32], separator: &[u8]) -> Session {
    started_in_form(1, field, words, separator)
}

fn started_in_form(form: u32, field: u32, words: &[u32], separator: &[u8]) -> Session {
    let (number, record) = start(field, form, words, separator);
    assert_eq!((number, record.field, record.form), (0, field, form));
    record
}

/// A whole session with each word in one call. Gives the record that FINISH gets.
fn fully_run(field: u32, words: &[u32]) -> Session {
    let mut record = started(field, words, &[]);
    for word in words {
        let size = length(*word) as usize;
        let number = if word & ABSORB != 0 {
            absorb(&mut record, &vec![5; size])
        } else {
            squeeze(&mut record, &mut vec![0; size])
        };
        assert_eq!(number, 0);
    }
    let before = record.clone();
    assert_eq!((finish(&mut record), record), (0, WIPED));
    before
}

fn permutations(field: u32, words: &[u32]) -> u64 {
    fully_run(field, words).permutations
}

/// Words of length 1 that alternate from ABSORB.
fn alternating_ones(count: usize) -> Vec<u32> {
    [ABSORB + 1, 1].into_iter().cycle().take(count).collect()
}

/// The number that START and writing give in either form.
fn pattern_number(words: &[u32], separator: &[u8]) -> u32 {
    let number = start(1, 1, words, separator).0;
    assert_eq!(start(1, 2, words, separator).0, number);
    for form in [1, 2] {
        let written = write_tag(form, words, separator, &mut [0; 516]);
        assert_eq!(written.err().unwrap_or(0), number);
    }
    number
}

/// A tag string of form 1.
fn written(words: &[u32], separator: &[u8]) -> Vec<u8> {
    written_in_form(1, words, separator)
}

/// A tag string, for which a buffer of just its length suffices, and none that is shorter: number 12 leaves that as it is.
fn written_in_form(form: u32, words: &[u32], separator: &[u8]) -> Vec<u8> {
    let mut out = [77; 600];
    let size = write_tag(form, words, separator, &mut out).unwrap();
    assert_eq!(out[size..], [77; 600][size..]);
    let mut exact = vec![77; size];
    assert_eq!(write_tag(form, words, separator, &mut exact), Ok(size));
    assert_eq!(exact, out[..size]);
    for length in [0, size.saturating_sub(4), size - 1] {
        let mut short = vec![77; length];
        assert_eq!(write_tag(form, words, separator, &mut short), Err(12));
        assert_eq!(short, vec![77; length]);
    }
    exact
}

#[test]
fn hashes_published_by_nist() {
    let examples: [(&[u8], &str); 3] = [
        (b"", "a7ffc6f8bf1ed76651c14756a061d662f580ff4de43b49fa82d80a4b80f8434a"),
        (
            b"abc",
            "3a985da74fe225b2045c172d6bd390bd855f086e3e9d525b46bfe24511431532",
        ),
        (
            &[0xa3; 200],
            "79f38adec5c20307a98ef76e8324afbfd46cfd81b22e3973c65fa1bd9de31787",
        ),
    ];
    for (data, digest) in examples {
        let hexadecimal = |bytes: [u8; 32]| bytes.iter().map(|byte| format!("{byte:02x}")).collect::<String>();
        assert_eq!(hexadecimal(sha3_256(data)), digest);
        assert_eq!(
            hexadecimal(guarded::sha3_256(&mut guarded::Random::new(1), data)),
            digest
        );
    }
}

/// Of B3, P4 of document 02: "its example and B3 now get the new number".
#[test]
fn tag_strings_b1_to_b3() {
    let b1 = [0x80, 0, 0, 6, 0, 0, 0, 3, 0x41, 0x42];
    assert_eq!(written(&[0x80000003, 0x80000003, 0x00000003], &[0x41, 0x42]), b1);
    assert_eq!(
        written(&[0x80000001, 0x00000001], &[0x80, 0, 0, 2, 0, 0, 0, 2]),
        written(&[0x80000001, 0x00000001, 0x80000002, 0x00000002], &[])
    );
    let b3 = [0xfffffffe, 0x80000001, 0x00000001];
    assert_eq!(start(1, 1, &b3, &[]), (19, WIPED));
    assert_eq!(write_tag(1, &b3, &[], &mut [0; 512]), Err(19));
}

#[test]
fn tag_strings_read_back() {
    let b1 = [0x80, 0, 0, 6, 0, 0, 0, 3, 0x41, 0x42];
    let (number, words, count) = read_tag(1, &b1, 2);
    assert_eq!((number, &words[..3], count), (0, &[0x80000006, 0x00000003, 0][..], 2));
    assert_eq!(read_separator(1, &b1, 2), [0x41, 0x42]);
    assert_eq!(read_separator(1, &b1, 3), []);
}

#[test]
fn permutation_counts_b4_to_b7() {
    for field in [1, 2] {
        assert_eq!(permutations(field, &[ABSORB + 8, 1]), 1);
        assert_eq!(permutations(field, &[ABSORB + 9, 1]), 2);
        assert_eq!(permutations(field, &[ABSORB + 1, 9]), 2);
        assert_eq!(permutations(field, &[ABSORB + 8, 8, ABSORB + 1, 1]), 2);
    }
}

#[test]
fn arithmetic_b8_to_b10() {
    assert_eq!((inverse(&FIELD_1, 24), inverse(&FIELD_1, 32)), (1929379841, 1950351361));
    assert_eq!((power(&FIELD_1, 2, 7), power(&FIELD_1, P_1 - 1, 7)), (128, P_1 - 1));
    assert_eq!(tag_elements(&[0xff; 32]), [1073741823; 8]);
}

/// "1 for today's and 2 for this one"; "2130706433 = 2^31 − 2^24 + 1"; "the third power, 4 full, 23 partial and 4 full rounds"; "the same 47 sums
/// inverted in its own field". That an inverse is right, its product with the number says.
#[test]
fn figures_of_both_fields() {
    assert_eq!((P_1, P_2), (15 * (1 << 27) + 1, (1 << 31) - (1 << 24) + 1));
    assert_eq!(
        (FIELD_1.p, FIELD_1.exponent, FIELD_1.partial_rounds),
        (2013265921, 7, 21)
    );
    assert_eq!(
        (FIELD_2.p, FIELD_2.exponent, FIELD_2.partial_rounds),
        (2130706433, 3, 23)
    );
    assert_eq!((power(&FIELD_2, 2, 3), power(&FIELD_2, P_2 - 1, 3)), (8, P_2 - 1));
    for (field, number) in [&FIELD_1, &FIELD_2]
        .into_iter()
        .flat_map(|field| (24..71).map(move |n| (field, n)))
    {
        assert_eq!(
            u64::from(inverse(field, number)) * u64::from(number) % u64::from(field.p),
            1
        );
    }
}

/// Of number 5, P4 of document 02: "Its row is marked unused; its example and B3 now get the new number." Of number 4, P6: it "is no longer
/// given".
#[test]
fn patterns_turned_away_as_in_the_table() {
    for field in [1, 2] {
        assert_eq!(start(field, 1, &[], &[]), (1, WIPED));
        assert_eq!(start(field, 1, &[0x80000003, 0x00000000], &[]), (2, WIPED));
        assert_eq!(start(field, 1, &[0x00000001], &[]), (3, WIPED));
        assert_eq!(start(field, 1, &[0x80000001], &[]).0, 0);
        assert_eq!(start(field, 1, &[0xffffffff, 0x80000001, 0x00000001], &[]), (19, WIPED));
        assert_eq!(start(field, 1, &[0x80000001, 0x00000001], &[0; 257]), (6, WIPED));
        assert_eq!(start(field, 1, &[0x80000001, 0x00000001], &[0; 256]).0, 0);
    }
}

/// "19: a declared call above 16,777,216 elements, after 2 and before 3"; "With 64 words no merged length can then pass 2147483647."
#[test]
fn declared_calls_turned_away_as_in_the_request() {
    let number = pattern_number;
    assert_eq!(number(&[ABSORB + LIMIT, LIMIT], &[]), 0);
    assert_eq!(number(&[ABSORB + LIMIT + 1, 1], &[]), 19);
    assert_eq!(number(&[ABSORB + 1, LIMIT + 1], &[]), 19);
    assert_eq!(number(&[ABSORB + 1, 1, ABSORB + 1, LONGEST], &[]), 19);
    assert_eq!(number(&[LIMIT + 1; 65], &[]), 1);
    assert_eq!(number(&[LIMIT + 1, ABSORB], &[]), 2);
    assert_eq!(number(&[LIMIT + 1], &[]), 19);
    assert_eq!(number(&[1, ABSORB + LIMIT + 1], &[]), 19);
    assert_eq!(number(&[LIMIT], &[]), 3);
    assert_eq!(number(&[ABSORB + LIMIT + 1], &[]), 19);
    assert_eq!(number(&[ABSORB + LIMIT; 64], &[]), 0);
    assert_eq!(number(&[ABSORB + LIMIT + 1, 1], &[0; 257]), 19);
    assert_eq!(number(&[ABSORB + LIMIT, 1], &[0; 257]), 6);
    for absorbed in [1, 32, 63] {
        let words: Vec<u32> = (0..64)
            .map(|k| if k < absorbed { ABSORB + LIMIT } else { LIMIT })
            .collect();
        let merged = [ABSORB + absorbed * LIMIT, (64 - absorbed) * LIMIT, 0];
        let record = started(2, &words, &[]);
        assert_eq!((record.count, &record.words[..3]), (2, &merged[..]));
    }
    let record = started(2, &[ABSORB + LIMIT; 64], &[]);
    assert_eq!((record.count, &record.words[..2]), (1, &[ABSORB + 64 * LIMIT, 0][..]));
}

/// "Accept a pattern whose last word is ABSORB, a pattern of ABSORB words alone included. Number 4 is no longer given".
#[test]
fn patterns_that_end_by_absorbing() {
    for count in 1..=64 {
        let words = alternating_ones(count);
        let record = started(1, &words, &[]);
        assert_eq!((record.count, &record.words[..count]), (count as u32, &words[..]));
        assert!(record.words[count..].iter().all(|word| *word == 0));
        let record = started(2, &vec![ABSORB + 2; count], &[]);
        assert_eq!(
            (record.count, &record.words[..2]),
            (1, &[ABSORB + 2 * count as u32, 0][..])
        );
    }
    let record = started(1, &[ABSORB + 1, 2, 3, ABSORB + 4, ABSORB + 5], &[]);
    assert_eq!(
        (record.count, &record.words[..4]),
        (3, &[ABSORB + 1, 5, ABSORB + 9, 0][..])
    );
    assert_eq!(written(&[0x80000003], b"AB"), [0x80, 0, 0, 3, 0x41, 0x42]);
    assert_eq!(
        written(&[0x80000001, 0x00000002, 0x80000003], &[]),
        [0x80, 0, 0, 1, 0, 0, 0, 2, 0x80, 0, 0, 3]
    );
    assert_eq!(write_tag(1, &[0x80000003], b"AB", &mut [0; 5]), Err(12));
}

/// The numbers that a last ABSORB leaves as they are. START "checks 1 to 6 in number order", with 19 "after 2 and before 3".
#[test]
fn patterns_that_end_by_absorbing_and_are_turned_away() {
    assert_eq!(pattern_number(&alternating_ones(65), &[]), 1);
    assert_eq!(pattern_number(&[ABSORB + 1; 65], &[]), 1);
    assert_eq!(pattern_number(&[ABSORB], &[]), 2);
    assert_eq!(pattern_number(&[1, LIMIT + 1, ABSORB], &[0; 257]), 2);
    assert_eq!(pattern_number(&[1, ABSORB + LIMIT + 1], &[0; 257]), 19);
    assert_eq!(pattern_number(&[1, ABSORB + 1], &[0; 257]), 3);
    assert_eq!(pattern_number(&[ABSORB + 1], &[0; 257]), 6);
    assert_eq!(pattern_number(&[ABSORB + 1, 1, ABSORB + 1], &[0; 257]), 6);
    assert_eq!(pattern_number(&[ABSORB + 1], &[0; 256]), 0);
    assert_eq!(start(0, 1, &[ABSORB + 1], &[]), (18, WIPED));
}

/// "A finished session's permutations follow the same per-phase formula": "absorb, 0 if d = 0, else ceil(d/8) − 1; squeeze, ceil(d/8)."
#[test]
fn permutations_of_sessions_that_end_by_absorbing() {
    for field in [1, 2] {
        assert_eq!(permutations(field, &[ABSORB + 1]), 0);
        assert_eq!(permutations(field, &[ABSORB + 8]), 0);
        assert_eq!(permutations(field, &[ABSORB + 9]), 1);
        assert_eq!(permutations(field, &[ABSORB + 1; 64]), 7);
        assert_eq!(permutations(field, &[ABSORB + 8, 1, ABSORB + 8]), 1);
        assert_eq!(permutations(field, &[ABSORB + 1, 9, ABSORB + 9]), 3);
        assert_eq!(permutations(field, &alternating_ones(63)), 31);
    }
}

/// "ABSORB adds each element at the absorb position. If that is 8, it permutes and goes to 0 first", so nothing permutes after a last ABSORB.
#[test]
fn last_block_is_absorbed_and_not_permuted() {
    for field in [1, 2] {
        let fresh = started(field, &[ABSORB + 8], &[]);
        let mut record = fresh.clone();
        assert_eq!(absorb(&mut record, &[11, 12, 13, 14, 15, 16, 17, 18]), 0);
        let mut state = fresh.state;
        state[..8].copy_from_slice(&[11, 12, 13, 14, 15, 16, 17, 18]);
        assert_eq!(
            record,
            Session {
                state,
                phase: 1,
                absorb_position: 8,
                squeeze_position: 8,
                ..fresh
            }
        );
        let mut record = started(field, &[ABSORB + 9], &[]);
        assert_eq!(absorb(&mut record, &[5; 8]), 0);
        let mut state = record.state;
        assert_eq!((absorb(&mut record, &[0]), permute(field, &mut state)), (0, 0));
        assert_eq!((record.state, record.absorb_position), (state, 1));
    }
}

/// "wrong kind, past the phase's end, or after the last phase"; "FINISH before the last phase's end"; "Length 0 on an open sound record is
/// accepted and changes nothing."
#[test]
fn calls_after_a_last_absorb() {
    for words in [&[ABSORB + 8][..], &[ABSORB + 1; 64], &[ABSORB + 3, 9, ABSORB + 9]] {
        let done = fully_run(1, words);
        assert_eq!((done.phase, done.done), (done.count, 0));
        let (mut record, mut buffer) = (done.clone(), [77]);
        assert_eq!((squeeze(&mut record, &mut buffer), record, buffer), (9, WIPED, [77]));
        let mut record = done.clone();
        assert_eq!((absorb(&mut record, &[1]), record), (9, WIPED));
        let mut record = done.clone();
        assert_eq!((absorb(&mut record, &[]), squeeze(&mut record, &mut [])), (0, 0));
        assert_eq!(record, done);
    }
    let mut record = started(1, &[ABSORB + 8], &[]);
    assert_eq!(absorb(&mut record, &[1; 7]), 0);
    let mut past = record.clone();
    assert_eq!((absorb(&mut past, &[1, 1]), past), (9, WIPED));
    assert_eq!((finish(&mut record), record), (11, WIPED));
}

/// "record soundness and reading drop the even count and take 1 to 64 words."
#[test]
fn word_lists_that_are_read_and_sound() {
    let number = |words: &[u32]| {
        let string: Vec<u8> = words.iter().flat_map(|word| word.to_be_bytes()).collect();
        let (number, read, count) = read_tag(1, &string, 0);
        assert_eq!(&read[..count], if number == 0 { words } else { &[] });
        assert!(read[count..].iter().all(|word| *word == 0));
        if words.len() <= 64 {
            let mut record = Session {
                words: [0; 64],
                count: words.len() as u32,
                ..started(1, &[ABSORB + 1], &[])
            };
            record.words[..words.len()].copy_from_slice(words);
            assert_eq!(absorb(&mut record, &[]), if number == 0 { 0 } else { 8 });
        }
        number
    };
    for count in 1..=64 {
        let words = alternating_ones(count);
        assert_eq!(number(&words), 0);
        for k in 0..count {
            for wrong in [0, ABSORB, words[k] ^ ABSORB] {
                let mut words = words.clone();
                words[k] = wrong;
                assert_eq!(number(&words), 13);
            }
        }
    }
    assert_eq!(number(&[]), 13);
    assert_eq!(number(&alternating_ones(65)), 13);
    assert_eq!(number(&[ABSORB + LONGEST]), 0);
    assert_eq!(number(&[0x80000003]), 0);
    assert_eq!(number(&[0x00000001]), 13);
    assert_eq!(read_separator(1, &[0x80, 0, 0, 3, 0x41, 0x42], 2), [0x41, 0x42]);
}

/// "Reading still takes any 31-bit length", and so does a sound record.
#[test]
fn lengths_that_are_read_and_sound() {
    for (first, second) in [(LIMIT + 1, 1), (1, LIMIT + 1), (LONGEST, LONGEST)] {
        let words = [ABSORB + first, second];
        let string = words.map(u32::to_be_bytes).concat();
        let (number, read, count) = read_tag(1, &string, 0);
        assert_eq!((number, &read[..3], count), (0, &[words[0], words[1], 0][..], 2));
        let mut record = started(1, &[ABSORB + 1, 1], &[]);
        record.words[..2].copy_from_slice(&words);
        assert_eq!(absorb(&mut record, &[1]), 0);
    }
}

/// The calls of words that 64 calls suffice for.
fn calls_of(words: &[u32]) -> Vec<u32> {
    let (number, calls, count) = cut(words);
    assert_eq!(number, 0);
    assert!(calls[count..].iter().all(|word| *word == 0));
    calls[..count].to_vec()
}

/// "cutting longer words into calls of 16,777,216 and any rest, where 64 calls suffice."
#[test]
fn words_cut_into_calls() {
    assert_eq!(calls_of(&[]), []);
    for kind in [ABSORB, 0] {
        for short in [0, 1, LIMIT - 1, LIMIT] {
            assert_eq!(calls_of(&[kind + short; 64]), [kind + short; 64]);
            assert_eq!(cut(&[kind + short; 65]), (1, [0; 64], 0));
        }
        assert_eq!(calls_of(&[kind + LIMIT + 1]), [kind + LIMIT, kind + 1]);
        assert_eq!(calls_of(&[kind + 2 * LIMIT - 1]), [kind + LIMIT, kind + LIMIT - 1]);
        for times in [2, 3, 64] {
            assert_eq!(calls_of(&[kind + times * LIMIT]), vec![kind + LIMIT; times as usize]);
        }
        assert_eq!(calls_of(&[kind + 64 * LIMIT - 1]).len(), 64);
        assert_eq!(cut(&[kind + 64 * LIMIT + 1]), (1, [0; 64], 0));
        assert_eq!(cut(&[kind + LONGEST]), (1, [0; 64], 0));
    }
    assert_eq!(
        calls_of(&[ABSORB + 2 * LIMIT + 5, 0, LIMIT + 7, ABSORB]),
        [ABSORB + LIMIT, ABSORB + LIMIT, ABSORB + 5, 0, LIMIT, 7, ABSORB]
    );
    assert_eq!(cut(&vec![u32::MAX; 1_000_000]), (1, [0; 64], 0));
}

/// "what it reads is written again by cutting longer words .. where 64 calls suffice."
#[test]
fn what_is_read_is_written_again() {
    let lists: [&[u32]; 9] = [
        &[ABSORB + 3],
        &[ABSORB + 64 * LIMIT],
        &[ABSORB + 6, 3],
        &[ABSORB + 6, 3, ABSORB + 1],
        &[ABSORB + LIMIT + 1, LIMIT, ABSORB + 61 * LIMIT],
        &[ABSORB + LIMIT + 1, 2 * LIMIT],
        &[ABSORB + 63 * LIMIT, 1],
        &[ABSORB + 1, 63 * LIMIT - 1],
        &[ABSORB + 30 * LIMIT + 1, LIMIT, ABSORB + 7, 31 * LIMIT],
    ];
    for words in lists {
        let mut string: Vec<u8> = words.iter().flat_map(|word| word.to_be_bytes()).collect();
        string.extend(b"AB");
        let (number, read, count) = read_tag(1, &string, 2);
        assert_eq!((number, &read[..count]), (0, words));
        assert_eq!(
            written(&calls_of(&read[..count]), read_separator(1, &string, 2)),
            string
        );
    }
    assert_eq!(cut(&[ABSORB + 63 * LIMIT + 1, 1]), (1, [0; 64], 0));
    assert_eq!(cut(&[ABSORB + LONGEST, 1]), (1, [0; 64], 0));
}

/// "18: field number neither 1 nor 2, before 1 at START, before 10 in the bare permutation, which gives its input back, and in the generator, whose list
/// has 744 places in either field and then holds zeros, none found". "A record with another field number isn't sound."
#[test]
fn fields_turned_away_as_in_the_request() {
    let fresh = started(1, &[ABSORB + 1, 1], &[]);
    for field in [0, 3, 1 << 31, u32::MAX] {
        assert_eq!(start(field, 1, &[ABSORB + 1, 1], &[]), (18, WIPED));
        assert_eq!(start(field, 1, &[], &[0; 257]), (18, WIPED));
        for mut state in [[5; 24], [u32::MAX; 24]] {
            let before = state;
            assert_eq!((permute(field, &mut state), state), (18, before));
        }
        assert_eq!(generate(field), (18, [0; 744], 0));
        let unsound = Session { field, ..fresh.clone() };
        let mut record = unsound.clone();
        assert_eq!((absorb(&mut record, &[1]), squeeze(&mut record, &mut [0])), (8, 8));
        assert_eq!((finish(&mut record), record), (8, unsound));
    }
}

/// "p and element .. mean those of the field that the record or the call names".
#[test]
fn elements_of_either_field() {
    for (field, p) in [(1, 2013265921), (2, 2130706433)] {
        let fresh = started(field, &[ABSORB + 1, 1], &[]);
        let mut record = fresh.clone();
        assert_eq!((absorb(&mut record, &[p]), &record), (10, &fresh));
        assert_eq!(absorb(&mut record, &[p - 1]), 0);
        let mut state = [p; 24];
        assert_eq!((permute(field, &mut state), state), (10, [p; 24]));
        state = [p - 1; 24];
        assert_eq!(permute(field, &mut state), 0);
        assert!(state.iter().all(|element| *element < p));
    }
}

#[test]
fn numbers_7_8_and_10_leave_the_record() {
    let fresh = started(1, &[ABSORB + 1, 1], &[]);
    let mut record = fresh.clone();
    assert_eq!((absorb(&mut record, &[2013265921]), &record), (10, &fresh));
    assert_eq!(absorb(&mut record, &[2013265920]), 0);
    assert_eq!((squeeze(&mut record, &mut [0]), finish(&mut record)), (0, 0));
    assert_eq!((absorb(&mut record, &[]), squeeze(&mut record, &mut [])), (7, 7));
    assert_eq!((finish(&mut record), record), (7, WIPED));
    let unsound = Session {
        absorb_position: 9,
        ..fresh
    };
    let mut record = unsound.clone();
    assert_eq!((absorb(&mut record, &[1]), squeeze(&mut record, &mut [])), (8, 8));
    assert_eq!((finish(&mut record), record), (8, unsound));
}

#[test]
fn numbers_9_and_11_wipe_the_record() {
    let fresh = started(2, &[ABSORB + 1, 1], &[]);
    let (mut record, mut buffer) = (fresh.clone(), [77]);
    assert_eq!((squeeze(&mut record, &mut buffer), record, buffer), (9, WIPED, [77]));
    let mut record = fresh.clone();
    assert_eq!((absorb(&mut record, &[1, 1]), record), (9, WIPED));
    let mut record = fresh;
    assert_eq!((finish(&mut record), record), (11, WIPED));
}

/// Of number 13, P6 of document 02: its "example in 01 now reads, and 00000001 with length 0 takes its place".
#[test]
fn tags_turned_away_as_in_the_table() {
    let mut out = [77; 9];
    assert_eq!(
        write_tag(1, &[0x80000003, 0x80000003, 0x00000003], &[0x41, 0x42], &mut out),
        Err(12)
    );
    assert_eq!(out, [77; 9]);
    assert_eq!(read_tag(1, &[0, 0, 0, 1], 0), (13, [0; 64], 0));
    let (number, words, count) = read_tag(1, &[0x80, 0, 0, 3], 0);
    assert_eq!((number, &words[..2], count), (0, &[0x80000003, 0][..], 1));
}

/// "The trade's rule here becomes form 2: words, separator, then the separator's length as four bytes, highest first."
#[test]
fn tag_strings_of_form_2() {
    let b1 = written_in_form(2, &[0x80000003, 0x80000003, 0x00000003], &[0x41, 0x42]);
    assert_eq!(b1, [0x80, 0, 0, 6, 0, 0, 0, 3, 0x41, 0x42, 0, 0, 0, 2]);
    assert_eq!(written_in_form(2, &[0x80000001], &[]), [0x80, 0, 0, 1, 0, 0, 0, 0]);
    let words = alternating_ones(64);
    for length in [0, 1, 4, 255, 256] {
        let separator: Vec<u8> = (0..length).map(|k| k as u8 ^ 0x5a).collect();
        let longest = written_in_form(2, &words, &separator);
        assert_eq!(longest.len(), 260 + length);
        assert_eq!(longest[..256 + length], written(&words, &separator));
        assert_eq!(longest[256 + length..], [0, 0, (length / 256) as u8, length as u8]);
    }
    assert_eq!(LONGEST_STRING, 516);
}

/// "Buyers now join suites whose separators differ in length, and case B2 shows two of those protocols sharing a tag."
#[test]
fn form_2_tells_b2_apart() {
    let (short, separator) = ([0x80000001, 0x00000001], [0x80, 0, 0, 2, 0, 0, 0, 2]);
    let long = [0x80000001, 0x00000001, 0x80000002, 0x00000002];
    for field in [1, 2] {
        let state = |form: u32, words: &[u32], separator: &[u8]| started_in_form(form, field, words, separator).state;
        assert_eq!(state(1, &short, &separator), state(1, &long, &[]));
        assert_ne!(state(2, &short, &separator), state(2, &long, &[]));
    }
    let words = [0x80, 0, 0, 1, 0, 0, 0, 1, 0x80, 0, 0, 2, 0, 0, 0, 2];
    let with_tail = |tail: [u8; 4]| [&words[..], &tail].concat();
    assert_eq!(written_in_form(2, &short, &separator), with_tail([0, 0, 0, 8]));
    assert_eq!(written_in_form(2, &long, &[]), with_tail([0, 0, 0, 0]));
}

/// "SHA3-256 (FIPS 202) of that string is the digest", of the string of the form that START got. "Word k is added to element 8 + k of the zero
/// state." "the record keeps it": nothing but the form and the state differs.
#[test]
fn sessions_begin_with_the_string_of_their_form() {
    let openings: [(&[u32], &[u8]); 3] = [
        (&[ABSORB + 3, 3], b"AB"),
        (&[ABSORB + 9], b""),
        (&alternating_ones(64), &[7; 256]),
    ];
    for (words, separator) in openings {
        for field in [1, 2] {
            for form in [1, 2] {
                let record = started_in_form(form, field, words, separator);
                let mut state = [0; 24];
                state[8..16].copy_from_slice(&tag_elements(&sha3_256(&written_in_form(form, words, separator))));
                let other = started_in_form(3 - form, field, words, separator);
                assert_ne!(other.state, state);
                assert_eq!(record, Session { form, state, ..other });
            }
        }
    }
}

/// What is read of a string: the number, the words, and where the separator is in the string. Refused, its place is the end.
fn read(form: u32, string: &[u8], given: usize) -> (u32, Vec<u32>, std::ops::Range<usize>) {
    let (number, words, count) = read_tag(form, string, given);
    assert!(words[count..].iter().all(|word| *word == 0));
    let separator = read_separator(form, string, given);
    let start = separator.as_ptr() as usize - string.as_ptr() as usize;
    if number != 0 {
        assert_eq!((count, start, separator.len()), (0, string.len(), 0));
    }
    (number, words[..count].to_vec(), start..start + separator.len())
}

/// Lengths given, which reading form 2 ignores.
const GIVEN: [usize; 8] = [0, 1, 2, 3, 8, 256, 257, usize::MAX];

/// Numbers that no form has: in some a part of the bits is the number of one.
const UNKNOWN_FORMS: [u32; 7] = [0, 3, 257, 65538, ABSORB, ABSORB + 1, u32::MAX];

/// "Reading form 2 goes by the string's last four bytes and ignores any length given."
#[test]
fn form_2_is_read_by_its_tail() {
    let patterns = [
        vec![ABSORB + 1],
        vec![ABSORB + 6, 3],
        alternating_ones(63),
        alternating_ones(64),
    ];
    let lengths = [0, 1, 2, 3, 4, 8, 255, 256];
    for (words, length) in patterns.iter().flat_map(|words| lengths.map(|length| (words, length))) {
        let separator: Vec<u8> = (0..length).map(|k| k as u8 ^ 0x80).collect();
        let string = written_in_form(2, words, &separator);
        for given in GIVEN {
            let place = 4 * words.len()..4 * words.len() + length;
            assert_eq!(read(2, &string, given), (0, words.clone(), place.clone()));
            assert_eq!((place.end, &string[place]), (string.len() - 4, &separator[..]));
        }
    }
}

/// "In form 2 a string under four bytes, or one whose tail names more bytes than precede it, gets 13, and a tail above 256 gets 6 before that." "what
/// precedes it isn't a sound record's word list in whole words": 13 too.
#[test]
fn form_2_strings_turned_away_as_in_the_request() {
    let number = |string: &[u8]| {
        let numbers = GIVEN.map(|given| read(2, string, given).0);
        assert_eq!(numbers, [numbers[0]; 8]);
        numbers[0]
    };
    let b1 = [0x80, 0, 0, 6, 0, 0, 0, 3, 0x41, 0x42, 0, 0, 0, 2];
    for length in 0..4 {
        assert_eq!(number(&[0; 4][..length]), 13);
        assert_eq!(number(&[0xff; 4][..length]), 13);
        assert_eq!(number(&b1[b1.len() - length..]), 13);
    }
    assert_eq!(number(&[0xff; 4]), 6);
    assert_eq!(number(&[0, 0, 0, 0]), 13);
    assert_eq!(number(&[0, 0, 0, 1]), 13);
    assert_eq!(number(&[0, 0, 1, 0]), 13);
    assert_eq!(number(&[0, 0, 1, 1]), 6);
    assert_eq!(number(&[1, 0, 0, 0]), 6);
    let with_tail = |preceding: &[u8], tail: u32| [preceding, &tail.to_be_bytes()].concat();
    let word = [0x80, 0, 0, 1];
    assert_eq!(number(&with_tail(&word, 0)), 0);
    for tail in [1, 2, 3, 4, 5, 256] {
        assert_eq!(number(&with_tail(&word, tail)), 13);
    }
    let long = [&word[..], &[0xaa; 300]].concat();
    assert_eq!(number(&with_tail(&long[..260], 256)), 0);
    assert_eq!(number(&with_tail(&long[..259], 256)), 13);
    assert_eq!(number(&with_tail(&long[..256], 256)), 13);
    assert_eq!(number(&with_tail(&long[..255], 256)), 13);
    for tail in [257, 300, 304, 305, 1 << 16, 1 << 24, 1 << 31, u32::MAX] {
        assert_eq!(number(&with_tail(&long, tail)), 6);
    }
    // Its bytes are highest first: a tail that names one byte or two, and one that names 16777216 or 33554432.
    assert_eq!(number(&[0x80, 0, 0, 1, 7, 0, 0, 0, 1]), 0);
    assert_eq!(number(&[0x80, 0, 0, 1, 7, 1, 0, 0, 0]), 6);
    assert_eq!(number(&[0x80, 0, 0, 1, 5, 5, 0, 0, 0, 2]), 0);
    assert_eq!(number(&[0x80, 0, 0, 1, 5, 5, 2, 0, 0, 0]), 6);
    assert_eq!(number(&with_tail(&[0, 0, 0, 1], 0)), 13);
    for (count, expected) in [(64, 0), (65, 13)] {
        let words = alternating_ones(count);
        let bytes: Vec<u8> = words.iter().flat_map(|word| word.to_be_bytes()).collect();
        assert_eq!(number(&with_tail(&bytes, 0)), expected);
    }
    // An empty separator's string, read as form 1: two words of which the second has length 0, or one and a separator of four bytes.
    let string = written_in_form(2, &[ABSORB + 1], &[]);
    assert_eq!(read(1, &string, 0), (13, vec![], 8..8));
    assert_eq!(read(1, &string, 4), (0, vec![ABSORB + 1], 4..8));
    assert_eq!(read(2, &string, 4), (0, vec![ABSORB + 1], 4..4));
}

/// "22: form number neither 1 nor 2, straight after 18 where both are checked, elsewhere first."
#[test]
fn forms_turned_away_as_in_the_request() {
    let openings: [(&[u32], &[u8]); 4] = [
        (&[ABSORB + 1, 1], b"AB"),
        (&[], &[0; 257]),
        (&[0; 65], b""),
        (&[1, LIMIT + 1], b""),
    ];
    let strings: [&[u8]; 6] = [
        &[],
        &[0xff; 4],
        &[0x80, 0, 0, 1],
        &[0x80, 0, 0, 1, 7],
        &[0x80, 0, 0, 1, 0, 0, 0, 0],
        &[0; 600],
    ];
    for form in UNKNOWN_FORMS {
        for (words, separator) in openings {
            for field in [1, 2] {
                assert_eq!(start(field, form, words, separator), (22, WIPED));
            }
            for field in [0, 3, u32::MAX] {
                assert_eq!(start(field, form, words, separator), (18, WIPED));
            }
            for length in [0, 9, 600] {
                let mut out = vec![77; length];
                assert_eq!(write_tag(form, words, separator, &mut out), Err(22));
                assert_eq!(out, vec![77; length]);
            }
        }
        for string in strings {
            for given in GIVEN {
                assert_eq!(read(form, string, given), (22, vec![], string.len()..string.len()));
            }
        }
    }
}

/// "the record keeps it; a record with another isn't sound."
#[test]
fn records_keep_their_form() {
    for (field, form) in [(1, 1), (1, 2), (2, 1), (2, 2)] {
        let fresh = started_in_form(form, field, &[ABSORB + 9, 9], &[]);
        for other in UNKNOWN_FORMS {
            let unsound = Session {
                form: other,
                ..fresh.clone()
            };
            let mut record = unsound.clone();
            assert_eq!((absorb(&mut record, &[1]), absorb(&mut record, &[])), (8, 8));
            assert_eq!((squeeze(&mut record, &mut [0]), squeeze(&mut record, &mut [])), (8, 8));
            assert_eq!((finish(&mut record), &record), (8, &unsound));
            record.status = 0;
            assert_eq!((absorb(&mut record, &[1]), finish(&mut record)), (7, 7));
        }
        let mut record = fresh.clone();
        let mut exchanged = Session {
            form: 3 - form,
            ..fresh
        };
        for _ in 0..18 {
            step(&mut record);
            step(&mut exchanged);
            assert_eq!((record.form, exchanged.form), (form, 3 - form));
            assert_eq!(
                exchanged,
                Session {
                    form: 3 - form,
                    ..record.clone()
                }
            );
        }
        assert_eq!((finish(&mut record), record), (0, WIPED));
        assert_eq!((finish(&mut exchanged), exchanged.form), (0, 0));
    }
}

/// "The 696 round constants"; "so 744 constants from the same generator".
#[test]
fn generator_finds_all_constants() {
    for (field, count) in [(&FIELD_1, 696), (&FIELD_2, 744)] {
        let (number, constants, found) = generate(field.number);
        assert_eq!((number, found, constants_needed(field)), (0, count, count));
        assert!(constants[..count].iter().all(|constant| *constant < field.p));
        assert!(constants[count..].iter().all(|place| *place == 0));
    }
}

/// One element of the phase where a record is.
fn step(record: &mut Session) {
    let absorbing = record.words[record.phase as usize] & ABSORB != 0;
    let number = if absorbing {
        absorb(record, &[1])
    } else {
        squeeze(record, &mut [0])
    };
    assert_eq!(number, 0);
}

#[test]
fn formula_gives_what_the_steps_give() {
    for (first, second, third) in [(1, 1, 1), (7, 8, 9), (8, 9, 7), (9, 16, 8), (17, 7, 25), (24, 33, 16)] {
        let words = [ABSORB + first, second, ABSORB + third, 1];
        for words in (1..=4).map(|count| &words[..count]) {
            let mut record = started(2, words, &[]);
            for _ in 0..words.iter().map(|word| length(*word)).sum() {
                step(&mut record);
                let here = place(words, record.phase as usize, record.done);
                let (absorb_position, squeeze_position) = (record.absorb_position, record.squeeze_position);
                assert_eq!(
                    here,
                    Place {
                        absorb_position,
                        squeeze_position,
                        permutations: record.permutations
                    }
                );
            }
            assert_eq!(finish(&mut record), 0);
        }
    }
}

/// "The empty table is a gap." 15: "a row whose first is above its last or not above the previous row's last, a row 129 or a row cut short". "17,
/// after both: the separator asked about is under four bytes; one over 256 isn't refused here."
#[test]
fn sentences_about_tables_of_owners() {
    const WHOLE: [u8; 10] = [0, 0, 0, 0, 255, 255, 255, 255, 1, 2];
    assert_eq!((check_owners(&[]), owner(&[], b"abc")), ((16, 0), (16, 0)));
    assert_eq!(check_owners(&[0, 0, 0, 1, 0, 0, 0, 0, 1, 2]), (15, 1));
    assert_eq!(check_owners(&[WHOLE, WHOLE].concat()), (15, 2));
    assert_eq!(check_owners(&WHOLE[..9]), (15, 1));
    let rows: Vec<u8> = (0..129).flat_map(|k| [0, 0, 0, k, 0, 0, 0, k, 1, 2]).collect();
    assert_eq!(check_owners(&rows), (15, 129));
    assert_eq!(check_owners(&rows[..1280]), (16, 128));
    assert_eq!((check_owners(&WHOLE), owner(&WHOLE, b"abc")), ((0, 0), (17, 0)));
    assert_eq!((owner(&WHOLE, b"abcd"), owner(&WHOLE, &[7; 300])), ((0, 258), (0, 258)));
}

/// All that is lent to `seal`, or with `opening` to `open`.
#[derive(Clone)]
struct SealCall {
    opening: bool,
    field: u32,
    key: Vec<u32>,
    nonce: Vec<u32>,
    separator: Vec<u8>,
    lengths: Vec<u32>,
    text: Vec<u32>,
    out: Vec<u32>,
}

impl SealCall {
    /// A note to be sealed, whose elements all differ. The buffer holds no element.
    fn sealing(field: u32, lengths: &[u32]) -> SealCall {
        let total = lengths.iter().sum::<u32>();
        SealCall {
            opening: false,
            field,
            key: (1..9).collect(),
            nonce: (11..19).collect(),
            separator: b"note".to_vec(),
            lengths: lengths.to_vec(),
            text: (0..total).map(|k| P_1 - 1 - k).collect(),
            out: vec![u32::MAX; total as usize + 8],
        }
    }

    /// What opens the list that this one seals.
    fn opening(&self) -> SealCall {
        let mut sealing = self.clone();
        assert_eq!(sealing.perform(), 0);
        SealCall {
            opening: true,
            out: vec![u32::MAX; self.text.len()],
            text: sealing.out,
            ..self.clone()
        }
    }

    fn perform(&mut self) -> u32 {
        let inputs = SealInputs {
            field: self.field,
            key: &self.key,
            nonce: &self.nonce,
            separator: &self.separator,
            lengths: &self.lengths,
        };
        let call = if self.opening { open } else { seal };
        call(&inputs, &self.text, &mut self.out)
    }
}

/// 001, Algorithm 7, with "one call of 16" and "8 elements" as the mark: "as many elements are squeezed as the block holds, added to it to give
/// cipher elements, and the plain block is absorbed". Gives the sealed list.
fn sealed_by_session_calls(form: u32, note: &SealCall) -> Vec<u32> {
    let p = if note.field == 1 { P_1 } else { P_2 };
    let mut words = vec![ABSORB + 16];
    for length in &note.lengths {
        words.extend([*length, ABSORB + *length]);
    }
    words.push(8);
    let mut record = started_in_form(form, note.field, &words, &note.separator);
    assert_eq!(absorb(&mut record, &note.key), 0);
    assert_eq!(absorb(&mut record, &note.nonce), 0);
    let mut sealed = vec![];
    for length in &note.lengths {
        let block = &note.text[sealed.len()..][..*length as usize];
        let mut squeezed = vec![0; block.len()];
        assert_eq!(squeeze(&mut record, &mut squeezed), 0);
        assert_eq!(absorb(&mut record, block), 0);
        let sums = block.iter().zip(squeezed).map(|(a, b)| u64::from(*a) + u64::from(b));
        sealed.extend(sums.map(|sum| (sum % u64::from(p)) as u32));
    }
    let mut mark = [0; 8];
    assert_eq!((squeeze(&mut record, &mut mark), finish(&mut record)), (0, 0));
    sealed.extend(mark);
    sealed
}

/// "What was sealed opens to the same blocks under the same field, key, nonce, separator and lengths." "Sealed notes keep form 1."
#[test]
fn sealed_notes_are_those_of_session_calls_and_open() {
    for field in [1, 2] {
        for lengths in [vec![1], vec![8], vec![9, 7], vec![16, 1, 8], vec![3; 31]] {
            let note = SealCall::sealing(field, &lengths);
            let mut opening = note.opening();
            assert_eq!(opening.text, sealed_by_session_calls(1, &note));
            assert_ne!(opening.text, sealed_by_session_calls(2, &note));
            assert_eq!((opening.perform(), opening.out), (0, note.text));
        }
    }
}

/// "a wrong mark leaves zeros where the blocks would be."
#[test]
fn notes_with_a_changed_element_do_not_open() {
    for field in [1, 2] {
        let opening = SealCall::sealing(field, &[1, 9]).opening();
        for place in 0..opening.text.len() {
            let mut changed = opening.clone();
            changed.text[place] = if changed.text[place] == 0 {
                1
            } else {
                changed.text[place] - 1
            };
            assert_eq!((changed.perform(), changed.out), (21, vec![0; 10]));
        }
        for lengths in [vec![9, 1], vec![10], vec![1, 8, 1]] {
            let mut recut = SealCall {
                lengths,
                ..opening.clone()
            };
            assert_eq!((recut.perform(), recut.out), (21, vec![0; 10]));
        }
    }
}

/// A number and what earns it in a good call. A list is cut short by at least two elements, so that it does not get the length needed when one
/// element is added too.
type SealFault = (u32, fn(&mut SealCall));

const SEAL_FAULTS: [SealFault; 19] = [
    (18, |call| call.field = 0),
    (18, |call| call.field = 3),
    (6, |call| call.separator = vec![0; 257]),
    (20, |call| call.lengths = vec![]),
    (20, |call| call.lengths = vec![1; 32]),
    (20, |call| call.lengths.push(0)),
    (20, |call| call.lengths[..].fill(u32::MAX)),
    (20, |call| call.lengths.push(1)),
    (20, |call| call.key.truncate(6)),
    (20, |call| call.key.push(1)),
    (20, |call| call.nonce.truncate(6)),
    (20, |call| call.nonce.push(1)),
    (20, |call| call.text.truncate(1)),
    (20, |call| call.text.push(1)),
    (20, |call| call.out.truncate(1)),
    (20, |call| call.out.push(u32::MAX)),
    (10, |call| call.key[0] = P_2),
    (10, |call| call.nonce[5] = P_2),
    (10, |call| *call.text.last_mut().unwrap() = P_2),
];

/// "after START's own 18 and 6, before 10"; "21: the mark differs, last." "A refused seal or open writes nothing".
#[test]
fn first_number_counts_when_sealing_and_opening() {
    const ORDER: [u32; 4] = [18, 6, 20, 10];
    let rank = |number: u32| ORDER.iter().position(|other| *other == number).unwrap();
    for field in [1, 2] {
        let sealing = SealCall::sealing(field, &[1, 2]);
        let opening = sealing.opening();
        let mut wrong_mark = opening.clone();
        wrong_mark.text[3] ^= 1;
        for good in [sealing, opening, wrong_mark] {
            for (first, change) in SEAL_FAULTS {
                for (second, change_again) in SEAL_FAULTS {
                    let mut call = good.clone();
                    change(&mut call);
                    change_again(&mut call);
                    let before = call.out.clone();
                    let number = ORDER[rank(first).min(rank(second))];
                    assert_eq!((call.perform(), call.out), (number, before), "{first} and {second}");
                }
            }
        }
    }
}

/// "a block length of 0 or above 16,777,216": with all else exact, so that nothing but the length is at fault. Number 10 shows that a length was
/// accepted, and spares the sealing.
#[test]
fn longest_block() {
    for (length, number) in [(LIMIT, 10), (LIMIT + 1, 20)] {
        let mut call = SealCall::sealing(2, &[length]);
        call.key[7] = P_2;
        let before = call.out.clone();
        assert_eq!(call.perform(), number);
        assert!(call.out == before);
        // What was the buffer has the length of a sealed list, and what was the text that of the blocks.
        call.opening = true;
        std::mem::swap(&mut call.text, &mut call.out);
        let before = call.out.clone();
        assert_eq!(call.perform(), number);
        assert!(call.out == before);
    }
}
