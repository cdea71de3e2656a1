//! The crate's types: each refusal, what the calls leave, and known challenges.
//!
//! Squeezed elements, permuted states and round constants are from the second implementation, in Python, of documents 01 and 02. The numbers
//! and their conditions are those of docs/NUMBERS.md, the examples those of document 01's table, "Calls turned away"; B1 to B7 are its samples.
//! What tables of owners give, how words are cut, and the strings of form 2 are worked out by hand from document 02. Sealed notes are from the second implementation too.

use std::mem::{size_of, ManuallyDrop};
use std::ptr;

use tuilarder::ffi::Record;
use tuilarder::{
    permute, round_constants, sha3_256, Call, Field, Form, Owners, OwnersFault, Pattern, Protocol, Refusal, Seal,
    Session, CAPACITY, MAX_ROUND_CONSTANTS, RATE, WIDTH,
};
use Call::{Absorb, Squeeze};
use Field::{BabyBear, KoalaBear};

const ABSORB_BIT: u32 = 1 << 31;
const MAX_LENGTH: u32 = 2147483647;
/// "limits one declared call to 16,777,216 elements".
const LIMIT: u32 = 16777216;

const NUMBERS: &str = include_str!("../../../docs/NUMBERS.md");

/// Number, name and message of each refusal in the table of numbers that an exported function gives, or no call: that is marked unused.
fn table() -> Vec<(u32, &'static str, &'static str)> {
    let exported = |call: &str| NUMBERS.contains(&format!("| {call} | `tuilarder_"));
    let rows = NUMBERS.lines().filter_map(|line| {
        let cells: Vec<&str> = line.split('|').map(str::trim).collect();
        let number = cells.get(1)?.parse().ok()?;
        let given = cells[7].is_empty() || cells[7].split(", ").any(exported);
        let message = if cells[4].is_empty() { cells[3] } else { cells[4] };
        (number != 0 && given).then_some((number, cells[2], message))
    });
    rows.collect()
}

/// Calls that get the number, of each place in the API that can give it.
fn refused_with(number: u32) -> Vec<Result<(), Refusal>> {
    match number {
        1..=3 | 19 => patterns_refused_with(number),
        // they are unused
        4 | 5 => vec![],
        6 | 12 | 13 => strings_refused_with(number),
        15..=17 => owners_refused_with(number),
        // the number of a field and that of a form are known
        18 | 22 => vec![],
        20 | 21 => notes_refused_with(number),
        _ => sessions_refused_with(number),
    }
}

fn patterns_refused_with(number: u32) -> Vec<Result<(), Refusal>> {
    let words = |words: &[u32]| Pattern::from_words(words).map(drop);
    let calls = |calls: &[Call]| Pattern::new(calls).map(drop);
    match number {
        1 => vec![
            words(&[]),
            words(&[1; 65]),
            calls(&[]),
            calls(&[Squeeze(0); 65]),
            calls(&[Absorb(u32::MAX); 1000]),
            // read, but 64 calls do not suffice
            Pattern::read(&[0xff, 0xff, 0xff, 0xff, 0, 0, 0, 1], 0).map(drop),
            Pattern::read(&[0xbf, 0, 0, 1, 0, 0, 0, 1], 0).map(drop),
            Pattern::read(&[0xc0, 0, 0, 1], 0).map(drop),
            Pattern::read_form_2(&[0xff, 0xff, 0xff, 0xff, 0, 0, 0, 1, 0, 0, 0, 0]).map(drop),
            Pattern::read_form_2(&[0xc0, 0, 0, 1, 7, 0, 0, 0, 1]).map(drop),
        ],
        2 => vec![words(&[0x80000003, 0x00000000]), calls(&[Absorb(3), Squeeze(0)])],
        3 => vec![words(&[0x00000001]), calls(&[Squeeze(1)])],
        // the first two are document 01's example for 5, and B3
        _ => vec![
            words(&[0xffffffff, 0x80000001, 0x00000001]),
            words(&[0xfffffffe, 0x80000001, 0x00000001]),
            words(&[0x81000001, 0x00000001]),
            calls(&[Absorb(1), Squeeze(LIMIT + 1)]),
            calls(&[Absorb(MAX_LENGTH), Absorb(1), Squeeze(1)]),
            calls(&[Absorb(1), Squeeze(1 << 31)]),
        ],
    }
}

fn strings_refused_with(number: u32) -> Vec<Result<(), Refusal>> {
    let long = [0; 257];
    match number {
        6 => vec![
            Protocol::new(BabyBear, &one_and_one(), &long).map(drop),
            Protocol::new(KoalaBear, &one_and_one(), &long).map(drop),
            Protocol::with_form(BabyBear, Form::One, &one_and_one(), &long).map(drop),
            Protocol::with_form(KoalaBear, Form::Two, &one_and_one(), &long).map(drop),
            one_and_one().tag_string(&long, &mut [0; 1024]).map(drop),
            one_and_one()
                .tag_string_with_form(Form::Two, &long, &mut [0; 1024])
                .map(drop),
            Pattern::read(&long, 257).map(drop),
            // a tail above 256, however few bytes precede it
            Pattern::read_form_2(&[0xff; 4]).map(drop),
            Pattern::read_form_2(&[0, 0, 1, 1]).map(drop),
            Pattern::read_form_2(&[0x80, 0, 0, 1, 0, 0, 1, 1]).map(drop),
            Seal {
                separator: &long,
                ..note()
            }
            .seal(&[11, 12, 13], &mut [0; 11]),
            Seal {
                separator: &long,
                ..note()
            }
            .open(&SEALED, &mut [0; 3]),
        ],
        12 => vec![
            b1().tag_string(b"AB", &mut [0; 9]).map(drop),
            b1().tag_string_with_form(Form::Two, b"AB", &mut [0; 13]).map(drop),
        ],
        _ => vec![
            Pattern::read(&[0, 0, 0, 1], 0).map(drop),
            Pattern::read(&[], 0).map(drop),
            Pattern::read(&[], 1).map(drop),
            // under four bytes, and a tail that names one byte more than precede it
            Pattern::read_form_2(&[]).map(drop),
            Pattern::read_form_2(&[0, 0, 0]).map(drop),
            Pattern::read_form_2(&[0, 0, 0, 0]).map(drop),
            Pattern::read_form_2(&[0, 0, 0, 1]).map(drop),
            Pattern::read_form_2(&[0x80, 0, 0, 1, 0, 0, 0, 5]).map(drop),
        ],
    }
}

fn sessions_refused_with(number: u32) -> Vec<Result<(), Refusal>> {
    match number {
        7 => on_each_call(Record::WIPED),
        8 => [
            (1, 1, 9),
            (2, 2, 9),
            (0, 1, 0),
            (3, 1, 0),
            (1 << 31, 1, 0),
            (1, 0, 0),
            (1, 3, 0),
            (2, u32::MAX, 0),
        ]
        .into_iter()
        .flat_map(|(field, form, absorb_position)| {
            on_each_call(Record {
                field,
                form,
                absorb_position,
                ..*opened().record()
            })
        })
        .collect(),
        9 => vec![
            opened().squeeze(&mut [0]),
            opened().absorb(&[1, 1]),
            opened().challenge::<1>().map(drop),
        ],
        10 => vec![
            opened().absorb(&[2013265921]),
            opened_in(KoalaBear).absorb(&[2130706433]),
            permute(BabyBear, &mut [2013265921; WIDTH]),
            permute(KoalaBear, &mut [2130706433; WIDTH]),
            note().seal(&[11, 12, 2013265921], &mut [0; 11]),
            Seal {
                key: &[2013265921; 8],
                ..note()
            }
            .seal(&[11, 12, 13], &mut [0; 11]),
            Seal {
                nonce: &[2013265921; 8],
                ..note()
            }
            .open(&SEALED, &mut [0; 3]),
            note().open(&[2013265921; 11], &mut [0; 3]),
        ],
        _ => vec![opened().finish()],
    }
}

fn owners_refused_with(number: u32) -> Vec<Result<(), Refusal>> {
    let table = |table: &[u8]| Owners::new(table).map_err(OwnersFault::refusal).map(drop);
    match number {
        15 => vec![
            table(&[0]),
            table(&table_of(&[(1, 0, 7)])),
            table(&table_of(&[(0, 5, 7), (5, u32::MAX, 8)])),
        ],
        16 => vec![table(&[]), table(&table_of(&[(0, u32::MAX - 1, 7)]))],
        _ => {
            let table = table_of(&[(0, u32::MAX, 7)]);
            let owners = Owners::new(&table).unwrap();
            [0, 1, 2, 3]
                .map(|size| owners.owner(&[7; 4][..size]).map(drop))
                .to_vec()
        }
    }
}

fn notes_refused_with(number: u32) -> Vec<Result<(), Refusal>> {
    let of = |lengths: &[u32]| Seal { lengths, ..note() }.seal(&[11, 12, 13], &mut [0; 11]);
    match number {
        20 => vec![
            of(&[]),
            of(&[0, 3]),
            of(&[1, 1]),
            of(&[LIMIT + 1]),
            of(&[u32::MAX, 4]),
            of(&[1; 32]),
            note().seal(&[11, 12], &mut [0; 11]),
            note().seal(&[11, 12, 13, 14], &mut [0; 11]),
            note().seal(&[11, 12, 13], &mut [0; 10]),
            note().seal(&[11, 12, 13], &mut [0; 12]),
            note().open(&SEALED[..10], &mut [0; 3]),
            note().open(&SEALED, &mut [0; 2]),
            note().open(&SEALED, &mut [0; 4]),
            Seal { lengths: &[], ..note() }.open(&SEALED[..8], &mut []),
        ],
        _ => vec![
            note().open(&[0; 11], &mut [0; 3]),
            Seal { key: &[1; 8], ..note() }.open(&SEALED, &mut [0; 3]),
            Seal {
                nonce: &[1; 8],
                ..note()
            }
            .open(&SEALED, &mut [0; 3]),
            Seal {
                separator: b"Note",
                ..note()
            }
            .open(&SEALED, &mut [0; 3]),
            Seal {
                lengths: &[2, 1],
                ..note()
            }
            .open(&SEALED, &mut [0; 3]),
            Seal {
                field: KoalaBear,
                ..note()
            }
            .open(&SEALED, &mut [0; 3]),
        ],
    }
}

/// Key, nonce, separator and lengths of the notes below.
fn note() -> Seal<'static> {
    Seal {
        field: BabyBear,
        key: &[1, 2, 3, 4, 5, 6, 7, 8],
        nonce: &[9, 10, 11, 12, 13, 14, 15, 16],
        separator: b"note",
        lengths: &[1, 2],
    }
}

/// 11, 12 and 13, sealed.
const SEALED: [u32; 11] = [
    66389202, 1443427996, 462144109, 1229790208, 1927009522, 1729851417, 732943435, 37725734, 1631910697, 620663441,
    249189492,
];

/// A table of owners, of rows with first and last number and product line.
fn table_of(rows: &[(u32, u32, u16)]) -> Vec<u8> {
    let bytes = |(first, last, line): &(u32, u32, u16)| {
        [&first.to_be_bytes()[..], &last.to_be_bytes(), &line.to_be_bytes()].concat()
    };
    rows.iter().flat_map(bytes).collect()
}

fn one_and_one() -> Pattern {
    Pattern::new(&[Absorb(1), Squeeze(1)]).unwrap()
}

fn b1() -> Pattern {
    Pattern::from_words(&[0x80000003, 0x80000003, 0x00000003]).unwrap()
}

fn opened() -> Session {
    opened_in(BabyBear)
}

fn opened_in(field: Field) -> Session {
    Protocol::new(field, &one_and_one(), b"").unwrap().start()
}

fn on_each_call(record: Record) -> Vec<Result<(), Refusal>> {
    let session = || Session::from_record(record);
    vec![
        session().absorb(&[1]),
        session().absorb(&[]),
        session().squeeze(&mut [0]),
        session().finish(),
    ]
}

#[test]
fn each_refusal_is_given_with_its_number_and_words() {
    for (number, name, message) in table() {
        let refusal = Refusal::from_number(number).unwrap();
        assert_eq!(refusal.number(), number);
        assert_eq!(format!("{refusal:?}").to_lowercase(), name.replace(' ', ""));
        assert_eq!(refusal.to_string(), message);
        let error: &dyn std::error::Error = &refusal;
        assert_eq!(error.to_string(), message);
        for (place, answer) in refused_with(number).into_iter().enumerate() {
            assert_eq!(answer, Err(refusal), "number {number}, call {place}");
        }
    }
}

#[test]
fn no_other_number_is_a_refusal() {
    let numbers: Vec<u32> = table().iter().map(|row| row.0).collect();
    let found = (0..1000).filter(|&number| Refusal::from_number(number).is_some());
    assert_eq!(found.collect::<Vec<u32>>(), numbers);
    assert_eq!(Refusal::from_number(u32::MAX), None);
}

#[test]
fn the_first_number_that_applies_is_given() {
    let number = |calls: &[Call]| Pattern::new(calls).map_err(Refusal::number).map(drop);
    for length in [LIMIT + 1, MAX_LENGTH, 1 << 31, u32::MAX] {
        let long = Absorb(length);
        assert_eq!(number(&[long; 65]), Err(1));
        assert_eq!(number(&[Squeeze(1), long, Absorb(0)]), Err(2));
        assert_eq!(number(&[Squeeze(1), long]), Err(19));
        assert_eq!(number(&[Squeeze(length)]), Err(19));
        assert_eq!(number(&[long, Squeeze(1), Absorb(1)]), Err(19));
        assert_eq!(number(&[long, Squeeze(1)]), Err(19));
        assert_eq!(number(&[Absorb(1), Squeeze(length)]), Err(19));
    }
    assert_eq!(number(&[Squeeze(LIMIT), Absorb(LIMIT)]), Err(3));
    assert_eq!(number(&[Absorb(LIMIT), Absorb(LIMIT)]), Ok(()));
    assert_eq!(number(&[Absorb(LIMIT), Squeeze(LIMIT)]), Ok(()));
}

#[test]
fn a_pattern_has_at_most_64_words() {
    let calls: Vec<Call> = (0..64)
        .map(|k| if k % 2 == 0 { Absorb(k + 1) } else { Squeeze(k + 1) })
        .collect();
    let pattern = Pattern::new(&calls).unwrap();
    assert_eq!(pattern.calls().collect::<Vec<_>>(), calls);
    assert_eq!(pattern.words()[..2], [ABSORB_BIT | 1, 2]);
    assert_eq!(pattern, Pattern::from_words(pattern.words()).unwrap());
    assert_eq!(pattern.merged(), pattern);
    let mut buffer = [0; Pattern::MAX_TAG_STRING];
    assert_eq!(pattern.tag_string(&[7; 256], &mut buffer).unwrap().len(), 512);
    let string = pattern.tag_string_with_form(Form::Two, &[7; 256], &mut buffer).unwrap();
    assert_eq!((string.len(), &string[255..257]), (516, &[64, 7][..]));
    assert_eq!(string[511..], [7, 0, 0, 1, 0]);
    assert_eq!(Pattern::read_form_2(string), Ok((pattern.clone(), &[7; 256][..])));
    let mut short = [9; 515];
    assert_eq!(
        pattern.tag_string_with_form(Form::Two, &[7; 256], &mut short),
        Err(Refusal::BufferTooShort)
    );
    assert_eq!(short, [9; 515]);
    let protocol = Protocol::with_form(KoalaBear, Form::Two, &pattern, &[7; 256]).unwrap();
    assert_eq!((protocol.tag_string(), protocol.separator()), (string, &[7; 256][..]));
}

/// 80000001 is document 01's example for 4, and 80000003 with length 0 its example for 13.
#[test]
fn a_pattern_may_end_with_absorb() {
    let one = Pattern::from_words(&[0x80000001]).unwrap();
    assert_eq!(one, Pattern::new(&[Absorb(1)]).unwrap());
    assert_eq!(one.merged(), one);
    let three = Pattern::new(&[Absorb(1), Absorb(2)]).unwrap();
    assert_eq!(three.merged(), Pattern::new(&[Absorb(3)]).unwrap());
    assert_eq!(three.tag_string(&[], &mut [7; 5]), Ok(&[0x80, 0, 0, 3][..]));
    assert_eq!(Pattern::read(&[0x80, 0, 0, 3], 0), Ok((three.merged(), &[][..])));
    let last = Pattern::new(&[Absorb(1), Squeeze(1), Absorb(1)]).unwrap();
    let string = [0x80, 0, 0, 1, 0, 0, 0, 1, 0x80, 0, 0, 1];
    assert_eq!(Pattern::read(&string, 0), Ok((last.clone(), &[][..])));
    assert_eq!(Pattern::read(&string, 4), Ok((one_and_one(), &string[8..])));
    assert_eq!(
        Protocol::new(BabyBear, &last, &[7; 257]),
        Err(Refusal::SeparatorTooLong)
    );
    assert_eq!(last.tag_string(&[], &mut [0; 11]), Err(Refusal::BufferTooShort));
}

#[test]
fn merging_adds_neighbours_of_one_kind() {
    assert_eq!(b1().words(), [0x80000003, 0x80000003, 0x00000003]);
    assert_eq!(b1().merged(), Pattern::new(&[Absorb(6), Squeeze(3)]).unwrap());
    assert_ne!(b1(), b1().merged());
    assert_eq!(format!("{:?}", b1()), "Pattern [Absorb(3), Absorb(3), Squeeze(3)]");
}

/// "cutting longer words into calls of 16,777,216 and any rest".
#[test]
fn what_merges_to_more_than_a_call_is_cut() {
    let pattern = Pattern::new(&[Absorb(LIMIT - 1), Absorb(3), Squeeze(LIMIT), Squeeze(LIMIT)]).unwrap();
    let merged = pattern.merged();
    assert_eq!(
        format!("{merged:?}"),
        "Pattern [Absorb(16777216), Absorb(2), Squeeze(16777216), Squeeze(16777216)]"
    );
    assert_eq!(merged.merged(), merged);
    let string = [0x81, 0, 0, 2, 0x02, 0, 0, 0, 7];
    for pattern in [&pattern, &merged] {
        assert_eq!(pattern.tag_string(&[7], &mut [0; 9]), Ok(&string[..]));
    }
    assert_eq!(Pattern::read(&string, 1), Ok((merged.clone(), &string[8..])));
    let [first, second] = [pattern, merged].map(|pattern| Protocol::new(KoalaBear, &pattern, &[7]).unwrap());
    assert_eq!(first.start().record(), second.start().record());
    assert_eq!(first.start().record().words[..3], [0x81000002, 0x02000000, 0]);
}

/// Of 64 calls of the longest length, those that absorb or squeeze; for one element more there are not enough calls.
#[test]
fn merged_words_are_cut_into_at_most_64_calls() {
    for absorbed in 1..64 {
        let calls: Vec<Call> = (0..64)
            .map(|k| if k < absorbed { Absorb(LIMIT) } else { Squeeze(LIMIT) })
            .collect();
        let pattern = Pattern::new(&calls).unwrap();
        assert_eq!(pattern.merged(), pattern);
        let words = [ABSORB_BIT | (absorbed * LIMIT), (64 - absorbed) * LIMIT];
        let string = words.map(u32::to_be_bytes).concat();
        assert_eq!(Pattern::read(&string, 0), Ok((pattern, &[][..])));
        for longer in [[words[0] + 1, words[1]], [words[0], words[1] + 1]] {
            let string = longer.map(u32::to_be_bytes).concat();
            assert_eq!(Pattern::read(&string, 0), Err(Refusal::WordCountOutOfRange));
        }
    }
    let pattern = Pattern::new(&[Absorb(LIMIT); 64]).unwrap();
    assert_eq!(pattern.merged(), pattern);
    assert_eq!(Pattern::read(&[0xc0, 0, 0, 0], 0), Ok((pattern, &[][..])));
    assert_eq!(Pattern::read(&[0xc0, 0, 0, 1], 0), Err(Refusal::WordCountOutOfRange));
}

#[test]
fn a_tag_string_is_written_and_read_back() {
    let b1_string = [0x80, 0, 0, 6, 0, 0, 0, 3, 0x41, 0x42];
    let mut buffer = [7; 12];
    assert_eq!(b1().tag_string(&[0x41, 0x42], &mut buffer), Ok(&b1_string[..]));
    assert_eq!(buffer[10..], [7, 7]);
    let (pattern, separator) = Pattern::read(&b1_string, 2).unwrap();
    assert_eq!((pattern.clone(), separator), (b1().merged(), &b1_string[8..]));
    assert!(ptr::eq(separator, &b1_string[8..]));
    assert_eq!(pattern.tag_string(separator, &mut [0; 10]), Ok(&b1_string[..]));
    let mut short = [7; 9];
    assert_eq!(b1().tag_string(b"AB", &mut short), Err(Refusal::BufferTooShort));
    assert_eq!(short, [7; 9]);
}

/// B2's string: one for four patterns, with separators of unequal length.
#[test]
fn a_string_is_read_by_the_length_of_its_separator() {
    let string = [0x80, 0, 0, 1, 0, 0, 0, 1, 0x80, 0, 0, 2, 0, 0, 0, 2];
    let longer = Pattern::new(&[Absorb(1), Squeeze(1), Absorb(2), Squeeze(2)]).unwrap();
    let between = Pattern::new(&[Absorb(1), Squeeze(1), Absorb(2)]).unwrap();
    let first = Pattern::new(&[Absorb(1)]).unwrap();
    assert_eq!(Pattern::read(&string, 12), Ok((first, &string[4..])));
    assert_eq!(Pattern::read(&string, 8), Ok((one_and_one(), &string[8..])));
    assert_eq!(Pattern::read(&string, 4), Ok((between, &string[12..])));
    assert_eq!(Pattern::read(&string, 0), Ok((longer, &string[16..])));
    assert_eq!(Pattern::read(&string, 16), Err(Refusal::NotTagString));
    assert_eq!(Pattern::read(&string, 2), Err(Refusal::NotTagString));
    assert_eq!(Pattern::read(&string, 17), Err(Refusal::NotTagString));
}

/// "words, separator, then the separator's length as four bytes, highest first"; B1's in form 2.
#[test]
fn a_string_of_form_2_is_written_and_read_back() {
    let string = [0x80, 0, 0, 6, 0, 0, 0, 3, 0x41, 0x42, 0, 0, 0, 2];
    let mut buffer = [7; 16];
    assert_eq!(
        b1().tag_string_with_form(Form::Two, b"AB", &mut buffer),
        Ok(&string[..])
    );
    assert_eq!(buffer[14..], [7, 7]);
    assert_eq!(
        b1().tag_string_with_form(Form::One, b"AB", &mut buffer),
        Ok(&string[..10])
    );
    let (pattern, separator) = Pattern::read_form_2(&string).unwrap();
    assert_eq!(pattern, b1().merged());
    assert!(ptr::eq(separator, &string[8..10]));
    assert_eq!(
        pattern.tag_string_with_form(Form::Two, separator, &mut [0; 14]),
        Ok(&string[..])
    );
    // in form 1 the tail is a part of the separator
    assert_eq!(Pattern::read(&string, 6), Ok((b1().merged(), &string[8..])));
}

/// An empty separator, in form 2 and as form 1 reads the string.
#[test]
fn a_separator_may_be_empty_in_form_2() {
    let string = [0x80, 0, 0, 1, 0, 0, 0, 0];
    let one = Pattern::new(&[Absorb(1)]).unwrap();
    assert_eq!(one.tag_string_with_form(Form::Two, &[], &mut [7; 8]), Ok(&string[..]));
    let (pattern, separator) = Pattern::read_form_2(&string).unwrap();
    assert_eq!(pattern, one);
    assert!(ptr::eq(separator, &string[4..4]));
    assert_eq!(Pattern::read(&string, 0), Err(Refusal::NotTagString));
    assert_eq!(Pattern::read(&string, 4), Ok((one, &string[4..])));
}

/// 260 bytes precede the last four. What these name is compared with 256 first, and lowest byte first they would name other lengths.
#[test]
fn a_string_of_form_2_is_read_by_its_last_four_bytes() {
    let read = |tail: [u8; 4]| {
        let string = [&[0x80, 0, 0, 1][..], &[7; 256], &tail].concat();
        Pattern::read_form_2(&string).map(|(pattern, separator)| (pattern.words().to_vec(), separator.to_vec()))
    };
    assert_eq!(read([0, 0, 1, 0]), Ok((vec![0x80000001], vec![7; 256])));
    assert_eq!(read([0, 0, 0, 255]), Err(Refusal::NotTagString));
    assert_eq!(read([0, 0, 0, 254]), Err(Refusal::NotTagString));
    for tail in [[0, 0, 1, 1], [0, 0, 1, 4], [0, 0, 1, 5], [1, 0, 0, 0], [0xff; 4]] {
        assert_eq!(read(tail), Err(Refusal::SeparatorTooLong));
    }
    // two words, and a tail that names what precedes it, all but the first word, and one byte more than precedes it
    let string = |tail| [0x80, 0, 0, 1, 0, 0, 0, 1, 0, 0, 0, tail];
    assert_eq!(Pattern::read_form_2(&string(8)), Err(Refusal::NotTagString));
    assert_eq!(Pattern::read_form_2(&string(9)), Err(Refusal::NotTagString));
    let one = Pattern::new(&[Absorb(1)]).unwrap();
    assert_eq!(Pattern::read_form_2(&string(4)), Ok((one, &[0, 0, 0, 1][..])));
    assert_eq!(Pattern::read_form_2(&string(0)), Ok((one_and_one(), &[][..])));
}

/// B2's patterns and separators.
#[test]
fn form_2_tells_separators_of_unequal_length() {
    let long = Pattern::new(&[Absorb(1), Squeeze(1), Absorb(2), Squeeze(2)]).unwrap();
    let b2 = |form| {
        [
            Protocol::with_form(BabyBear, form, &one_and_one(), &[0x80, 0, 0, 2, 0, 0, 0, 2]).unwrap(),
            Protocol::with_form(BabyBear, form, &long, &[]).unwrap(),
        ]
    };
    let [first, second] = b2(Form::One);
    assert_eq!(first.tag_string(), second.tag_string());
    assert_eq!(first.start().record().state, second.start().record().state);
    let [first, second] = b2(Form::Two);
    let words = [0x80, 0, 0, 1, 0, 0, 0, 1, 0x80, 0, 0, 2, 0, 0, 0, 2];
    assert_eq!(first.tag_string(), [&words[..], &[0, 0, 0, 8]].concat());
    assert_eq!(second.tag_string(), [&words[..], &[0; 4]].concat());
    assert_ne!(first.start().record().state, second.start().record().state);
    for protocol in [first, second] {
        let read = Pattern::read_form_2(protocol.tag_string());
        assert_eq!(read, Ok((protocol.pattern().clone(), protocol.separator())));
    }
}

/// A string does not say its form: this is one of form 1 and one of form 2, of one pattern.
#[test]
fn a_string_may_be_of_either_form() {
    let in_form_1 = Protocol::new(BabyBear, &one_and_one(), b"coin\0\0\0\x04").unwrap();
    let in_form_2 = Protocol::with_form(BabyBear, Form::Two, &one_and_one(), b"coin").unwrap();
    assert_eq!(in_form_1.tag_string(), in_form_2.tag_string());
    assert_ne!(in_form_1, in_form_2);
    // one that ends with four letters is none of form 2
    let letters = Protocol::new(BabyBear, &one_and_one(), b"coin").unwrap();
    assert_eq!(
        Pattern::read_form_2(letters.tag_string()),
        Err(Refusal::SeparatorTooLong)
    );
}

/// Absorbs the numbers from `first` on in one call a phase. Gives the elements squeezed, and the permutations before FINISH.
fn run(field: Field, lengths: &[u32], first: u32) -> (Vec<u32>, u64) {
    let calls: Vec<Call> = (0..)
        .zip(lengths)
        .map(|(k, &n)| if k % 2 == 0 { Absorb(n) } else { Squeeze(n) })
        .collect();
    let protocol = Protocol::new(field, &Pattern::new(&calls).unwrap(), b"").unwrap();
    let mut session = protocol.start();
    let (mut next, mut squeezed) = (first, Vec::new());
    for call in calls {
        match call {
            Absorb(length) => {
                let elements: Vec<u32> = (next..next + length).collect();
                session.absorb(&elements).unwrap();
                next += length;
            }
            Squeeze(length) => {
                let mut buffer = vec![0; length as usize];
                session.squeeze(&mut buffer).unwrap();
                squeezed.append(&mut buffer);
            }
        }
    }
    let permutations = session.permutations();
    session.finish().unwrap();
    (squeezed, permutations)
}

#[test]
fn sessions_of_b4_to_b7_squeeze_what_the_second_implementation_does() {
    let b6 = [
        970910280, 1528735997, 1906973699, 74930400, 1414340884, 151558739, 1690980429, 1214461681, 669881811,
    ];
    let b7 = [
        1520755747, 1654583900, 665816991, 1723433768, 502947992, 381137256, 437094857, 279161951, 19357506,
    ];
    assert_eq!(run(BabyBear, &[8, 1], 1), (vec![1413794352], 1));
    assert_eq!(run(BabyBear, &[9, 1], 1), (vec![774647143], 2));
    assert_eq!(run(BabyBear, &[1, 9], 1), (b6.to_vec(), 2));
    assert_eq!(run(BabyBear, &[8, 8, 1, 1], 1), (b7.to_vec(), 2));
}

/// The last absorbs elements of KoalaBear that are none of BabyBear.
#[test]
fn sessions_of_koala_bear_squeeze_what_the_second_implementation_does() {
    let b6 = [
        1834553000, 760461083, 991941584, 377514315, 733311804, 512969868, 1258999047, 314449334, 992041210,
    ];
    let b7 = [
        972710713, 1648933959, 801303886, 301456778, 1771243869, 1979520185, 1867126874, 1116637231, 1420244152,
    ];
    assert_eq!(run(KoalaBear, &[8, 1], 1), (vec![660617525], 1));
    assert_eq!(run(KoalaBear, &[9, 1], 1), (vec![340153162], 2));
    assert_eq!(run(KoalaBear, &[1, 9], 1), (b6.to_vec(), 2));
    assert_eq!(run(KoalaBear, &[8, 8, 1, 1], 1), (b7.to_vec(), 2));
    assert_eq!(run(KoalaBear, &[8, 1], 2013265921), (vec![2112122197], 1));
}

/// The last block is absorbed, and not permuted.
#[test]
fn sessions_that_end_with_absorb_squeeze_what_the_second_implementation_does() {
    let of_baby_bear = [
        787698267, 1505782181, 629115947, 35341899, 1524413022, 22211499, 1824941362, 1386593099,
    ];
    let of_koala_bear = [
        426001217, 1044007661, 191050567, 571829692, 1425985953, 919152717, 1113841010, 1473928020,
    ];
    for (field, squeezed) in [(BabyBear, of_baby_bear), (KoalaBear, of_koala_bear)] {
        for (length, permutations) in [(1, 0), (8, 0), (9, 1), (16, 1), (17, 2)] {
            assert_eq!(run(field, &[length], 1), (vec![], permutations));
        }
        assert_eq!(run(field, &[8, 8, 9], 1), (squeezed.to_vec(), 2));
    }
}

/// All of what is absorbed last comes before FINISH, and no challenge comes after it.
#[test]
fn a_last_message_is_absorbed_before_finish() {
    let pattern = Pattern::new(&[Absorb(4), Squeeze(1), Absorb(2)]).unwrap();
    let protocol = Protocol::new(KoalaBear, &pattern, b"last message").unwrap();
    let mut session = protocol.start();
    session.absorb(&[11, 22, 33, 44]).unwrap();
    session.challenge::<1>().unwrap();
    assert_eq!(session.fork().finish(), Err(Refusal::PatternNotDone));
    session.absorb(&[55]).unwrap();
    assert_eq!(session.fork().finish(), Err(Refusal::PatternNotDone));
    assert_eq!(session.fork().challenge::<1>(), Err(Refusal::CallNotInPattern));
    session.absorb(&[66]).unwrap();
    assert_eq!(session.permutations(), 1);
    let (mut squeezing, mut absorbing, mut buffer) = (session.fork(), session.fork(), [7]);
    assert_eq!(squeezing.squeeze(&mut buffer), Err(Refusal::CallNotInPattern));
    assert_eq!((buffer, *squeezing.record()), ([7], Record::WIPED));
    assert_eq!(absorbing.absorb(&[77]), Err(Refusal::CallNotInPattern));
    session.absorb(&[]).unwrap();
    session.squeeze(&mut []).unwrap();
    assert_eq!(session.finish(), Ok(()));
}

fn two_rounds() -> Protocol {
    let pattern = Pattern::new(&[Absorb(4), Squeeze(1), Absorb(2), Squeeze(1)]).unwrap();
    Protocol::new(BabyBear, &pattern, b"two rounds").unwrap()
}

fn two_rounds_session() -> Session {
    two_rounds().start()
}

#[test]
fn a_protocol_holds_what_it_was_made_of() {
    let protocol = Protocol::new(KoalaBear, &b1(), b"A\"").unwrap();
    assert_eq!((protocol.field(), protocol.pattern()), (KoalaBear, &b1()));
    assert_eq!(protocol.separator(), b"A\"");
    assert_eq!(protocol.tag_string(), [0x80, 0, 0, 6, 0, 0, 0, 3, b'A', b'"']);
    assert_eq!(
        format!("{protocol:?}"),
        r#"Protocol { field: KoalaBear, form: One, pattern: Pattern [Absorb(3), Absorb(3), Squeeze(3)], separator: "A\"" }"#
    );
    let none = Protocol::new(BabyBear, &b1(), b"").unwrap();
    assert_eq!((none.separator(), none.tag_string().len()), (&[][..], 8));
    let in_form_2 = Protocol::with_form(KoalaBear, Form::Two, &b1(), b"A\"").unwrap();
    assert_eq!((protocol.form(), in_form_2.form()), (Form::One, Form::Two));
    assert_eq!((in_form_2.field(), in_form_2.pattern()), (KoalaBear, &b1()));
    assert_eq!(in_form_2.separator(), b"A\"");
    assert_eq!(
        in_form_2.tag_string(),
        [0x80, 0, 0, 6, 0, 0, 0, 3, b'A', b'"', 0, 0, 0, 2]
    );
    assert!(format!("{in_form_2:?}").starts_with("Protocol { field: KoalaBear, form: Two, "));
}

/// The record keeps the form; wiped, it has none.
#[test]
fn a_protocol_opens_sessions_of_its_form() {
    for (form, number) in [(Form::One, 1), (Form::Two, 2)] {
        let protocol = Protocol::with_form(KoalaBear, form, &one_and_one(), b"tag").unwrap();
        let mut session = protocol.start();
        assert_eq!((session.form(), session.record().form), (Some(form), number));
        session.absorb(&[1]).unwrap();
        session.challenge::<1>().unwrap();
        assert_eq!(session.form(), Some(form));
        assert_eq!(session.absorb(&[1]), Err(Refusal::CallNotInPattern));
        assert_eq!((session.form(), session.record().form), (None, 0));
        for number in [0, 3, 1 << 31, u32::MAX] {
            let record = Record {
                form: number,
                ..*protocol.start().record()
            };
            assert_eq!(Session::from_record(record).form(), None);
        }
    }
    assert_eq!(opened().form(), Some(Form::One));
}

/// The tag, and so the first state, does not depend on the field.
#[test]
fn a_protocol_opens_sessions_of_its_field() {
    let [baby, koala] = [BabyBear, KoalaBear].map(|field| Protocol::new(field, &one_and_one(), b"tag").unwrap());
    assert_eq!(baby.tag_string(), koala.tag_string());
    let (first, second) = (baby.start(), koala.start());
    assert_eq!((first.field(), second.field()), (Some(BabyBear), Some(KoalaBear)));
    assert_eq!(first.record().state, second.record().state);
    assert_eq!((first.record().field, second.record().field), (1, 2));
    assert_eq!(baby.start().record(), first.record());
    for number in [0, 3, 1 << 31, u32::MAX] {
        let record = Record {
            field: number,
            ..*first.record()
        };
        assert_eq!(Session::from_record(record).field(), None);
    }
}

#[test]
fn protocols_are_equal_if_all_four_are() {
    let merged = b1().merged();
    let others = [
        (KoalaBear, &b1(), &b"two rounds"[..]),
        (BabyBear, &merged, b"two rounds"),
        (BabyBear, &b1(), b"two round2"),
        (BabyBear, &b1(), b"two round"),
    ];
    let protocol = Protocol::new(BabyBear, &b1(), b"two rounds").unwrap();
    assert_eq!(protocol, protocol.clone());
    for (field, pattern, separator) in others {
        assert_ne!(protocol, Protocol::new(field, pattern, separator).unwrap());
    }
    let of = |form| Protocol::with_form(BabyBear, form, &b1(), b"two rounds").unwrap();
    assert_eq!(protocol, of(Form::One));
    assert_ne!(protocol, of(Form::Two));
}

#[test]
fn a_fork_goes_on_by_itself() {
    let mut session = two_rounds_session();
    session.absorb(&[11, 22, 33, 44]).unwrap();
    assert_eq!(session.challenge(), Ok([1230312087]));
    let mut fork = session.fork();
    assert_eq!(fork.record(), session.record());
    fork.absorb(&[55, 67]).unwrap();
    session.absorb(&[55, 66]).unwrap();
    assert_eq!(fork.challenge(), Ok([650516488]));
    assert_eq!(fork.finish(), Ok(()));
    assert_eq!(session.challenge(), Ok([687121981]));
    assert_eq!(session.finish(), Ok(()));
}

#[test]
fn calls_may_be_cut_and_empty_ones_change_nothing() {
    let mut session = two_rounds_session();
    session.absorb(&[11]).unwrap();
    let record = *session.record();
    session.absorb(&[]).unwrap();
    session.squeeze(&mut []).unwrap();
    assert_eq!(session.challenge(), Ok([]));
    assert_eq!(*session.record(), record);
    session.absorb(&[22, 33, 44]).unwrap();
    assert_eq!(session.challenge(), Ok([1230312087]));
}

#[test]
fn a_refused_call_leaves_what_document_01_says() {
    let mut session = opened();
    let record = *session.record();
    assert_eq!(session.absorb(&[BabyBear.prime()]), Err(Refusal::ElementNotReduced));
    assert_eq!(*session.record(), record);
    session.absorb(&[BabyBear.prime() - 1]).unwrap();
    let mut buffer = [7; 2];
    assert_eq!(session.squeeze(&mut buffer), Err(Refusal::CallNotInPattern));
    assert_eq!((buffer, *session.record()), ([7; 2], Record::WIPED));
    assert_eq!(session.squeeze(&mut buffer), Err(Refusal::RecordNotOpen));
    assert_eq!(buffer, [7; 2]);
    let unsound = Record {
        permutations: 1,
        ..record
    };
    let mut session = Session::from_record(unsound);
    assert_eq!(session.squeeze(&mut buffer), Err(Refusal::RecordNotSound));
    assert_eq!((buffer, *session.record()), ([7; 2], unsound));
}

#[test]
fn a_record_goes_in_and_out() {
    let mut session = two_rounds_session();
    session.absorb(&[11, 22, 33, 44]).unwrap();
    let mut again = Session::from_record(*session.record());
    assert_eq!(again.challenge(), Ok([1230312087]));
    assert_eq!((again.permutations(), session.permutations()), (1, 0));
}

#[test]
fn dropping_wipes_the_whole_record() {
    const ONES: u32 = u32::MAX;
    let record = Record {
        status: ONES,
        field: ONES,
        form: ONES,
        state: [ONES; 24],
        words: [ONES; 64],
        count: ONES,
        phase: ONES,
        done: ONES,
        absorb_position: ONES,
        squeeze_position: ONES,
        permutations: u64::MAX,
    };
    let mut session = ManuallyDrop::new(Session::from_record(record));
    let place: *mut Session = &mut *session;
    assert_eq!(size_of::<Session>(), size_of::<Record>());
    // SAFETY: a session is a record and no more; it is in this function, and dropped once.
    unsafe {
        assert_eq!(ptr::read_volatile(place.cast::<Record>()), record);
        ptr::drop_in_place(place);
        assert_eq!(ptr::read_volatile(place.cast::<Record>()), Record::WIPED);
    }
}

#[test]
fn debug_leaves_the_state_out() {
    let mut session = two_rounds_session();
    session.absorb(&[11, 22, 33]).unwrap();
    assert_eq!(
        format!("{session:?}"),
        "Session { open: true, phase: 0, done: 3, permutations: 0, .. }"
    );
}

#[test]
fn the_permutation_is_the_second_implementations() {
    let permuted = [
        1388997836, 948162243, 1299935936, 1025156667, 515334320, 1361602483, 546021127, 900157588, 1193585924,
        1723824986, 1518293279, 475657192, 4224694, 1309519042, 867247226, 230798774, 1889843499, 86006077, 1548273803,
        983866312, 738482988, 1675543977, 27100451, 609882057,
    ];
    let of_koala_bear = [
        510806392, 1355501408, 1719995572, 2092411216, 1988116991, 488094167, 1203990344, 893373600, 1465575190,
        1079286647, 1569729795, 1908110097, 566821531, 1378116955, 867914127, 1681584149, 2036892222, 1911071438,
        892216489, 814670350, 1841195610, 593412065, 1128049343, 2112072181,
    ];
    for (field, permuted) in [(BabyBear, permuted), (KoalaBear, of_koala_bear)] {
        let mut state: [u32; WIDTH] = std::array::from_fn(|i| i as u32);
        assert_eq!(permute(field, &mut state), Ok(()));
        assert_eq!(state, permuted);
        state[23] = field.prime();
        let refused = state;
        assert_eq!(permute(field, &mut state), Err(Refusal::ElementNotReduced));
        assert_eq!(state, refused);
    }
}

/// The states are by the second implementation's inverse.
#[test]
fn a_state_of_each_field_permutes_to_zeros() {
    let baby_bear = [
        119688049, 407817444, 1985088982, 487494322, 1291754670, 95482386, 1512353036, 887100445, 403268128, 153145235,
        1005631413, 503356872, 820655240, 64342335, 341837447, 202843707, 1161901687, 753088842, 1128987531,
        1238770846, 1231273715, 382582037, 1496439753, 1807959,
    ];
    let koala_bear = [
        1132660117, 854061719, 265024737, 34255076, 914665117, 81467136, 1675175960, 1844272984, 262994084, 1967383475,
        1833422851, 2051327584, 792652035, 83967665, 823177180, 808956457, 835273719, 1074488404, 1002893190,
        1783228750, 1310706137, 404891972, 814876404, 2078341937,
    ];
    for (field, mut state) in [(BabyBear, baby_bear), (KoalaBear, koala_bear)] {
        assert_eq!(permute(field, &mut state), Ok(()));
        assert_eq!(state, [0; WIDTH]);
    }
}

#[test]
fn the_constants_are_the_second_implementations() {
    let mut buffer = [7; MAX_ROUND_CONSTANTS];
    let constants = round_constants(BabyBear, &mut buffer);
    assert_eq!(
        (constants.len(), constants[..2].to_vec(), constants[695]),
        (696, vec![262278199, 127253399], 1255733430)
    );
    assert_eq!(buffer[696..], [0; 48]);
    let constants = round_constants(KoalaBear, &mut buffer);
    assert_eq!(
        (constants.len(), constants[..2].to_vec(), constants[743]),
        (744, vec![487143900, 1829048205], 570045382)
    );
}

/// The example values that NIST publishes with FIPS 202.
#[test]
fn digests_are_those_of_fips_202() {
    let hex = |digest: [u8; 32]| digest.iter().map(|byte| format!("{byte:02x}")).collect::<String>();
    assert_eq!(
        hex(sha3_256(b"abc")),
        "3a985da74fe225b2045c172d6bd390bd855f086e3e9d525b46bfe24511431532"
    );
    assert_eq!(
        hex(sha3_256(b"")),
        "a7ffc6f8bf1ed76651c14756a061d662f580ff4de43b49fa82d80a4b80f8434a"
    );
}

/// "ten a row: first and last number of 32 bits, product line of 16, highest byte first".
#[test]
fn a_table_gives_each_separator_its_line() {
    let table = [
        0, 0, 0, 0, 0x01, 0x02, 0x03, 0x03, 0x0a, 0x0b, // row 1
        0x01, 0x02, 0x03, 0x04, 0xff, 0xff, 0xff, 0xfe, 0, 0, // row 2
        0xff, 0xff, 0xff, 0xff, 0xff, 0xff, 0xff, 0xff, 0xff, 0xff, // row 3
    ];
    let owners = Owners::new(&table).unwrap();
    assert_eq!(owners.owner(&[0, 0, 0, 0]), Ok(0x0a0b));
    assert_eq!(owners.owner(&[0x01, 0x02, 0x03, 0x03]), Ok(0x0a0b));
    assert_eq!(owners.owner(&[0x01, 0x02, 0x03, 0x04]), Ok(0));
    assert_eq!(owners.owner(&[0x01, 0x02, 0x03, 0x03, 0xff]), Ok(0x0a0b));
    assert_eq!(owners.owner(&[0xff, 0xff, 0xff, 0xfe]), Ok(0));
    assert_eq!(owners.owner(&[0xff; 4]), Ok(0xffff));
    assert_eq!(owners.owner(&[0xff; 300]), Ok(0xffff));
    assert_eq!(owners.owner(&[0xff; 3]), Err(Refusal::SeparatorTooShort));
}

#[test]
fn a_refused_table_says_where() {
    const MAX: u32 = u32::MAX;
    let fault = |rows: &[(u32, u32, u16)]| Owners::new(&table_of(rows)).unwrap_err();
    assert_eq!(fault(&[]), OwnersFault::Gap(0));
    assert_eq!(fault(&[(1, MAX, 7)]), OwnersFault::Gap(0));
    assert_eq!(fault(&[(0, 5, 7), (7, MAX, 8)]), OwnersFault::Gap(6));
    assert_eq!(fault(&[(0, MAX - 1, 7)]), OwnersFault::Gap(MAX));
    assert_eq!(fault(&[(0, 5, 7), (5, MAX, 8)]), OwnersFault::Row(2));
    assert_eq!(fault(&[(9, 8, 7), (5, MAX, 8)]), OwnersFault::Row(1));
    // the bad row counts before the gap at 0
    assert_eq!(fault(&[(1, 5, 7), (6, 9, 8), (9, MAX, 9)]), OwnersFault::Row(3));
    let cut = table_of(&[(0, 5, 7), (6, MAX, 8)]);
    assert_eq!(Owners::new(&cut[..19]), Err(OwnersFault::Row(2)));
    assert_eq!(Owners::new(&cut[..10]), Err(OwnersFault::Gap(6)));
}

/// So many rows of 2^`bits` numbers each.
fn equal_rows(count: u32, bits: u32) -> Vec<u8> {
    let width = 1 << bits;
    let row = |k: u32| (k * width, k * width + (width - 1), k as u16 * 500);
    table_of(&(0..count).map(row).collect::<Vec<_>>())
}

/// Of rows with 2^24 numbers the 129th is bad, though it is whole and above the one before.
#[test]
fn a_table_has_at_most_128_rows() {
    let table = equal_rows(128, 25);
    let owners = Owners::new(&table).unwrap();
    for k in 0..128_u32 {
        assert_eq!(owners.owner(&(k << 25).to_be_bytes()), Ok(k as u16 * 500));
    }
    assert_eq!(Owners::new(&equal_rows(129, 24)), Err(OwnersFault::Row(129)));
    assert_eq!(Owners::new(&equal_rows(128, 24)), Err(OwnersFault::Gap(1 << 31)));
    assert_eq!((Owners::ROW_BYTES, Owners::MAX_ROWS), (10, 128));
}

#[test]
fn a_fault_has_its_number_and_words() {
    for (fault, number, place) in [
        (OwnersFault::Row(129), 15, "row 129".to_string()),
        (OwnersFault::Gap(u32::MAX), 16, u32::MAX.to_string()),
    ] {
        let (_, _, message) = table().into_iter().find(|row| row.0 == number).expect("a row");
        assert_eq!(fault.refusal(), Refusal::from_number(number).unwrap());
        let error: &dyn std::error::Error = &fault;
        assert_eq!(error.to_string(), format!("{message}: {place}"));
    }
}

/// The second has the same plain elements in other blocks, the third the other field.
#[test]
fn notes_are_sealed_as_the_second_implementation_does() {
    let recut = [
        1458194105, 808597398, 217240143, 1981289057, 163452074, 947003184, 803774788, 649466184, 874519142, 369329501,
        1347534137,
    ];
    let of_koala_bear = [
        437837158, 1764386920, 1872267143, 818096143, 2092123784, 1836624386, 964786226, 1651910454, 849010409,
        1939835346, 821863827,
    ];
    let of_9 = [
        1669906439, 471972643, 187627341, 854946435, 608041471, 483797980, 691322869, 398365688, 830951245, 1149834582,
        572297998, 309910, 1631066130, 1289890704, 6110375, 912306309, 1056122441,
    ];
    let plain = [11, 12, 13, 14, 15, 16, 17, 18, 19];
    for (seal, sealed) in [
        (note(), &SEALED[..]),
        (
            Seal {
                lengths: &[2, 1],
                ..note()
            },
            &recut,
        ),
        (
            Seal {
                field: KoalaBear,
                ..note()
            },
            &of_koala_bear,
        ),
        (
            Seal {
                lengths: &[9],
                ..note()
            },
            &of_9,
        ),
    ] {
        let length = sealed.len() - Seal::MARK_LENGTH;
        let (mut buffer, mut opened) = (vec![7; sealed.len()], vec![7; length]);
        assert_eq!(seal.seal(&plain[..length], &mut buffer), Ok(()));
        assert_eq!(buffer, sealed);
        assert_eq!(
            (seal.open(sealed, &mut opened), &opened[..]),
            (Ok(()), &plain[..length])
        );
        // a refused call leaves the buffer, and a wrong mark zeros
        assert_eq!(seal.seal(&[], &mut buffer), Err(Refusal::SealLengthInvalid));
        assert_eq!(buffer, sealed);
        assert_eq!(seal.open(&sealed[1..], &mut opened), Err(Refusal::SealLengthInvalid));
        assert_eq!(opened, &plain[..length]);
        buffer[length] ^= 1;
        assert_eq!(seal.open(&buffer, &mut opened), Err(Refusal::MarkDiffers));
        assert_eq!(opened, vec![0; length]);
    }
}

#[test]
fn a_seal_shows_no_key() {
    assert_eq!(
        format!(
            "{:?}",
            Seal {
                key: &[77; 8],
                separator: b"n\"",
                ..note()
            }
        ),
        r#"Seal { field: BabyBear, nonce: [9, 10, 11, 12, 13, 14, 15, 16], separator: "n\"", lengths: [1, 2], .. }"#
    );
}

#[test]
fn the_figures_are_the_documents() {
    assert_eq!((Seal::KEY_LENGTH, Seal::NONCE_LENGTH), (8, 8));
    assert_eq!((Seal::MARK_LENGTH, Seal::MAX_BLOCKS), (8, 31));
    assert_eq!((RATE, CAPACITY, WIDTH, MAX_ROUND_CONSTANTS), (8, 16, 24, 744));
    assert_eq!(Pattern::MAX_CALL, LIMIT);
    assert_eq!(BabyBear.prime(), 15 * (1 << 27) + 1);
    assert_eq!(KoalaBear.prime(), (1 << 31) - (1 << 24) + 1);
    assert_eq!((BabyBear.number(), KoalaBear.number()), (1, 2));
    let known = [BabyBear, KoalaBear].map(|field| Field::from_number(field.number()));
    assert_eq!(known, [Some(BabyBear), Some(KoalaBear)]);
    assert_eq!([0, 3, 1 << 31, u32::MAX].map(Field::from_number), [None; 4]);
    assert_eq!((Form::One.number(), Form::Two.number()), (1, 2));
    let known = [Form::One, Form::Two].map(|form| Form::from_number(form.number()));
    assert_eq!(known, [Some(Form::One), Some(Form::Two)]);
    assert_eq!([0, 3, 1 << 31, u32::MAX].map(Form::from_number), [None; 4]);
    assert_eq!(Pattern::MAX_TAG_STRING, 4 * 64 + 256 + 4);
}

const fn shared_between_threads<T: Send + Sync>() {}
const _: () = {
    shared_between_threads::<Session>();
    shared_between_threads::<Pattern>();
    shared_between_threads::<Protocol>();
    shared_between_threads::<Field>();
    shared_between_threads::<Form>();
    shared_between_threads::<Call>();
    shared_between_threads::<Refusal>();
    shared_between_threads::<Owners>();
    shared_between_threads::<OwnersFault>();
    shared_between_threads::<Seal>();
};

/// Here every program has `std`, so the attribute is looked for in the text.
#[test]
fn the_crate_does_without_std() {
    let source = include_str!("../src/lib.rs");
    assert!(source.lines().any(|line| line == "#![no_std]"));
}
