//! Notes sealed and opened, by the functions of `ffi` and by the crate's types: what each edge of document 02's sentences answers, and what is in the
//! buffer afterwards. Every call is compared with the independent implementation too, and each buffer with what the number leaves there.

mod guarded;
mod independent;
#[macro_use]
mod same_fields;
mod inputs;
#[macro_use]
mod interfaces;
mod run;

use guarded::Random;
use independent::{ABSORB, LONGEST_CALL, P_1, P_2};
use inputs::*;
use interfaces::Interface;
use run::Run;
use std::ops::Range;
use tuilarder::ffi::Record;

by_both! {
    blocks_about_the_rate
    every_number_of_blocks
    notes_are_those_of_session_calls
    each_element_changed_by_one
    marks_changed_in_other_ways
    anything_else_changed
    other_lengths_over_the_same_elements
    each_refusal_alone_and_in_pairs
    lists_of_no_elements
    lengths_of_any_size
    elements_at_and_above_each_prime
    a_nonce_that_serves_twice
    blocks_of_thousands
}

/// Lengths of blocks about the rate, which is 8.
const ABOUT_THE_RATE: [u32; 5] = [1, 7, 8, 9, 16];

/// The prime of a field, by document 02.
fn prime_of(field: u32) -> u32 {
    if field == 1 {
        P_1
    } else {
        P_2
    }
}

/// Seals a note, which is accepted, and opens it again. Gives what opens it.
fn round_trip(run: &mut Run, sealing: &NoteCall) -> NoteCall {
    let (number, sealed) = run.note(sealing);
    assert_eq!(number, 0);
    let opening = sealing.opening(sealed);
    assert_eq!(run.note(&opening), (0, sealing.text.clone()));
    opening
}

/// A note of random elements, sealed and opened again. Gives what opens it.
fn good_opening(run: &mut Run, field: u32, lengths: &[u32]) -> NoteCall {
    let sealing = NoteCall::sealing(&mut run.random, field, lengths);
    round_trip(run, &sealing)
}

/// That a note does not open: 21, and zeros.
fn assert_shut(run: &mut Run, call: &NoteCall) {
    let zeros = vec![0; call.out.len()];
    assert_eq!(run.note(call), (21, zeros));
}

/// That a call is turned away with a number, and the buffer is as it was.
fn assert_refused(run: &mut Run, call: &NoteCall, number: u32) {
    assert_eq!(run.note(call), (number, call.out.clone()));
}

/// One of each length, one behind another of each, and each as often as a note has blocks.
fn blocks_about_the_rate(library: &'static dyn Interface) {
    let run = Run::of("blocks_about_the_rate", library, 2, |run| {
        let field = 1 + run.case as u32;
        for length in 1..=33 {
            good_opening(run, field, &[length]);
        }
        for (first, second) in ABOUT_THE_RATE.iter().flat_map(|a| ABOUT_THE_RATE.map(|b| (*a, b))) {
            good_opening(run, field, &[first, second]);
            good_opening(run, field, &[first, second, first]);
        }
        for length in ABOUT_THE_RATE {
            good_opening(run, field, &[length; 31]);
        }
    });
    assert_eq!(run.total(&["seal", "open"]), 2 * 2 * (33 + 50 + 5));
}

/// "for each of 1 to 31 blocks"; 20: "no blocks or over 31", with all else exact for so many.
fn every_number_of_blocks(library: &'static dyn Interface) {
    let run = Run::of("every_number_of_blocks", library, 2, |run| {
        let field = 1 + run.case as u32;
        for count in (0..=34).chain([62, 63, 64, 65, 256, 257, 65537]) {
            let sealing = NoteCall::sealing(&mut run.random, field, &vec![1; count]);
            if (1..=31).contains(&count) {
                round_trip(run, &sealing);
                continue;
            }
            assert_refused(run, &sealing, 20);
            let text = (0..count + 8).map(|_| good_element(&mut run.random, field)).collect();
            assert_refused(run, &sealing.opening(text), 20);
        }
        // the first of these lengths are those of the note, also where how many there are is cut to 8 or 16 bits
        for (count, more) in [(31, 1), (31, 2), (1, 256), (2, 512), (1, 65_536)] {
            let sealing = NoteCall::sealing(&mut run.random, field, &vec![1; count]);
            let opening = round_trip(run, &sealing);
            for mut call in [sealing, opening] {
                call.lengths.resize(count + more, 1);
                assert_refused(run, &call, 20);
            }
        }
    });
    assert_eq!(run.total(&["seal", "open"]), 2 * (2 * 42 + 5 * 4));
}

/// A session's record, driven by the library's own calls.
struct Calls<'a> {
    library: &'static dyn Interface,
    noise: &'a mut Random,
    record: Record,
}

impl Calls<'_> {
    fn absorb(&mut self, elements: &[u32]) {
        assert_eq!(self.library.absorb(self.noise, &mut self.record, elements), 0);
    }

    fn squeeze(&mut self, length: usize) -> Vec<u32> {
        let mut elements = vec![FILLED; length];
        assert_eq!(self.library.squeeze(self.noise, &mut self.record, &mut elements), 0);
        elements
    }
}

/// Algorithm 7 by the calls of a session: key and nonce, then each block squeezed for, added and absorbed; at the end the mark.
fn sealed_by_calls(library: &'static dyn Interface, noise: &mut Random, note: &NoteCall) -> Vec<u32> {
    let mut words = vec![ABSORB + 16];
    words.extend(note.lengths.iter().flat_map(|length| [*length, ABSORB + *length]));
    words.push(8);
    let mut record = Record::WIPED;
    assert_eq!(
        // "Sealed notes keep form 1."
        library.start(noise, &mut record, note.field, 1, &words, &note.separator),
        0
    );
    let mut calls = Calls { library, noise, record };
    calls.absorb(&note.key);
    calls.absorb(&note.nonce);
    let p = u64::from(prime_of(note.field));
    let (mut sealed, mut rest) = (vec![], &note.text[..]);
    for length in &note.lengths {
        let (block, behind) = rest.split_at(*length as usize);
        let squeezed = calls.squeeze(block.len());
        calls.absorb(block);
        let sums = block
            .iter()
            .zip(squeezed)
            .map(|(a, b)| (u64::from(*a) + u64::from(b)) % p);
        sealed.extend(sums.map(|sum| sum as u32));
        rest = behind;
    }
    sealed.extend(calls.squeeze(8));
    assert_eq!(library.finish(calls.noise, &mut calls.record), 0);
    sealed
}

fn notes_are_those_of_session_calls(library: &'static dyn Interface) {
    Run::of("notes_are_those_of_session_calls", library, 100, |run| {
        let note = any_note(&mut run.random);
        let expected = sealed_by_calls(library, &mut run.noise, &note);
        assert_eq!(run.note(&note), (0, expected));
    });
}

/// Each cipher element and each of the mark, one more and one less.
fn each_element_changed_by_one(library: &'static dyn Interface) {
    let run = Run::of("each_element_changed_by_one", library, 2, |run| {
        let field = 1 + run.case as u32;
        let p = prime_of(field);
        for lengths in [&[1][..], &[8], &[9], &[1, 7, 8], &[16, 9, 1]] {
            let opening = good_opening(run, field, lengths);
            for (place, other) in (0..opening.text.len()).flat_map(|place| [1, p - 1].map(|step| (place, step))) {
                let mut changed = opening.clone();
                changed.text[place] = ((u64::from(changed.text[place]) + u64::from(other)) % u64::from(p)) as u32;
                assert_shut(run, &changed);
            }
        }
    });
    assert_eq!(run.total(&["open"]), 2 * (5 + 2 * (9 + 16 + 17 + 24 + 34)));
}

/// Zeros, the largest element, another order, two elements whose sum stays, and all of the mark but one.
fn marks_changed_in_other_ways(library: &'static dyn Interface) {
    Run::of("marks_changed_in_other_ways", library, 20, |run| {
        let field = 1 + run.case as u32 % 2;
        let opening = good_opening(run, field, &[3, 8]);
        let mark = opening.text[11..].to_vec();
        let p = prime_of(field);
        let mut others = vec![vec![0; 8], vec![p - 1; 8], opening.text[..8].to_vec()];
        for turn in 1..8 {
            others.push([&mark[turn..], &mark[..turn]].concat());
            let mut moved = mark.clone();
            moved[0] = (moved[0] + 1) % p;
            moved[turn] = (moved[turn] + p - 1) % p;
            others.push(moved);
        }
        others.push(mark.iter().rev().copied().collect());
        for kept in 0..8 {
            others.push(
                (0..8)
                    .map(|k| if k == kept { mark[k] } else { p - 1 - mark[k] })
                    .collect(),
            );
        }
        // random elements are not such that one of these is the mark itself
        for other in others {
            assert_ne!(other, mark);
            let mut changed = opening.clone();
            changed.text[11..].copy_from_slice(&other);
            assert_shut(run, &changed);
        }
    });
}

/// "under the same field, key, nonce, separator and lengths": one of them another.
fn anything_else_changed(library: &'static dyn Interface) {
    Run::of("anything_else_changed", library, 2, |run| {
        let field = 1 + run.case as u32;
        let opening = good_opening(run, field, &[9, 2]);
        for place in 0..8 {
            for list in &NOTE_LISTS[..2] {
                let mut changed = opening.clone();
                let element = &mut list(&mut changed)[place];
                *element = (*element + 1) % prime_of(field);
                assert_shut(run, &changed);
            }
        }
        let mut exchanged = opening.clone();
        std::mem::swap(&mut exchanged.key, &mut exchanged.nonce);
        assert_shut(run, &exchanged);
        for separator in [&b""[..], b"not", b"note\0", b"nota", b"Note"] {
            let mut changed = opening.clone();
            changed.separator = separator.to_vec();
            assert_shut(run, &changed);
        }
        // elements of both fields
        let mut sealing = NoteCall::sealing(&mut run.random, field, &[2]);
        for list in NOTE_LISTS {
            list(&mut sealing).iter_mut().for_each(|element| *element %= P_1);
        }
        let mut opening = round_trip(run, &sealing);
        opening.field = 3 - field;
        let sealed_in_both = opening.text.iter().all(|element| *element < P_1);
        assert_eq!(run.note(&opening).0, if field == 1 || sealed_in_both { 21 } else { 10 });
    });
}

/// The lengths of blocks that so many elements can be cut into: a bit for each place between two, set where a block begins.
fn all_lengths(elements: u32) -> Vec<Vec<u32>> {
    let of_bits = |bits: u32| {
        let mut lengths = vec![1];
        for place in 0..elements - 1 {
            match bits >> place & 1 {
                0 => *lengths.last_mut().expect("a block") += 1,
                _ => lengths.push(1),
            }
        }
        lengths
    };
    (0..1 << (elements - 1)).map(of_bits).collect()
}

/// One note in all blocks that its elements can be cut into: each opens by its own lengths, and by no other ones.
fn other_lengths_over_the_same_elements(library: &'static dyn Interface) {
    let run = Run::of("other_lengths_over_the_same_elements", library, 2, |run| {
        let field = 1 + run.case as u32;
        let all = all_lengths(6);
        let note = NoteCall::sealing(&mut run.random, field, &[6]);
        for lengths in &all {
            let sealing = NoteCall {
                lengths: lengths.clone(),
                ..note.clone()
            };
            let opening = round_trip(run, &sealing);
            for other in all.iter().filter(|other| *other != lengths) {
                let recut = NoteCall {
                    lengths: other.clone(),
                    ..opening.clone()
                };
                assert_shut(run, &recut);
            }
        }
        for (lengths, other) in [([8, 16], [16, 8]), ([7, 9], [8, 8]), ([1, 30], [2, 29])] {
            let mut opening = good_opening(run, field, &lengths);
            opening.lengths = other.to_vec();
            assert_shut(run, &opening);
        }
    });
    assert_eq!(run.total(&["open"]), 2 * (32 * 32 + 6));
}

/// A number, and what earns it in a good call.
type Fault = (u32, fn(&mut NoteCall));

/// A list is cut by more elements than another fault adds, so that two of them do not make a good one.
const FAULTS: [Fault; 31] = [
    (18, |call| call.field = 0),
    (18, |call| call.field = 3),
    (18, |call| call.field |= 256),
    (18, |call| call.field = u32::MAX),
    (6, |call| call.separator = vec![0; 257]),
    (6, |call| call.separator = vec![7; 100_000]),
    (20, |call| call.lengths = vec![]),
    (20, |call| call.lengths = vec![1; 32]),
    (20, |call| call.lengths.push(0)),
    (20, |call| call.lengths.insert(0, 0)),
    (20, |call| call.lengths.push(1)),
    (20, |call| call.lengths[..].fill(LONGEST_CALL + 1)),
    (20, |call| call.lengths[..].fill(u32::MAX)),
    (20, |call| call.lengths.truncate(1)),
    (20, |call| call.key.truncate(5)),
    (20, |call| call.key.clear()),
    (20, |call| call.key.push(1)),
    (20, |call| call.nonce.truncate(5)),
    (20, |call| call.nonce.clear()),
    (20, |call| call.nonce.push(1)),
    (20, |call| call.text.truncate(2)),
    (20, |call| call.text.push(1)),
    (20, |call| call.text.extend([1; 16])),
    (20, |call| call.out.truncate(2)),
    (20, |call| call.out.push(FILLED)),
    (20, |call| call.out.extend([FILLED; 16])),
    (10, |call| set_first(&mut call.key, P_2)),
    (10, |call| set_last(&mut call.nonce, u32::MAX)),
    (10, |call| set_first(&mut call.text, u32::MAX)),
    (10, |call| set_last(&mut call.text, P_2)),
    // of a sealed list the last is one of the mark; a sealing has no mark
    (21, |call| {
        if call.opening {
            let place = call.text.len().saturating_sub(4);
            call.text.get_mut(place).into_iter().for_each(|element| *element ^= 1);
        }
    }),
];

fn set_first(list: &mut [u32], element: u32) {
    list.first_mut().into_iter().for_each(|place| *place = element);
}

fn set_last(list: &mut [u32], element: u32) {
    list.last_mut().into_iter().for_each(|place| *place = element);
}

/// "after START's own 18 and 6, before 10"; "21: the mark differs, last."
const ORDER: [u32; 5] = [18, 6, 20, 10, 21];

fn earlier(first: u32, second: u32) -> u32 {
    *ORDER
        .iter()
        .find(|number| [first, second].contains(number))
        .expect("a number of the order")
}

/// Each fault by itself, and each behind each; of one number the same.
fn each_refusal_alone_and_in_pairs(library: &'static dyn Interface) {
    let run = Run::of("each_refusal_alone_and_in_pairs", library, 2, |run| {
        let field = 1 + run.case as u32;
        let sealing = NoteCall::sealing(&mut run.random, field, &[2, 3]);
        let opening = round_trip(run, &sealing);
        for good in [sealing, opening] {
            let faults: Vec<Fault> = FAULTS
                .iter()
                .copied()
                .filter(|fault| good.opening || fault.0 != 21)
                .collect();
            for (number, fault) in &faults {
                let mut call = good.clone();
                fault(&mut call);
                assert_eq!(run.note(&call).0, *number);
                // the same change of the mark twice is none
                for (second, other) in faults.iter().filter(|other| other.0 != 21 || *number != 21) {
                    let mut both = call.clone();
                    other(&mut both);
                    let expected = earlier(*number, *second);
                    assert_eq!(run.note(&both).0, expected, "{number}, then {second}");
                }
            }
        }
    });
    run.assert_reached("seal", &[6, 10, 18, 20]);
    run.assert_reached("open", &[6, 10, 18, 20]);
    // a good call, each alone and in pairs, without 21 where there is no mark and without that twice
    assert_eq!(
        run.total(&["seal", "open"]),
        2 * (2 + (30 + 30 * 30) + (31 + 31 * 31 - 1))
    );
}

/// Each list of length 0, alone and with all others: 20, or with the separator nothing.
fn lists_of_no_elements(library: &'static dyn Interface) {
    const LISTS: [NoteList; 5] = [
        |call| &mut call.key,
        |call| &mut call.nonce,
        |call| &mut call.lengths,
        |call| &mut call.text,
        |call| &mut call.out,
    ];
    Run::of("lists_of_no_elements", library, 2, |run| {
        let mut sealing = NoteCall::sealing(&mut run.random, 1 + run.case as u32, &[2, 3]);
        sealing.separator.clear();
        let opening = round_trip(run, &sealing);
        for good in [sealing, opening] {
            for bits in 1..32 {
                let mut call = good.clone();
                for (_, list) in LISTS.iter().enumerate().filter(|(k, _)| bits >> k & 1 == 1) {
                    list(&mut call).clear();
                }
                assert_refused(run, &call, 20);
            }
        }
    });
}

/// "a block length of 0 or above 16,777,216"; the sum of the others is right where 32 or 64 bits overflow, or a length is cut to fewer bits.
fn lengths_of_any_size(library: &'static dyn Interface) {
    const MAX: u32 = u32::MAX;
    let wrong: [&[u32]; 16] = [
        &[0],
        &[0, 5],
        &[5, 0],
        &[2, 0, 3],
        &[LONGEST_CALL],
        &[LONGEST_CALL + 1],
        &[LONGEST_CALL + 5],
        &[LONGEST_CALL; 31],
        &[ABSORB + 5],
        &[ABSORB, ABSORB, 5],
        &[MAX, 6],
        &[6, MAX],
        &[MAX, MAX, 7],
        &[MAX; 31],
        &[65541],
        &[MAX; 1000],
    ];
    Run::of("lengths_of_any_size", library, 2, |run| {
        let sealing = NoteCall::sealing(&mut run.random, 1 + run.case as u32, &[5]);
        let opening = round_trip(run, &sealing);
        for (good, lengths) in [&sealing, &opening]
            .into_iter()
            .flat_map(|good| wrong.map(|list| (good, list)))
        {
            let mut call = good.clone();
            call.lengths = lengths.to_vec();
            assert_refused(run, &call, 20);
        }
    });
}

/// 10 for every place of key, nonce, plain, cipher and mark; in field 2 the elements between the primes are accepted.
fn elements_at_and_above_each_prime(library: &'static dyn Interface) {
    let run = Run::of("elements_at_and_above_each_prime", library, 2, |run| {
        let field = 1 + run.case as u32;
        let sealing = NoteCall::sealing(&mut run.random, field, &[1, 2]);
        let opening = round_trip(run, &sealing);
        for (good, list) in [&sealing, &opening]
            .into_iter()
            .flat_map(|good| NOTE_LISTS.map(|list| (good, list)))
        {
            for place in 0..list(&mut good.clone()).len() {
                for (element, number) in [
                    (prime_of(field), 10),
                    (u32::MAX, 10),
                    (P_1, 10 * (2 - field)),
                    (P_2, 10),
                ] {
                    let mut call = good.clone();
                    list(&mut call)[place] = element;
                    // what was there, at times
                    if call == *good {
                        continue;
                    }
                    match (number, good.opening) {
                        (10, _) => assert_refused(run, &call, 10),
                        (_, false) => drop(round_trip(run, &call)),
                        (_, true) => assert_shut(run, &call),
                    }
                }
            }
        }
    });
    run.assert_reached("seal", &[10]);
    run.assert_reached("open", &[10]);
}

/// The elements of a block, by the lengths.
fn block(lengths: &[u32], k: usize) -> Range<usize> {
    let start = lengths[..k].iter().sum::<u32>() as usize;
    start..start + lengths[k] as usize
}

/// Two notes that are equal before a block, and differ in it: with one nonce, the ciphers differ as the notes do up to that block and in it.
fn a_nonce_that_serves_twice(library: &'static dyn Interface) {
    Run::of("a_nonce_that_serves_twice", library, 100, |run| {
        let first = any_note(&mut run.random);
        let p = prime_of(first.field);
        let differing = run.random.below(first.lengths.len() as u64) as usize;
        let mut second = first.clone();
        for element in &mut second.text[block(&first.lengths, differing).start..] {
            *element = (*element + 1 + run.random.below(u64::from(p) / 2) as u32) % p;
        }
        let [one, other] = [&first, &second].map(|call| run.note(call).1);
        for place in 0..block(&first.lengths, differing).end {
            let difference = |a: u32, b: u32| (a + (p - b)) % p;
            assert_eq!(
                difference(other[place], one[place]),
                difference(second.text[place], first.text[place]),
                "place {place}"
            );
        }
        // and no note twice with one mark
        assert_ne!(one[first.text.len()..], other[first.text.len()..]);
    });
}

/// More elements than 16 bits count, in one block and in the last of several.
fn blocks_of_thousands(library: &'static dyn Interface) {
    Run::of("blocks_of_thousands", library, 2, |run| {
        let field = 1 + run.case as u32;
        good_opening(run, field, &[65_537]);
        let mut opening = good_opening(run, field, &[1, 3_000, 1_001]);
        opening.text[4_001] ^= 1;
        assert_shut(run, &opening);
    });
}
