// Notes sealed and opened by the library, beside a session of the same calls, which adds the squeezed elements in Rust, and beside as many bare
// permutations, in one run. All must give what the independent implementation gives.
#[path = "../bindings/rust/tests/independent/mod.rs"]
mod independent;
#[macro_use]
mod library;
mod measure;

use independent::SealInputs;
use library::ffi::Record;
use measure::{compare, Way};
use std::cell::RefCell;
use std::hint::black_box;

const ABSORB: u32 = 1 << 31;
const MARK: usize = 8;

libraries! {
    tuilarder_start(*mut Record, u32, u32, *const u32, usize, *const u8, usize) -> u32;
    tuilarder_absorb(*mut Record, *const u32, usize) -> u32;
    tuilarder_squeeze(*mut Record, *mut u32, usize) -> u32;
    tuilarder_finish(*mut Record) -> u32;
    tuilarder_permute(u32, *mut [u32; 24]) -> u32;
    tuilarder_seal(u32, *const u32, usize, *const u32, usize, *const u8, usize, *const u32, usize, *const u32, usize, *mut u32, usize) -> u32;
    tuilarder_open(u32, *const u32, usize, *const u32, usize, *const u8, usize, *const u32, usize, *const u32, usize, *mut u32, usize) -> u32;
}

// Of two elements, or of an element and p less another.
fn sum(p: u32, a: u32, b: u32) -> u32 {
    let sum = a + b;
    if sum < p { sum } else { sum - p }
}

// SAFETY of the library's functions: each gets a record and lists that are valid for their lengths, and apart.
impl Library {
    fn note(&self, seals: bool, inputs: &SealInputs, text: &[u32], out: &mut [u32]) {
        let function = if seals { self.tuilarder_seal } else { self.tuilarder_open };
        let SealInputs { field, key, nonce, separator, lengths } = *inputs;
        let number = unsafe {
            function(
                field, key.as_ptr(), key.len(), nonce.as_ptr(), nonce.len(), separator.as_ptr(), separator.len(), lengths.as_ptr(), lengths.len(),
                text.as_ptr(), text.len(), out.as_mut_ptr(), out.len(),
            )
        };
        assert_eq!(number, 0);
    }

    fn absorb(&self, record: &mut Record, elements: &[u32]) {
        assert_eq!(unsafe { (self.tuilarder_absorb)(record, elements.as_ptr(), elements.len()) }, 0);
    }

    fn squeeze(&self, record: &mut Record, out: &mut [u32]) {
        assert_eq!(unsafe { (self.tuilarder_squeeze)(record, out.as_mut_ptr(), out.len()) }, 0);
    }

    // START, in form 1, and key and nonce absorbed.
    fn started(&self, inputs: &SealInputs) -> Record {
        let (mut words, mut both) = ([0; 64], [0; 16]);
        let count = 2 * inputs.lengths.len() + 2;
        words[0] = ABSORB + 16;
        for (k, length) in inputs.lengths.iter().enumerate() {
            words[2 * k + 1] = *length;
            words[2 * k + 2] = ABSORB + *length;
        }
        words[count - 1] = MARK as u32;
        both[..8].copy_from_slice(inputs.key);
        both[8..].copy_from_slice(inputs.nonce);
        let (mut record, separator) = (Record::WIPED, inputs.separator);
        let number = unsafe {
            (self.tuilarder_start)(&mut record, inputs.field, 1, words.as_ptr(), count, separator.as_ptr(), separator.len())
        };
        assert_eq!(number, 0);
        self.absorb(&mut record, &both);
        record
    }

    // The calls of a session that seals, or else opens, as tuilarder_seal and tuilarder_open do. Gives its permutations.
    fn by_calls(&self, seals: bool, p: u32, inputs: &SealInputs, text: &[u32], out: &mut [u32]) -> u64 {
        let (mut record, mut at) = (self.started(inputs), 0);
        for length in inputs.lengths {
            let end = at + *length as usize;
            let (from, to) = (&text[at..end], &mut out[at..end]);
            self.squeeze(&mut record, to);
            for (place, element) in to.iter_mut().zip(from) {
                *place = sum(p, *element, if seals { *place } else { p - *place });
            }
            self.absorb(&mut record, if seals { from } else { to });
            at = end;
        }
        let mut mark = [0; MARK];
        self.squeeze(&mut record, &mut mark);
        if seals {
            out[at..].copy_from_slice(&mark);
        } else {
            assert_eq!(mark, text[at..]);
        }
        let permutations = record.permutations;
        assert_eq!(unsafe { (self.tuilarder_finish)(&mut record) }, 0);
        permutations
    }

    fn permute(&self, field: u32, times: u64, state: &mut [u32; 24]) {
        for _ in 0..times {
            assert_eq!(unsafe { (self.tuilarder_permute)(field, state) }, 0);
        }
    }
}

// One permutation for key and nonce and one for the mark; of a block one for each eight elements that are squeezed, and for each but the first that are
// absorbed.
fn permutations_of(lengths: &[u32]) -> u64 {
    2 + lengths.iter().map(|length| u64::from(2 * length.div_ceil(8) - 1)).sum::<u64>()
}

// All ways write to one buffer, so that none has it at a better place.
fn timed(job: &str, seals: bool, calls: u32, inputs: &SealInputs, text: &[u32], expected: &[u32]) {
    let p = independent::named(inputs.field).expect("a field").p;
    let times = permutations_of(inputs.lengths);
    let (buffer, state) = (RefCell::new(vec![0; expected.len()]), RefCell::new([7; 24]));
    let (alone, by_calls) = (format!("{times} permutations"), "calls of a session");
    let mut ways = vec![Way::new(&alone, || Library::NOW.permute(inputs.field, times, black_box(&mut state.borrow_mut())))];
    ways.push(Way::new(by_calls, || {
        black_box(Library::NOW.by_calls(seals, p, inputs, black_box(text), &mut buffer.borrow_mut()));
    }));
    let mut out = vec![0; expected.len()];
    assert_eq!((Library::NOW.by_calls(seals, p, inputs, text, &mut out), &out[..]), (times, expected));
    for library in Library::all() {
        let mut out = vec![0; expected.len()];
        library.note(seals, inputs, text, &mut out);
        assert_eq!(out, expected);
        ways.push(Way::new(library.name, || library.note(seals, inputs, black_box(text), &mut buffer.borrow_mut())));
    }
    compare(job, calls, ways);
}

fn note(name: &str, field: u32, lengths: &[u32], calls: u32) {
    let total = lengths.iter().sum::<u32>();
    let plain: Vec<u32> = (0..total).map(|k| k * 1_000 % 2_000_000_000).collect();
    let (key, nonce) = ([1, 2, 3, 4, 5, 6, 7, 8], [0, 0, 0, 0, 0, 0, 0, 1]);
    let inputs = SealInputs { field, key: &key, nonce: &nonce, separator: b"note", lengths };
    let mut sealed = vec![0; plain.len() + MARK];
    assert_eq!(independent::seal(&inputs, &plain, &mut sealed), 0);
    timed(&format!("sealing {name}"), true, calls, &inputs, &plain, &sealed);
    timed(&format!("opening {name}"), false, calls, &inputs, &sealed, &plain);
}

// The field is BabyBear unless another is named.
fn main() {
    note("31 blocks of 8", 1, &[8; 31], 10);
    note("31 blocks of 8, KoalaBear", 2, &[8; 31], 10);
    note("1 block of 8", 1, &[8], 100);
    note("31 blocks of 1", 1, &[1; 31], 10);
    note("31 blocks of 1,000", 1, &[1_000; 31], 1);
}
