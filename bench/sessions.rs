// The calls of a session, and the writing of a tag string, by the library and by the independent implementation in Rust, in one run. Both
// must leave the same record, write the same string and squeeze the same elements. Then how the time of hashing grows with the number of
// elements.
#[path = "../bindings/rust/tests/independent/mod.rs"]
mod independent;
#[macro_use]
mod library;
mod measure;
#[macro_use]
#[path = "../bindings/rust/tests/same_fields/mod.rs"]
mod same_fields;

use independent::Session;
use library::ffi::Record;
use measure::{compare, medians, Way};
use std::cell::RefCell;
use std::hint::black_box;

#[cfg(before_version_2)]
compile_error!("a library of version 2 has another record, and no forms: this job cannot time it");

const ABSORB: u32 = 1 << 31;

// The numbers of the fields.
const BABY_BEAR: u32 = 1;
const KOALA_BEAR: u32 = 2;

// The number of the form of all tag strings here but for one, which is form 2's.
const FORM_1: u32 = 1;
const FORM_2: u32 = 2;

libraries! {
    tuilarder_start(*mut Record, u32, u32, *const u32, usize, *const u8, usize) -> u32;
    tuilarder_absorb(*mut Record, *const u32, usize) -> u32;
    tuilarder_squeeze(*mut Record, *mut u32, usize) -> u32;
    tuilarder_finish(*mut Record) -> u32;
    tuilarder_write_tag(u32, *const u32, usize, *const u8, usize, *mut u8, usize, *mut usize) -> u32;
}

// SAFETY of the library's functions: each gets a record and lists that are valid for their lengths, and apart.
impl Library {
    fn start(&self, field: u32, form: u32, words: &[u32], separator: &[u8]) -> Record {
        let mut record = Record::WIPED;
        let (separator, separator_length) = (separator.as_ptr(), separator.len());
        let number =
            unsafe { (self.tuilarder_start)(&mut record, field, form, words.as_ptr(), words.len(), separator, separator_length) };
        assert_eq!(number, 0);
        record
    }

    fn absorb(&self, record: &mut Record, elements: &[u32]) {
        assert_eq!(unsafe { (self.tuilarder_absorb)(record, elements.as_ptr(), elements.len()) }, 0);
    }

    fn squeeze(&self, record: &mut Record, out: &mut [u32]) {
        assert_eq!(unsafe { (self.tuilarder_squeeze)(record, out.as_mut_ptr(), out.len()) }, 0);
    }

    // START, and the first phases of the pattern.
    fn reach(&self, field: u32, words: &[u32], phases: usize) -> Record {
        let mut record = self.start(field, FORM_1, words, b"AB");
        for word in &words[..phases] {
            let mut list = vec![7; (word % ABSORB) as usize];
            if *word >= ABSORB {
                self.absorb(&mut record, &list);
            } else {
                self.squeeze(&mut record, &mut list);
            }
        }
        record
    }

    // A whole session that absorbs the elements and squeezes eight.
    fn hash(&self, field: u32, elements: &[u32]) -> [u32; 8] {
        let mut out = [0; 8];
        let mut record = self.start(field, FORM_1, &[ABSORB + elements.len() as u32, 8], b"hash");
        self.absorb(&mut record, elements);
        self.squeeze(&mut record, &mut out);
        assert_eq!(unsafe { (self.tuilarder_finish)(&mut record) }, 0);
        out
    }

    fn write_tag(&self, form: u32, words: &[u32], separator: &[u8], out: &mut [u8]) -> usize {
        let mut written = 0;
        let (separator, separator_length) = (separator.as_ptr(), separator.len());
        let number = unsafe {
            (self.tuilarder_write_tag)(form, words.as_ptr(), words.len(), separator, separator_length, out.as_mut_ptr(), out.len(), &mut written)
        };
        assert_eq!(number, 0);
        written
    }
}

fn session_of(record: &Record) -> Session {
    same_fields!(Session, record)
}

fn independent_start(field: u32, form: u32, words: &[u32], separator: &[u8]) -> Session {
    let (number, record) = independent::start(field, form, words, separator);
    assert_eq!(number, 0);
    record
}

fn independent_absorb(record: &mut Session, elements: &[u32]) {
    assert_eq!(independent::absorb(record, elements), 0);
}

fn independent_hash(field: u32, elements: &[u32]) -> [u32; 8] {
    let mut out = [0; 8];
    let mut record = independent_start(field, FORM_1, &[ABSORB + elements.len() as u32, 8], b"hash");
    independent_absorb(&mut record, elements);
    assert_eq!(independent::squeeze(&mut record, &mut out), 0);
    assert_eq!(independent::finish(&mut record), 0);
    out
}

fn start(job: &str, form: u32, words: &[u32], separator: &[u8]) {
    let expected = independent_start(BABY_BEAR, form, words, separator);
    let independent = || { black_box(independent_start(BABY_BEAR, form, black_box(words), separator)); };
    let mut ways = vec![Way::new("independent Rust", independent)];
    for library in Library::all() {
        assert_eq!(session_of(&library.start(BABY_BEAR, form, words, separator)), expected);
        ways.push(Way::new(library.name, || { black_box(library.start(BABY_BEAR, form, black_box(words), separator)); }));
    }
    compare(&format!("START, {job}"), 1000, ways);
}

// All ways write to one buffer, so that none has it at a better place.
fn write_tag(job: &str, form: u32, words: &[u32], separator: &[u8]) {
    let mut expected = [0; 516];
    let length = independent::write_tag(form, words, separator, &mut expected).unwrap();
    let buffer = RefCell::new([0; 516]);
    let independent = || { black_box(independent::write_tag(form, black_box(words), separator, &mut *buffer.borrow_mut()).unwrap()); };
    let mut ways = vec![Way::new("independent Rust", independent)];
    for library in Library::all() {
        let mut out = [0; 516];
        assert_eq!((library.write_tag(form, words, separator, &mut out), out), (length, expected));
        let by_library = || { black_box(library.write_tag(form, black_box(words), separator, &mut *buffer.borrow_mut())); };
        ways.push(Way::new(library.name, by_library));
    }
    compare(&format!("tag string, {job}"), 10_000, ways);
}

// Each call gets its own copy of the record at that place, and permutes nothing.
fn absorb_one(job: &str, field: u32, words: &[u32], phases: usize) {
    let reached = Library::NOW.reach(field, words, phases);
    let independent = session_of(&reached);
    let mut expected = independent.clone();
    independent_absorb(&mut expected, &[7]);
    let by_independent = || {
        let mut record = independent.clone();
        independent_absorb(black_box(&mut record), &[7]);
    };
    let mut ways = vec![Way::new("independent Rust", by_independent)];
    for library in Library::all() {
        let mut record = reached;
        library.absorb(&mut record, &[7]);
        assert_eq!(session_of(&record), expected);
        let by_library = || {
            let mut record = reached;
            library.absorb(black_box(&mut record), &[7]);
        };
        ways.push(Way::new(library.name, by_library));
    }
    compare(job, 10_000, ways);
}

fn hash(job: &str, field: u32, elements: &[u32]) {
    let expected = independent_hash(field, elements);
    let mut ways = vec![Way::new("independent Rust", || { black_box(independent_hash(field, black_box(elements))); })];
    for library in Library::all() {
        assert_eq!(library.hash(field, elements), expected);
        ways.push(Way::new(library.name, || { black_box(library.hash(field, black_box(elements))); }));
    }
    compare(job, 1, ways);
}

fn growth() {
    println!("{:>20}{:>14}{:>14}{:>19}", "elements hashed", "permutations", "ns", "ns a permutation");
    for count in [1, 10, 100, 1_000, 10_000, 100_000] {
        let elements: Vec<u32> = (0..count).collect();
        let permutations = u64::from(count.div_ceil(8));
        let call = || { black_box(Library::NOW.hash(BABY_BEAR, black_box(&elements))); };
        let time = medians(1 + 1000 / count, &mut [Way::new("library", call)])[0];
        println!("{count:>20}{permutations:>14}{time:>14.0}{:>19.0}", time / permutations as f64);
    }
}

// So many words, ABSORB and SQUEEZE in turn: none is merged.
fn alternating(count: usize) -> Vec<u32> {
    (0..count).map(|k| if k % 2 == 0 { ABSORB + 9 } else { 9 }).collect()
}

// So many words, ABSORB but for the last: they merge to two.
fn neighbours(count: usize) -> Vec<u32> {
    let mut words = vec![ABSORB + 9; count];
    words[count - 1] = 9;
    words
}

// A separator has 2 bytes unless its length is named, the field is BabyBear and the form is 1 unless another is.
fn main() {
    let longest = alternating(64);
    for (job, words) in [
        ("2 words", vec![ABSORB + 8, 1]),
        ("16 words", alternating(16)),
        ("64 words", alternating(64)),
        ("64 words that merge to 2", neighbours(64)),
    ] {
        start(job, FORM_1, &words, b"AB");
        write_tag(job, FORM_1, &words, b"AB");
    }
    start("64 words, separator of 256 bytes", FORM_1, &longest, &[7; 256]);
    start("the same, form 2", FORM_2, &longest, &[7; 256]);
    absorb_one("ABSORB of 1 element, 2 words", BABY_BEAR, &[ABSORB + 8, 8], 0);
    absorb_one("ABSORB of 1 element, 2 words, KoalaBear", KOALA_BEAR, &[ABSORB + 8, 8], 0);
    absorb_one("ABSORB of 1 element, in phase 62 of 64", BABY_BEAR, &longest, 62);
    let elements: Vec<u32> = (0..1000).collect();
    hash("a session that hashes 1,000 elements to 8", BABY_BEAR, &elements);
    hash("the same, KoalaBear", KOALA_BEAR, &elements);
    growth();
}
