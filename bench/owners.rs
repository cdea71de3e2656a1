// Who owns a separator, by a table of 1 row and by one of 128: asked of the library, of the independent implementation in Rust, and of plain
// Rust that goes over the rows once. Each checks the whole table in each call, and all must answer the same.
#[path = "../bindings/rust/tests/independent/mod.rs"]
mod independent;
#[macro_use]
mod library;
mod measure;

use measure::{compare, Way};
use std::hint::black_box;

libraries! {
    tuilarder_owner(*const u8, usize, *const u8, usize, *mut u32) -> u32;
}

fn library_owner(library: &Library, table: &[u8], separator: &[u8]) -> (u32, u32) {
    let mut value = 0;
    // SAFETY: the lists are valid for their lengths, and the value is this function's own.
    let number = unsafe {
        (library.tuilarder_owner)(table.as_ptr(), table.len(), separator.as_ptr(), separator.len(), &mut value)
    };
    (number, value)
}

fn plain_owner(table: &[u8], separator: &[u8]) -> (u32, u32) {
    let asked = separator.first_chunk().map(|four| u64::from(u32::from_be_bytes(*four)));
    let (mut next, mut gap, mut line) = (0, None, 0);
    for (k, row) in table.chunks(10).enumerate() {
        let Ok([a, b, c, d, e, f, g, h, i, j]) = <[u8; 10]>::try_from(row) else {
            return (15, k as u32 + 1);
        };
        let (first, last) = (u64::from(u32::from_be_bytes([a, b, c, d])), u64::from(u32::from_be_bytes([e, f, g, h])));
        if k == 128 || first > last || first < next {
            return (15, k as u32 + 1);
        }
        if first > next && gap.is_none() {
            gap = Some(next);
        }
        if asked.is_some_and(|number| first <= number && number <= last) {
            line = u32::from(u16::from_be_bytes([i, j]));
        }
        next = last + 1;
    }
    let gap = gap.or((next < 1 << 32).then_some(next));
    match (gap, asked) {
        (Some(number), _) => (16, number as u32),
        (None, None) => (17, 0),
        (None, Some(_)) => (0, line),
    }
}

// So many rows of equal width, a power of two of them.
fn equal_rows(count: u64) -> Vec<u8> {
    let width = (1 << 32) / count;
    let row = |k: u64| {
        let (first, last) = ((k * width) as u32, (k * width + width - 1) as u32);
        [&first.to_be_bytes()[..], &last.to_be_bytes(), &(k as u16 + 1).to_be_bytes()].concat()
    };
    (0..count).flat_map(row).collect()
}

// The separator is of the last row.
fn ask(job: &str, table: &[u8]) {
    let separator = [0xff; 8];
    let answer = (0, table.len() as u32 / 10);
    assert_eq!(answer, independent::owner(table, &separator));
    assert_eq!(answer, plain_owner(table, &separator));
    for library in Library::all() {
        assert_eq!(answer, library_owner(library, table, &separator));
    }
    let mut ways = vec![
        Way::new("independent Rust", || { black_box(independent::owner(black_box(table), &separator)); }),
        Way::new("plain Rust, rows gone over once", || { black_box(plain_owner(black_box(table), &separator)); }),
    ];
    for library in Library::all() {
        let call = || { black_box(library_owner(library, black_box(table), &separator)); };
        ways.push(Way::new(library.name, call));
    }
    compare(job, 1000, ways);
}

fn main() {
    ask("owner, table of 1 row", &equal_rows(1));
    ask("owner, table of 128 rows", &equal_rows(128));
}
