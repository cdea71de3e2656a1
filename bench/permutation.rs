// One permutation of the library in either field beside others in Rust, in one run: the independent implementation, with a `%` for every
// operation; one that reduces neither products nor sums before the end of a row; and, of BabyBear, the fastest that we could
// write, with SSE2 and, where there is one, with AVX2. All must give what the first gives, before they are timed and in the end.
mod fast_permutation;
#[path = "../bindings/rust/tests/independent/mod.rs"]
mod independent;
#[macro_use]
mod library;
mod measure;

use fast_permutation::FastTables;
use measure::{compare, Way};
use std::hint::black_box;

libraries! {
    tuilarder_permute(u32, *mut [u32; 24]) -> u32;
}

// Another commit's library of version 1, whose permutation is BabyBear's and takes the state alone.
#[cfg(before_version_1)]
mod version_1 {
    extern "C" {
        fn before_tuilarder_layout_1() -> u64;
        fn before_tuilarder_permute(state: *mut [u32; 24]) -> u32;
    }

    // Stops unless it is of that version, whose record has 384 bytes.
    pub fn check_layout() {
        // SAFETY: it takes nothing.
        assert_eq!(unsafe { before_tuilarder_layout_1() }, (1 << 32) | 384);
    }

    pub fn permute(state: &mut [u32; 24]) {
        // SAFETY: the state is lent for the call.
        assert_eq!(unsafe { before_tuilarder_permute(state) }, 0);
    }
}

// A field of the permutation written here, with figures that are constants, as they are in the library.
trait Field {
    const NUMBER: u32;
    const NAME: &'static str;
    const P: u64;
    const PARTIAL_ROUNDS: usize;
    fn power(x: u64) -> u64;
}

struct BabyBear;

impl Field for BabyBear {
    const NUMBER: u32 = 1;
    const NAME: &'static str = "BabyBear";
    const P: u64 = independent::P_1 as u64;
    const PARTIAL_ROUNDS: usize = 21;

    fn power(x: u64) -> u64 {
        let square = x * x % Self::P;
        (square * square % Self::P) * (square * x % Self::P) % Self::P
    }
}

struct KoalaBear;

impl Field for KoalaBear {
    const NUMBER: u32 = 2;
    const NAME: &'static str = "KoalaBear";
    const P: u64 = independent::P_2 as u64;
    const PARTIAL_ROUNDS: usize = 23;

    fn power(x: u64) -> u64 {
        (x * x % Self::P) * x % Self::P
    }
}

// What a field's permutations in Rust are made from.
struct Tables {
    constants: Vec<u32>,
    inverses: Vec<u32>,
}

impl Tables {
    fn of<F: Field>() -> Tables {
        let field = independent::named(F::NUMBER).unwrap();
        let (constants, count) = independent::round_constants(field);
        Tables {
            constants: constants[..count].to_vec(),
            inverses: (24..71).map(|number| independent::inverse(field, number)).collect(),
        }
    }
}

fn permute<F: Field>(tables: &Tables, state: &mut [u32; 24]) {
    for (round, constants) in tables.constants.chunks(24).enumerate() {
        for (x, constant) in state.iter_mut().zip(constants) {
            *x = ((*x as u64 + *constant as u64) % F::P) as u32;
        }
        let raised = if (4..4 + F::PARTIAL_ROUNDS).contains(&round) { 1 } else { 24 };
        for x in state.iter_mut().take(raised) {
            *x = F::power(*x as u64) as u32;
        }
        let before = *state;
        for (i, x) in state.iter_mut().enumerate() {
            *x = row::<F>(&tables.inverses[i..i + 24], &before);
        }
    }
}

// Four products at a time, their halves summed apart, one remainder at the end.
fn row<F: Field>(row: &[u32], state: &[u32; 24]) -> u32 {
    let row: &[u32; 24] = row.try_into().unwrap();
    let (mut low, mut high) = (0u64, 0u64);
    for j in (0..24).step_by(4) {
        let four = row[j] as u64 * state[j] as u64
            + row[j + 1] as u64 * state[j + 1] as u64
            + row[j + 2] as u64 * state[j + 2] as u64
            + row[j + 3] as u64 * state[j + 3] as u64;
        low += four & 0xffff_ffff;
        high += four >> 32;
    }
    ((high * ((1 << 32) % F::P) + low) % F::P) as u32
}

type Permutation<'a> = Box<dyn Fn(&mut [u32; 24]) + 'a>;
type Ways<'a> = Vec<(&'static str, Permutation<'a>)>;

// The permutation of this state in BabyBear has 2 for all elements, for which the fast ones have to take P away at their end.
#[rustfmt::skip]
const BEFORE_TWOS: [u32; 24] = [
    999482224, 1774723680, 387834909, 1959513775, 1377283019, 1412773592, 489128824, 1053706013,
    589736630, 669090473, 1667457395, 1450282732, 257389184, 48856097, 1596321025, 1849469361,
    588417038, 1568113902, 709713822, 1735952103, 62686187, 1465449350, 806016576, 1942862187,
];

// Stops unless all give what the first gives: on that state, zeros, the largest elements, and random ones.
fn check<F: Field>(ways: &Ways) {
    let mut random = 88172645463325252u64;
    let random_states = (0..300).map(|_| {
        [(); 24].map(|()| {
            random ^= random << 13;
            random ^= random >> 7;
            random ^= random << 17;
            ((random >> 16) % F::P) as u32
        })
    });
    for state in [BEFORE_TWOS, [0; 24], [F::P as u32 - 1; 24]].into_iter().chain(random_states) {
        let mut plain = state;
        ways[0].1(&mut plain);
        for (name, permute) in &ways[1..] {
            let mut other = state;
            permute(&mut other);
            assert_eq!(plain, other, "{name} of {state:?}");
        }
    }
}

// Each goes on from its own last state; in the end all must be in the same.
fn time<F: Field>(ways: &Ways) {
    check::<F>(ways);
    let mut states = vec![[7; 24]; ways.len()];
    let timed = ways.iter().zip(&mut states);
    let timed = timed.map(|((name, permute), state)| Way::new(name, || permute(black_box(state))));
    compare(&format!("one permutation, {}", F::NAME), 200, timed.collect());
    assert!(states.iter().all(|state| *state == states[0]));
}

fn in_rust<F: Field>(tables: &Tables) -> Ways<'_> {
    let plain: Permutation = Box::new(|state| assert_eq!(independent::permute(F::NUMBER, state), 0));
    let one_remainder: Permutation = Box::new(|state| permute::<F>(tables, state));
    vec![
        ("independent Rust, % for every operation", plain),
        ("Rust, one % for a row", one_remainder),
    ]
}

fn fast(tables: &FastTables) -> Ways<'_> {
    let sse2: Permutation = Box::new(|state| fast_permutation::permute(tables, state));
    let mut ways = vec![("fast Rust, SSE2", sse2)];
    if let Some(permute) = fast_permutation::avx2() {
        let avx2: Permutation = Box::new(move |state| permute(tables, state));
        ways.push(("fast Rust, AVX2", avx2));
    }
    ways
}

fn by_library<F: Field>(library: &'static Library) -> (&'static str, Permutation<'static>) {
    // SAFETY: the state is lent for the call.
    let permute: Permutation = Box::new(|state| assert_eq!(unsafe { (library.tuilarder_permute)(F::NUMBER, state) }, 0));
    (library.name, permute)
}

#[cfg(not(before_version_1))]
fn by_libraries<F: Field>() -> Ways<'static> {
    Library::all().iter().map(by_library::<F>).collect()
}

#[cfg(before_version_1)]
fn by_libraries<F: Field>() -> Ways<'static> {
    version_1::check_layout();
    let before: Permutation = Box::new(version_1::permute);
    let before = (F::NUMBER == BabyBear::NUMBER).then_some(("library before", before));
    before.into_iter().chain([by_library::<F>(&Library::NOW)]).collect()
}

fn main() {
    let tables = Tables::of::<BabyBear>();
    let fast_tables = FastTables::new(&tables.constants, &tables.inverses);
    let mut ways = in_rust::<BabyBear>(&tables);
    ways.extend(fast(&fast_tables));
    ways.extend(by_libraries::<BabyBear>());
    time::<BabyBear>(&ways);

    let tables = Tables::of::<KoalaBear>();
    let mut ways = in_rust::<KoalaBear>(&tables);
    ways.extend(by_libraries::<KoalaBear>());
    time::<KoalaBear>(&ways);
}
