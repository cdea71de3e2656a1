// The permutation of BabyBear, as fast as we could make it on one thread of an x86-64: with SSE2, which they all have, and with AVX2.
//
// Full rounds: each element has a 64-bit lane. Sums of products are folded only when the next product might not fit.
// Reductions leave a known factor and addend in each element, and the tables take them out.
//
// Partial rounds: only element 0 is raised to a power, so the state after all 21 is linear in the powers of the full
// round before them and in their own 21 powers. Let u[k] be element 0 in partial round k as it would be if the partial
// rounds before had powers of 0. Then element 0 is u[k] and a sum over those powers. All of u comes from one matrix, in
// place of that of the full round before; no partial round has a matrix.
use std::arch::x86_64::*;

#[path = "fast_tables.rs"]
mod fast_tables;

const P: u64 = 2013265921;
const MASK: u64 = (1 << 27) - 1;
const INVERSE: u64 = 0x383f_ffff_8800_0001;
const MINUS_INVERSE_32: u64 = 0x77ff_ffff;
const _: () = assert!(P.wrapping_mul(INVERSE) == 1 && (P * MINUS_INVERSE_32 + 1) as u32 == 0);

// The most that two folds give, and more than any power of a partial round: four products of one, and a fold, fit.
const TOP: u64 = P + 1022;
const POWER_TOP: u64 = P + P / 10;
const _: () = assert!(4 * P as u128 * POWER_TOP as u128 + (1 << 38) < 1 << 64);

// The factors of all elements in full rounds, and of element 0 in the first partial round. They come from a search: with
// them, sums of 12 products in full rounds, and of 6 in the two other tables, stay below 2^64. `table` checks it.
const FACTOR: u64 = 228317355;
const FIRST_FACTOR: u64 = 97391;

#[derive(Clone, Copy)]
#[repr(align(64))]
struct Lanes([u64; 24]);

// Matrices are kept by columns, each with the start of its sums.
pub struct FastTables {
    entry: (u64, Lanes),
    full: [Lanes; 24],
    full_starts: [Lanes; 7],
    to_u: ([Lanes; 24], Lanes),
    near: [i64; 21],
    far: [Lanes; 21],
    to_state: ([Lanes; 45], Lanes),
    exit: (u64, u64),
}

// Vectors of lanes. Products are those of the low halves of lanes. `fold` is the function of that name, for each lane.
trait Vector: Copy {
    fn low_halves(x: u64) -> Self;
    fn add(self, other: Self) -> Self;
    fn mul(self, other: Self) -> Self;
    fn fold(self) -> Self;
    fn divide_32(self) -> Self;
}

macro_rules! vector {
    ($vector:ty: $halves:ident $all:ident $add:ident $mul:ident $not_and:ident $shift:ident) => {
        impl Vector for $vector {
            #[inline(always)]
            fn low_halves(x: u64) -> Self {
                unsafe { $halves(x as i32) }
            }
            #[inline(always)]
            fn add(self, other: Self) -> Self {
                unsafe { $add(self, other) }
            }
            #[inline(always)]
            fn mul(self, other: Self) -> Self {
                unsafe { $mul(self, other) }
            }
            #[inline(always)]
            fn fold(self) -> Self {
                let low = unsafe { $not_and(self, $all(MASK as i64)) };
                unsafe { $add($shift::<27>(self), $mul(low, $all(15))) }
            }
            // x / 2^32, and at most P above the whole part of that: the multiple of P that is added clears the low half.
            #[inline(always)]
            fn divide_32(self) -> Self {
                let times = unsafe { $mul(self, $all(MINUS_INVERSE_32 as i64)) };
                unsafe { $shift::<32>($add(self, $mul(times, $all(P as i64)))) }
            }
        }
    };
}
vector!(__m128i: _mm_set1_epi32 _mm_set1_epi64x _mm_add_epi64 _mm_mul_epu32 _mm_andnot_si128 _mm_srli_epi64);
vector!(__m256i: _mm256_set1_epi32 _mm256_set1_epi64x _mm256_add_epi64 _mm256_mul_epu32 _mm256_andnot_si256 _mm256_srli_epi64);

// Lanes seen as vectors: both are the same 192 bytes, and lanes are aligned for every vector.
#[inline(always)]
fn vectors<V: Vector, const N: usize>(lanes: &Lanes) -> &[V; N] {
    const { assert!(size_of::<[V; N]>() == size_of::<Lanes>()) };
    unsafe { &*(lanes as *const Lanes).cast() }
}

// The same, to write in them.
#[inline(always)]
fn vectors_mut<V: Vector, const N: usize>(lanes: &mut Lanes) -> &mut [V; N] {
    const { assert!(size_of::<[V; N]>() == size_of::<Lanes>()) };
    unsafe { &mut *(lanes as *mut Lanes).cast() }
}

// x / 2^27 - 16, as 15 * 2^27 is -1. For any x it is less than 2^37 + P, and for such a number at most TOP.
fn fold(x: u64) -> u64 {
    (x >> 27) + 15 * (!x & MASK)
}

// x / 2^64: the multiple of P that is taken away clears the low half.
#[inline(always)]
fn divide_64(x: i128) -> i64 {
    let multiple = (x as u64).wrapping_mul(INVERSE) as u128 * P as u128;
    (x >> 64) as i64 - (multiple >> 64) as i64
}

// Folds every sum, so that more products fit.
#[inline(always)]
fn fold_all<V: Vector, const N: usize>(sums: &mut [V; N]) {
    for sum in sums {
        *sum = sum.fold();
    }
}

// Adds x times a column; `table` has checked that the sums fit.
#[inline(always)]
fn add_column<V: Vector, const N: usize>(sums: &mut [V; N], column: &Lanes, x: u64) {
    for (sum, entry) in sums.iter_mut().zip(vectors::<V, N>(column)) {
        *sum = sum.add(entry.mul(V::low_halves(x)));
    }
}

// The seventh powers, divided by 2^214 and folded twice. In parts of 2^32, x is at most 0.47, so x^2 0.69, x^3 0.80 and
// x^4 0.95: no product, and no sum in `divide_32`, reaches 2^64.
#[inline(always)]
fn raise<V: Vector, const N: usize>(state: &mut Lanes) {
    for x in vectors_mut::<V, N>(state) {
        let square = x.mul(*x).divide_32();
        let cube = square.mul(*x).divide_32();
        let fourth = square.mul(square).divide_32();
        *x = cube.mul(fourth).fold().fold();
    }
}

// Multiplies by a matrix and adds constants. A fold comes after each group of columns, and one more at the end.
#[inline(always)]
fn multiply<V: Vector, const N: usize>(columns: &[Lanes; 24], start: &Lanes, group: usize, state: &Lanes) -> [V; N] {
    let mut sums = *vectors(start);
    for first in (0..24).step_by(group) {
        for j in first..first + group {
            add_column(&mut sums, &columns[j], state.0[j]);
        }
        fold_all(&mut sums);
    }
    fold_all(&mut sums);
    sums
}

// The partial rounds, from the powers of the full round before. The head is element 0. It is between -1.1 P and 1.1 P, so
// its square is below 2^63 and its power between -1.1 P and 0.1 P. Lane k of `waiting` is u[k] and the sum over powers of
// three rounds before k and earlier; `sums` become the state. Both get a power one round late, to let the next head go on.
#[inline(always)]
fn partial<V: Vector, const N: usize>(tables: &FastTables, powers: &Lanes) -> [V; N] {
    let mut waiting = Lanes([0; 24]);
    *vectors_mut::<V, N>(&mut waiting) = multiply(&tables.to_u.0, &tables.to_u.1, 6, powers);
    let (columns, start) = &tables.to_state;
    let mut sums = *vectors(start);
    for j in [0, 21, 22, 23] {
        add_column(&mut sums, &columns[j], powers.0[j]);
    }
    let (mut head, mut power, mut late) = (waiting.0[0] as i64, 0, 0);
    for k in 0..21 {
        let older = divide_64(tables.near[k] as i128 * power as i128 + waiting.0[k + 1] as i128) + P as i64;
        let square = (head * head) as i128;
        let cube = divide_64(square * head as i128) as i128;
        power = divide_64(cube * divide_64(square * square) as i128);
        head = power + older;
        if k > 0 {
            let waiting = vectors_mut::<V, N>(&mut waiting);
            add_column(waiting, &tables.far[k - 1], late);
            if k % 4 == 3 {
                fold_all(waiting);
            }
            add_column(&mut sums, &columns[k], powers.0[k]);
            add_column(&mut sums, &columns[23 + k], late);
            if k % 3 == 1 {
                fold_all(&mut sums);
            }
        }
        late = (power + if power < -(P as i64) { 2 * P as i64 } else { P as i64 }) as u64;
    }
    add_column(&mut sums, &columns[44], late);
    fold_all(&mut sums);
    fold_all(&mut sums);
    sums
}

// The whole permutation. Elements get their factor first, and lose it in the end, when at most one P is left to take away.
#[inline(always)]
fn permutation<V: Vector, const N: usize>(tables: &FastTables, elements: &mut [u32; 24]) {
    let mut state = Lanes(elements.map(u64::from));
    let starts: &[V; N] = vectors(&tables.entry.1);
    for (x, start) in vectors_mut::<V, N>(&mut state).iter_mut().zip(starts) {
        *x = x.mul(V::low_halves(tables.entry.0)).add(*start).fold().fold();
    }
    for start in &tables.full_starts[..3] {
        raise::<V, N>(&mut state);
        *vectors_mut::<V, N>(&mut state) = multiply(&tables.full, start, 12, &state);
    }
    raise::<V, N>(&mut state);
    *vectors_mut::<V, N>(&mut state) = partial(tables, &state);
    for start in &tables.full_starts[3..] {
        raise::<V, N>(&mut state);
        *vectors_mut::<V, N>(&mut state) = multiply(&tables.full, start, 12, &state);
    }
    for (element, x) in elements.iter_mut().zip(&state.0) {
        let x = fold(fold(x * tables.exit.0 + tables.exit.1)) as u32;
        *element = x.min(x.wrapping_sub(P as u32));
    }
}

pub type Permute = fn(&FastTables, &mut [u32; 24]);

// With SSE2.
pub fn permute(tables: &FastTables, state: &mut [u32; 24]) {
    permutation::<__m128i, 12>(tables, state)
}

// With AVX2, if the processor has it.
pub fn avx2() -> Option<Permute> {
    #[target_feature(enable = "avx2")]
    fn permute(tables: &FastTables, state: &mut [u32; 24]) {
        permutation::<__m256i, 6>(tables, state)
    }
    is_x86_feature_detected!("avx2").then_some(|tables, state| unsafe { permute(tables, state) })
}
