// The tables of the fast permutation, from the constants and inverses of the plain one.
use super::{fold, FastTables, Lanes, FACTOR, FIRST_FACTOR, P, POWER_TOP, TOP};
use std::array::from_fn;

type Matrix = Vec<Vec<u64>>;
type Table<const C: usize> = ([Lanes; C], Lanes);

fn mul(factors: &[u64]) -> u64 {
    factors.iter().fold(1, |product, factor| product * (factor % P) % P)
}

fn power(base: u64, exponent: u64) -> u64 {
    let bits = (0..exponent.ilog2()).rev().map(|bit| exponent >> bit & 1);
    bits.fold(base, |x, bit| mul(&[x, x, [1, base][bit as usize]]))
}

fn inverse(x: u64) -> u64 {
    assert!(x % P != 0);
    power(x, P - 2)
}

// What so many folds divide by.
fn unfold(count: usize) -> u64 {
    (0..count).fold(1, |x, _| mul(&[x, 1 << 27]))
}

// What they make of 0.
fn folded_zero(count: usize) -> u64 {
    (0..count).fold(0, |x, _| fold(x)) % P
}

// What they make x of.
fn before_folds(count: usize, x: u64) -> u64 {
    mul(&[x + P - folded_zero(count), unfold(count)])
}

// What takes away the factor of a power of a full round. Its addend is what two folds make of 0.
fn unpower() -> u64 {
    mul(&[power(2, 214), inverse(power(FACTOR, 7))])
}

// The columns of a matrix, and the start with which they give `wanted` for `inputs`. Column j comes after group(j) folds,
// and two come after the last. It checks that no sum reaches 2^64 while no input is above the limit.
fn table<const C: usize>(
    entry: impl Fn(usize, usize) -> u64,
    group: impl Fn(usize) -> usize,
    limit: u64,
    inputs: [u64; C],
    wanted: impl Fn(usize) -> u64,
) -> Table<C> {
    let count = (0..C).map(&group).max().unwrap() + 2;
    let columns: [Lanes; C] = from_fn(|j| Lanes(from_fn(|i| mul(&[entry(i, j), unfold(count - group(j))]))));
    for (i, g) in (0..24).flat_map(|i| (0..count).map(move |g| (i, g))) {
        let sum: u64 = (0..C).filter(|j| group(*j) == g).map(|j| columns[j].0[i]).sum();
        assert!(sum as u128 * limit as u128 + (1 << 38) < 1 << 64);
    }
    let given = |i: usize| (0..C).map(|j| mul(&[entry(i, j), inputs[j]])).sum::<u64>() % P;
    let start = from_fn(|i| before_folds(count, wanted(i) + P - given(i)));
    (columns, Lanes(start))
}

// The partial rounds. But for its constants and power, such a round puts 0 in place of element 0 and multiplies by the
// matrix. So `spread[k]` is what a power adds to the state k + 1 rounds later. As the matrix is symmetric, it is also the
// row that gives u[k] from the powers of the full round before. From those, `columns` give the state after all rounds.
struct Partial {
    spread: Matrix,
    columns: Matrix,
    u_constants: Vec<u64>,
    constants: Vec<u64>,
    // The factors of element 0, and of its power, which goes into the next element 0 as it is.
    heads: Vec<u64>,
    powers: Vec<u64>,
}

impl Partial {
    fn new(matrix: &Matrix, constants: &[u32]) -> Partial {
        let dot = |row: &[u64], state: &[u64]| row.iter().zip(state).map(|(a, b)| mul(&[*a, *b])).sum::<u64>() % P;
        let round = |state: &Vec<u64>| -> Vec<u64> { matrix.iter().map(|row| dot(&row[1..], &state[1..])).collect() };
        let mut partial = Partial {
            spread: vec![matrix[0].clone()],
            columns: matrix.clone(),
            u_constants: Vec::new(),
            constants: vec![0; 24],
            heads: vec![FIRST_FACTOR],
            powers: Vec::new(),
        };
        for k in 0..21 {
            partial.spread.push(round(&partial.spread[k]));
            partial.columns = partial.columns.iter().map(round).collect();
            let constants = partial.constants.iter().zip(&constants[24 * k..]);
            let state: Vec<u64> = constants.map(|(x, c)| x + *c as u64).collect();
            partial.u_constants.push(state[0]);
            partial.constants = round(&state);
            let power = mul(&[power(partial.heads[k], 7), inverse(power(2, 192))]);
            partial.powers.push(power);
            partial.heads.push(mul(&[power, inverse(matrix[0][0])]));
        }
        partial
    }

    // The factor that lane k has when it goes into element 0, and the folds that it goes through before.
    fn lane(&self, k: usize) -> (u64, usize) {
        match k {
            0 => (self.heads[0], 0),
            _ => (mul(&[self.heads[k], power(2, 64)]), (k - 1) / 4),
        }
    }

    // From the powers of the full round before to u, in lanes; the last three lanes are unused.
    fn to_u(&self) -> Table<24> {
        let entry = |k: usize, j: usize| match k {
            0..21 => mul(&[self.spread[k][j], unpower(), self.lane(k).0, unfold(self.lane(k).1)]),
            _ => 0,
        };
        let wanted = |k: usize| match k {
            0..21 => before_folds(self.lane(k).1, mul(&[self.u_constants[k], self.lane(k).0])),
            _ => 0,
        };
        table(entry, |j| j / 6, TOP, [folded_zero(2); 24], wanted)
    }

    // What the power of round k is multiplied by to go into a later element 0.
    fn share(&self, k: usize, later: usize) -> u64 {
        let entry = self.spread[later - k - 1][0];
        mul(&[entry, inverse(self.powers[k]), self.lane(later).0])
    }

    // The share of the power of the round before round k in the element 0 of the round after it.
    fn near(&self, k: usize) -> i64 {
        match k {
            1..20 => self.share(k - 1, k + 1) as i64,
            _ => 0,
        }
    }

    // The shares in all later elements 0 of the power of round k, which is added in round k + 1.
    fn far(&self, k: usize) -> Lanes {
        let far = |i: usize| mul(&[self.share(k, i), unfold(self.lane(i).1 - (k + 1) / 4)]);
        Lanes(from_fn(|i| if (k + 3..21).contains(&i) { far(i) } else { 0 }))
    }

    // From the powers of the full round before, and those of the partial rounds, to the state with the next constants.
    fn to_state(&self, constants: &[u32]) -> Table<45> {
        let entry = |i: usize, j: usize| match j {
            0..24 => mul(&[self.columns[j][i], unpower(), FACTOR]),
            _ => mul(&[self.spread[44 - j][i], inverse(self.powers[j - 24]), FACTOR]),
        };
        let group = |j: usize| match j {
            0..21 => (j + 1) / 3,
            21..24 => 0,
            _ => (j - 22) / 3,
        };
        let inputs = from_fn(|j| if j < 24 { folded_zero(2) } else { 0 });
        let wanted = |i: usize| mul(&[self.constants[i] + constants[i] as u64, FACTOR]);
        table(entry, group, POWER_TOP, inputs, wanted)
    }
}

impl FastTables {
    // From the 696 constants and the 47 inverses that make up the matrix.
    pub fn new(constants: &[u32], inverses: &[u32]) -> FastTables {
        let row = |i: usize| inverses[i..i + 24].iter().map(|x| *x as u64).collect();
        let matrix: Matrix = (0..24).map(row).collect();
        let constant = |round: usize, i: usize| constants.get(24 * round + i).map_or(0, |c| mul(&[*c as u64, FACTOR]));
        let entry = |i: usize, j: usize| mul(&[matrix[i][j], unpower(), FACTOR]);
        let full = |round| table(entry, |j| j / 12, TOP, [folded_zero(2); 24], |i| constant(round, i));
        let partial = Partial::new(&matrix, &constants[4 * 24..]);
        let start = Lanes(from_fn(|i| before_folds(2, constant(0, i))));
        FastTables {
            entry: (mul(&[FACTOR, unfold(2)]), start),
            full: full(1).0,
            full_starts: [1, 2, 3, 26, 27, 28, 29].map(|round| full(round).1),
            to_u: partial.to_u(),
            near: from_fn(|k| partial.near(k)),
            far: from_fn(|k| partial.far(k)),
            to_state: partial.to_state(&constants[25 * 24..]),
            exit: (mul(&[inverse(FACTOR), unfold(2)]), before_folds(2, 0)),
        }
    }
}
