//! A commitment to three values of two elements each (SAFE, Algorithm 5).

mod opening;

use tuilarder::{Call, Call::*, Refusal};

fn commit(calls: &[Call], separator: &[u8], values: &[&[u32]]) -> Result<[u32; 8], Refusal> {
    let mut session = opening::open(calls, separator)?;
    for value in values {
        session.absorb(value)?;
    }
    let commitment = session.challenge()?;
    session.finish()?;
    Ok(commitment)
}

fn main() -> Result<(), Refusal> {
    let three_pairs = [Absorb(2), Absorb(2), Absorb(2), Squeeze(8)];
    println!("{:?}", commit(&three_pairs, b"3 pairs", &[&[1, 2], &[3, 4], &[5, 6]])?);
    // The same elements as two values of three: only the separator tells the two commitments apart.
    let two_triples = [Absorb(3), Absorb(3), Squeeze(8)];
    println!("{:?}", commit(&two_triples, b"2 trios", &[&[1, 2, 3], &[4, 5, 6]])?);
    Ok(())
}
