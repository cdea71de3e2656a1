//! The hash of five elements (SAFE, Algorithm 3). It is eight elements long: one has 31 bits only.

mod opening;

use tuilarder::{Call::*, Refusal};

fn hash(message: &[u32; 5]) -> Result<[u32; 8], Refusal> {
    let mut session = opening::open(&[Absorb(5), Squeeze(8)], b"hash5")?;
    session.absorb(message)?;
    let hash = session.challenge()?;
    session.finish()?;
    Ok(hash)
}

fn main() -> Result<(), Refusal> {
    println!("{:?}", hash(&[1, 2, 3, 4, 5])?);
    println!("{:?}", hash(&[1, 2, 3, 4, 6])?);
    Ok(())
}
