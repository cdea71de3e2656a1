//! Streams of elements (SAFE, Algorithm 8): a cipher that adds the stream of a key and a nonce to its data, and a generator of
//! pseudo-random elements that is seeded twice.

mod opening;

use tuilarder::{Call::*, Field, Refusal};

const PRIME: u32 = Field::BabyBear.prime();

fn stream(key: &[u32; 8], nonce: &[u32; 2]) -> Result<[u32; 5], Refusal> {
    let mut session = opening::open(&[Absorb(8), Absorb(2), Squeeze(5)], b"cipher")?;
    session.absorb(key)?;
    session.absorb(nonce)?;
    let elements = session.challenge()?;
    session.finish()?;
    Ok(elements)
}

fn random_elements(seed: &[u32; 8], reseed: &[u32; 8]) -> Result<([u32; 3], [u32; 2]), Refusal> {
    let mut session = opening::open(&[Absorb(8), Squeeze(3), Absorb(8), Squeeze(2)], b"random")?;
    session.absorb(seed)?;
    let before = session.challenge()?;
    session.absorb(reseed)?;
    let after = session.challenge()?;
    session.finish()?;
    Ok((before, after))
}

fn sum(a: u32, b: u32) -> u32 {
    ((u64::from(a) + u64::from(b)) % u64::from(PRIME)) as u32
}

fn main() -> Result<(), Refusal> {
    let stream = stream(&[1, 2, 3, 4, 5, 6, 7, 8], &[0, 1])?;
    let data = [100, 200, 300, 400, 500];
    let cipher: Vec<u32> = (0..5).map(|i| sum(data[i], stream[i])).collect();
    let plain: Vec<u32> = (0..5).map(|i| sum(cipher[i], PRIME - stream[i])).collect();
    println!("cipher {cipher:?}\nplain {plain:?}");
    let (before, after) = random_elements(&[9; 8], &[10; 8])?;
    println!("random {before:?}, reseeded {after:?}");
    Ok(())
}
