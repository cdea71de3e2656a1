//! A Sigma protocol of two rounds (SAFE, Algorithm 6). Prover and verifier each derive the challenges from what the prover sends.

mod opening;

use tuilarder::{Call::*, Refusal};

struct Proof {
    first: [u32; 4],
    second: [u32; 2],
    third: [u32; 3],
}

/// The challenge after the first two messages, and the two after the third.
fn challenges(common_input: [u32; 2], proof: &Proof) -> Result<[u32; 3], Refusal> {
    let calls = [
        Absorb(2),
        Absorb(4),
        Absorb(2),
        Squeeze(1),
        Absorb(3),
        Squeeze(1),
        Squeeze(1),
    ];
    let mut session = opening::open(&calls, b"sigma")?;
    session.absorb(&common_input)?;
    session.absorb(&proof.first)?;
    session.absorb(&proof.second)?;
    let [c1] = session.challenge()?;
    session.absorb(&proof.third)?;
    let [c2] = session.challenge()?;
    let [c3] = session.challenge()?;
    session.finish()?;
    Ok([c1, c2, c3])
}

fn main() -> Result<(), Refusal> {
    let mut proof = Proof {
        first: [11, 12, 13, 14],
        second: [21, 22],
        third: [31, 32, 33],
    };
    println!("prover {:?}", challenges([1, 2], &proof)?);
    println!("verifier {:?}", challenges([1, 2], &proof)?);
    proof.third[2] = 34;
    println!("third message changed {:?}", challenges([1, 2], &proof)?);
    Ok(())
}
