//! A block is eight neighbouring absorbed elements of one merged call, counted from its start, the last filled up with zeros.

mod opening;

use tuilarder::{Call::*, Refusal};

fn challenge(message: &[u32]) -> Result<(), Refusal> {
    let mut session = opening::open(&[Absorb(message.len() as u32), Squeeze(1)], b"block")?;
    for element in message {
        session.absorb(&[*element])?;
    }
    print!("{} permutations to absorb {message:?}", session.permutations());
    let [challenge] = session.challenge()?;
    println!(", challenge {challenge}");
    session.finish()
}

fn main() -> Result<(), Refusal> {
    challenge(&[1, 2, 3, 4, 5, 6, 7, 8])?;
    // The same blocks: 1 to 8, and 9 with seven zeros.
    challenge(&[1, 2, 3, 4, 5, 6, 7, 8, 9])?;
    challenge(&[1, 2, 3, 4, 5, 6, 7, 8, 9, 0])
}
