//! An element is a whole number below the prime of its field.

mod opening;

use tuilarder::{Call::*, Field, Refusal};

const PRIME: u32 = Field::BabyBear.prime();

fn main() -> Result<(), Refusal> {
    let mut session = opening::open(&[Absorb(2), Squeeze(1)], b"element")?;
    session.absorb(&[PRIME - 1])?;
    println!("{} is absorbed", PRIME - 1);
    let refusal = session.absorb(&[PRIME]).unwrap_err();
    println!("{PRIME} is refused with {}: {refusal}", refusal.number());
    // The refused call took nothing in, so the session still waits for its second element.
    session.absorb(&[7])?;
    let [challenge] = session.challenge()?;
    println!("challenge {challenge}");
    session.finish()
}
