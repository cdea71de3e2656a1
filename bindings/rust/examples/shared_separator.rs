//! Two protocols with one merged pattern and one separator: each accepts what was made for the other.

mod opening;

use tuilarder::{Call::*, Refusal};

fn payment(separator: &[u8], message: &[u32; 4]) -> Result<u32, Refusal> {
    let mut session = opening::open(&[Absorb(4), Squeeze(1)], separator)?;
    session.absorb(message)?;
    let [challenge] = session.challenge()?;
    session.finish()?;
    Ok(challenge)
}

fn refund(separator: &[u8], account: &[u32; 1], amount: &[u32; 3]) -> Result<u32, Refusal> {
    let mut session = opening::open(&[Absorb(1), Absorb(3), Squeeze(1)], separator)?;
    session.absorb(account)?;
    session.absorb(amount)?;
    let [challenge] = session.challenge()?;
    session.finish()?;
    Ok(challenge)
}

fn main() -> Result<(), Refusal> {
    println!("payment {}", payment(b"house", &[5, 6, 7, 8])?);
    println!("refund {}", refund(b"house", &[5], &[6, 7, 8])?);
    println!("payment {}", payment(b"house/p", &[5, 6, 7, 8])?);
    println!("refund {}", refund(b"house/r", &[5], &[6, 7, 8])?);
    Ok(())
}
