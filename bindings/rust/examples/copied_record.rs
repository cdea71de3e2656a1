//! A copied record is a fork. Each copy goes on by itself, and FINISH wipes one of them only.

mod opening;

use tuilarder::{Call::*, Refusal};

fn main() -> Result<(), Refusal> {
    let mut original = opening::open(&[Absorb(2), Squeeze(1), Absorb(1), Squeeze(1)], b"fork")?;
    original.absorb(&[1, 2])?;
    let mut copy = original.fork();
    println!(
        "first challenges {:?} {:?}",
        original.challenge::<1>()?,
        copy.challenge::<1>()?
    );
    original.absorb(&[3])?;
    copy.absorb(&[4])?;
    println!(
        "second challenges {:?} {:?}",
        original.challenge::<1>()?,
        copy.challenge::<1>()?
    );
    original.finish()?;
    println!("after the original's FINISH: {copy:?}");
    Ok(())
}
