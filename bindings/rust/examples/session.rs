//! A session is one use of the sponge, from START to FINISH.

mod opening;

use tuilarder::{Call::*, Refusal};

fn main() -> Result<(), Refusal> {
    let mut session = opening::open(&[Absorb(3), Squeeze(2)], b"session")?;
    println!("{session:?}");
    session.absorb(&[1, 2])?;
    println!("{session:?}");
    session.absorb(&[3])?;
    println!("{session:?}");
    let challenges: [u32; 2] = session.challenge()?;
    println!("{session:?}");
    println!("challenges {challenges:?}");
    session.finish()?;

    let mut session = opening::open(&[Absorb(3), Squeeze(2)], b"session")?;
    session.absorb(&[1, 2])?;
    let refusal = session.challenge::<2>().unwrap_err();
    println!(
        "SQUEEZE before the third element is refused with {}: {refusal}",
        refusal.number()
    );
    let refusal = session.absorb(&[3]).unwrap_err();
    println!(
        "and the record is wiped: ABSORB is refused with {}: {refusal}",
        refusal.number()
    );
    Ok(())
}
