//! What may be cut, and what may not.

mod opening;

use tuilarder::{Call, Call::*, Refusal, Session};

/// A session whose six elements are declared and absorbed as given.
fn absorbed(calls: &[Call], pieces: &[&[u32]]) -> Result<Session, Refusal> {
    let mut session = opening::open(calls, b"cut")?;
    for piece in pieces {
        session.absorb(piece)?;
    }
    Ok(session)
}

fn main() -> Result<(), Refusal> {
    // Neighbours of one kind are added together, in patterns and in calls.
    let mut whole = absorbed(&[Absorb(6), Squeeze(2)], &[&[1, 2, 3, 4, 5, 6]])?;
    println!("{:?}", whole.challenge::<2>()?);
    let mut cut = absorbed(&[Absorb(3), Absorb(3), Squeeze(2)], &[&[1, 2], &[], &[3, 4, 5, 6]])?;
    println!("{:?} {:?}", cut.challenge::<1>()?, cut.challenge::<1>()?);

    // A SQUEEZE between two ABSORB makes another pattern.
    let mut other = absorbed(&[Absorb(3), Squeeze(1), Absorb(3), Squeeze(1)], &[&[1, 2, 3]])?;
    println!("{:?}", other.challenge::<1>()?);

    // No call reaches past its phase.
    let refusal = absorbed(&[Absorb(6), Squeeze(2)], &[&[1, 2, 3, 4], &[5, 6, 7]]).unwrap_err();
    println!(
        "a call past the sixth element is refused with {}: {refusal}",
        refusal.number()
    );
    Ok(())
}
