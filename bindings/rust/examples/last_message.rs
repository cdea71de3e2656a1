//! A transcript that ends on a message: its pattern ends with ABSORB, and no SQUEEZE follows.

mod opening;

use tuilarder::{Call::*, Refusal, Session};

/// The prover commits and gets the challenge. The response is still to come.
fn challenged() -> Result<(Session, u32), Refusal> {
    let mut session = opening::open(&[Absorb(4), Squeeze(1), Absorb(2)], b"last")?;
    session.absorb(&[11, 22, 33, 44])?;
    let [challenge] = session.challenge()?;
    Ok((session, challenge))
}

/// The response is the last message: nothing is squeezed after it.
fn run(response: &[u32]) -> Result<u32, Refusal> {
    let (mut session, challenge) = challenged()?;
    session.absorb(response)?;
    session.finish()?;
    Ok(challenge)
}

fn main() -> Result<(), Refusal> {
    for response in [[55, 66], [55, 67]] {
        println!("response {response:?}, challenge {}", run(&response)?);
    }
    let refusal = run(&[55]).unwrap_err();
    println!("response [55] is refused with {}: {refusal}", refusal.number());
    let (mut session, _) = challenged()?;
    session.absorb(&[55, 66])?;
    let refusal = session.challenge::<1>().unwrap_err();
    println!("SQUEEZE after it is refused with {}: {refusal}", refusal.number());

    // Without the response, the pattern and so the tag string is another.
    let mut session = opening::open(&[Absorb(4), Squeeze(1)], b"last")?;
    session.absorb(&[11, 22, 33, 44])?;
    let [challenge] = session.challenge()?;
    session.finish()?;
    println!("no response declared, challenge {challenge}");
    Ok(())
}
