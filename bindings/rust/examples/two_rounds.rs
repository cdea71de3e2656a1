//! A protocol of two rounds: the prover commits and gets a challenge, responds and gets another.

use tuilarder::{Call::*, Field, Form, Pattern, Protocol, Refusal};

fn main() -> Result<(), Refusal> {
    let pattern = Pattern::new(&[Absorb(4), Squeeze(1), Absorb(2), Squeeze(1)])?;
    let protocol = Protocol::with_form(Field::BabyBear, Form::Two, &pattern, b"two rounds")?;
    println!("tag string {:02x?}", protocol.tag_string());
    let mut session = protocol.start();
    session.absorb(&[11, 22, 33, 44])?; // the commitment
    let [first] = session.challenge()?;
    session.absorb(&[55, 66])?; // the response
    let [second] = session.challenge()?;
    session.finish()?;
    println!("challenges {first} and {second}");
    Ok(())
}
