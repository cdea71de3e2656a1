//! Two protocols whose separators have unequal length: one tag string in form 1 (sample B2), and two in form 2.

mod opening;

use tuilarder::{Call, Call::*, Form, Refusal};

fn challenge(form: Form, calls: &[Call], separator: &[u8]) -> Result<u32, Refusal> {
    let mut session = opening::open_with_form(form, calls, separator)?;
    session.absorb(&[5])?;
    let [challenge] = session.challenge()?;
    Ok(challenge)
}

fn main() -> Result<(), Refusal> {
    for form in [Form::One, Form::Two] {
        let first = challenge(form, &[Absorb(1), Squeeze(1)], &[0x80, 0, 0, 2, 0, 0, 0, 2])?;
        let second = challenge(form, &[Absorb(1), Squeeze(1), Absorb(2), Squeeze(2)], &[])?;
        println!("form {}: challenges {first} and {second}", form.number());
    }
    Ok(())
}
