//! The same calls in either field.

use tuilarder::{Call::*, Field, Pattern, Protocol, Refusal};

fn run(field: Field, separator: &[u8]) -> Result<(), Refusal> {
    let pattern = Pattern::new(&[Absorb(3), Squeeze(2)])?;
    let protocol = Protocol::new(field, &pattern, separator)?;
    println!("tag string {:02x?}", protocol.tag_string());
    let mut session = protocol.start();
    session.absorb(&[1, 2])?;
    let refusal = session.absorb(&[field.prime()]).unwrap_err();
    println!(
        "{field:?}: {} is refused with {}: {refusal}",
        field.prime(),
        refusal.number()
    );
    session.absorb(&[field.prime() - 1])?;
    let challenges: [u32; 2] = session.challenge()?;
    println!("{} is absorbed, challenges {challenges:?}", field.prime() - 1);
    session.finish()
}

fn main() -> Result<(), Refusal> {
    run(Field::BabyBear, b"field 1")?;
    run(Field::KoalaBear, b"field 2")
}
