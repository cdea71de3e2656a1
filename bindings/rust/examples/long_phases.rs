//! A phase may be longer than a declared call. Calls that follow each other are added together, and a tag string is read as calls again.

use tuilarder::{Call::*, Field, Pattern, Protocol, Refusal};

/// The protocol of a tag string, whose merged words may be longer than a call.
fn protocol_of(string: &[u8], separator_length: usize) -> Result<Protocol, Refusal> {
    let (pattern, separator) = Pattern::read(string, separator_length)?;
    println!("read {pattern:?}");
    Protocol::new(Field::BabyBear, &pattern, separator)
}

/// The first elements that a session squeezes.
fn first_elements(protocol: &Protocol) -> Result<[u32; 2], Refusal> {
    let mut session = protocol.start();
    session.absorb(&[1, 2, 3, 4, 5, 6, 7, 8])?;
    session.challenge()
}

fn main() -> Result<(), Refusal> {
    // Twenty million elements are too many for one call, and not for two.
    let refusal = Pattern::new(&[Absorb(8), Squeeze(20_000_000)]).unwrap_err();
    println!("one call is refused with {}: {refusal}", refusal.number());
    let pattern = Pattern::new(&[Absorb(8), Squeeze(10_000_000), Squeeze(10_000_000)])?;
    let declared = Protocol::new(Field::BabyBear, &pattern, b"long")?;
    println!("tag string {:02x?}", declared.tag_string());

    let again = protocol_of(declared.tag_string(), 4)?;
    println!("tag string {:02x?}", again.tag_string());
    println!("{:?} {:?}", first_elements(&declared)?, first_elements(&again)?);

    // 64 calls do not suffice for 2147483647 elements, so no pattern has this string.
    let refusal = protocol_of(&[0xff, 0xff, 0xff, 0xff, 0, 0, 0, 1], 0).unwrap_err();
    println!("ffffffff 00000001 is refused with {}: {refusal}", refusal.number());
    Ok(())
}
