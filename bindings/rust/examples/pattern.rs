//! A pattern is the list of calls that a protocol declares beforehand; merged, it has neighbours of one kind added together.

use tuilarder::{Call::*, Pattern, Refusal};

fn main() -> Result<(), Refusal> {
    let pattern = Pattern::new(&[Absorb(3), Absorb(3), Squeeze(3)])?;
    println!("declared {:08x?}", pattern.words());
    println!("merged {:08x?}", pattern.merged().words());
    let long = Absorb(Pattern::MAX_CALL + 1);
    for calls in [&[Squeeze(1)][..], &[Absorb(3), Squeeze(0)], &[long, Squeeze(1)]] {
        let refusal = Pattern::new(calls).unwrap_err();
        println!("{calls:?} is refused with {}: {refusal}", refusal.number());
    }
    Ok(())
}
