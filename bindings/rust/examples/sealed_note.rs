//! A coin note is sealed and opened (SAFE, Algorithm 7), and two notes are sealed with one nonce, as must not be.

mod opening;

use tuilarder::{Call::*, Field, Refusal, Seal};

const PRIME: u32 = Field::BabyBear.prime();

/// Three elements are the coin's, and two are a message to its owner.
type Note = [u32; 5];
type Sealed = [u32; 5 + Seal::MARK_LENGTH];

const SEAL: Seal = Seal {
    field: Field::BabyBear,
    key: &[1, 2, 3, 4, 5, 6, 7, 8],
    nonce: &[0, 0, 0, 0, 0, 0, 0, 1],
    separator: b"coin",
    lengths: &[3, 2],
};

fn sealed(note: &Note) -> Result<Sealed, Refusal> {
    let mut sealed = [0; 5 + Seal::MARK_LENGTH];
    SEAL.seal(note, &mut sealed)?;
    Ok(sealed)
}

fn print_opened(what: &str, sealed: &Sealed) {
    let mut note: Note = [7; 5];
    match SEAL.open(sealed, &mut note) {
        Ok(()) => println!("{what} opens to {note:?}"),
        Err(refusal) => println!(
            "{what} is refused with {}: {refusal}; it gives {note:?}",
            refusal.number()
        ),
    }
}

/// What is seen of two notes by whoever sees their ciphers: the second less the first.
fn print_differences(first: &Note, second: &Note) -> Result<(), Refusal> {
    let (one, other) = (sealed(first)?, sealed(second)?);
    let differences: Vec<u32> = (0..5).map(|i| (other[i] + (PRIME - one[i])) % PRIME).collect();
    println!("{first:?} and {second:?}: ciphers differ by {differences:?}");
    Ok(())
}

fn main() -> Result<(), Refusal> {
    let calls = [Absorb(16), Squeeze(3), Absorb(3), Squeeze(2), Absorb(2), Squeeze(8)];
    drop(opening::open(&calls, SEAL.separator)?);
    let note = [10, 20, 30, 400, 500];
    let mut list = sealed(&note)?;
    println!("cipher {:?}\nmark {:?}", &list[..5], &list[5..]);
    print_opened("the sealed note", &list);
    list[4] = (list[4] + 1) % PRIME;
    print_opened("with an element changed it", &list);

    // one nonce for two notes
    print_differences(&note, &[10, 20, 30, 401, 502])?;
    print_differences(&note, &[11, 20, 30, 400, 500])
}
