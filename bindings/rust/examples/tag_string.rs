//! A tag string is the merged pattern in bytes, then the separator, a byte string naming the protocol; and in form 2 the separator's length.

use tuilarder::{Call::*, Form, Pattern, Refusal};

fn main() -> Result<(), Refusal> {
    let pattern = Pattern::new(&[Absorb(3), Absorb(3), Squeeze(3)])?;
    let mut buffer = [0; Pattern::MAX_TAG_STRING];
    let string = pattern.tag_string(b"AB", &mut buffer)?;
    println!("tag string {string:02x?}");
    // The string does not say where the separator begins, so reading takes the separator's length.
    let (merged, separator) = Pattern::read(string, 2)?;
    println!("read with length 2: {merged:?}, separator {separator:02x?}");
    let refusal = Pattern::read(string, 3).unwrap_err();
    println!("read with length 3: refused with {}: {refusal}", refusal.number());

    // In form 2 the string says it in its last four bytes.
    let string = pattern.tag_string_with_form(Form::Two, b"AB", &mut buffer)?;
    println!("tag string of form 2 {string:02x?}");
    let (merged, separator) = Pattern::read_form_2(string)?;
    println!("read: {merged:?}, separator {separator:02x?}");
    Ok(())
}
