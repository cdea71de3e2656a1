//! What the examples do first.

// Each example uses only a part of it.
#![allow(dead_code)]

use tuilarder::{Call, Field, Form, Pattern, Protocol, Refusal, Session};

/// Opens a session of form 1, and prints its tag string: sessions of one tag string begin with the same state.
pub fn open(calls: &[Call], separator: &[u8]) -> Result<Session, Refusal> {
    open_with_form(Form::One, calls, separator)
}

/// So with a session of either form.
pub fn open_with_form(form: Form, calls: &[Call], separator: &[u8]) -> Result<Session, Refusal> {
    let protocol = Protocol::with_form(Field::BabyBear, form, &Pattern::new(calls)?, separator)?;
    let hexadecimal: String = protocol.tag_string().iter().map(|byte| format!("{byte:02x}")).collect();
    println!("tag string {hexadecimal}");
    Ok(protocol.start())
}
