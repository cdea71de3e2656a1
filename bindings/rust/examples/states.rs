//! A session whose record is printed after each call. docs/session_picture.py draws it.

use tuilarder::{Call::*, Field, Pattern, Protocol, Refusal, Session};

fn print(call: &str, session: &Session) {
    let record = session.record();
    println!(
        "{call}; phase {}, {} done; positions {} {}; permutations {}; state {:?}",
        record.phase, record.done, record.absorb_position, record.squeeze_position, record.permutations, record.state
    );
}

fn main() -> Result<(), Refusal> {
    let pattern = Pattern::new(&[Absorb(10), Squeeze(3), Absorb(2), Squeeze(2)])?;
    let mut session = Protocol::new(Field::BabyBear, &pattern, b"picture")?.start();
    print("START", &session);
    session.absorb(&[1, 2, 3, 4, 5, 6, 7, 8])?;
    print("ABSORB 8", &session);
    session.absorb(&[9, 10])?;
    print("ABSORB 2", &session);
    session.challenge::<3>()?;
    print("SQUEEZE 3", &session);
    session.absorb(&[11, 12])?;
    print("ABSORB 2", &session);
    session.challenge::<2>()?;
    print("SQUEEZE 2", &session);
    session.finish()
}
