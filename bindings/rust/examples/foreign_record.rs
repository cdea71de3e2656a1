//! A record that START did not make. A call sees whether it is open and sound; no call can see which separator it was opened with.

mod opening;

use tuilarder::{Call::*, Refusal, Session};

fn main() -> Result<(), Refusal> {
    let ours = opening::open(&[Absorb(2), Squeeze(1)], b"ours")?;

    let mut damaged = *ours.record();
    damaged.absorb_position = 9;
    let refusal = Session::from_record(damaged).absorb(&[1, 2]).unwrap_err();
    println!("absorb position 9 is refused with {}: {refusal}", refusal.number());

    // The same record with no tag in its state is sound.
    let mut untagged = *ours.record();
    untagged.state = [0; 24];
    for record in [*ours.record(), untagged] {
        let mut session = Session::from_record(record);
        session.absorb(&[1, 2])?;
        let [challenge] = session.challenge()?;
        session.finish()?;
        println!("challenge {challenge}");
    }
    Ok(())
}
