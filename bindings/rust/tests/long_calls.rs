//! Calls longer than a pattern may declare, by the crate's types. "Calls are counted against the merged phase, so they
//! may be cut freely inside it": words of 16,777,216 elements merge to a phase that is twice as long, and one call may
//! be all of it.

use std::thread;

use tuilarder::ffi::Record;
use tuilarder::{Call, Field, Form, Pattern, Protocol};

/// "limits one declared call to 16,777,216 elements"
const DECLARED: u32 = 16_777_216;

const PHASE: usize = 2 * DECLARED as usize;

/// The parts of a phase: the first is over what a pattern may declare, and no multiple of the rate.
const PARTS: [usize; 2] = [DECLARED as usize + 1, DECLARED as usize - 1];

/// What a session leaves behind each phase, and what it squeezes.
struct Run {
    absorbed: Record,
    squeezed: Record,
    elements: Vec<u32>,
}

/// A session whose phases are each cut into calls of these lengths.
fn run(elements: &[u32], calls: &[usize]) -> Run {
    let pattern = Pattern::new(&[
        Call::Absorb(DECLARED),
        Call::Absorb(DECLARED),
        Call::Squeeze(DECLARED),
        Call::Squeeze(DECLARED),
    ]);
    let protocol = Protocol::with_form(Field::KoalaBear, Form::One, &pattern.unwrap(), b"long").unwrap();
    let (mut session, mut buffer) = (protocol.start(), vec![0; PHASE]);
    let mut rest = elements;
    for length in calls {
        let (now, later) = rest.split_at(*length);
        session.absorb(now).unwrap();
        rest = later;
    }
    let absorbed = *session.record();
    let mut rest = &mut buffer[..];
    for length in calls {
        let (now, later) = rest.split_at_mut(*length);
        session.squeeze(now).unwrap();
        rest = later;
    }
    let squeezed = *session.record();
    session.finish().unwrap();
    Run {
        absorbed,
        squeezed,
        elements: buffer,
    }
}

/// In one call for each phase, and in two. The sessions run at once, since each takes many seconds.
#[test]
fn types_take_calls_longer_than_a_declared_one() {
    // all unlike each other but for p - 1, which stands in every 1009th place
    let element = |i| {
        if i % 1009 == 0 {
            Field::KoalaBear.prime() - 1
        } else {
            63 * i + 1
        }
    };
    let elements: Vec<u32> = (0..PHASE as u32).map(element).collect();
    let (whole, parts) = thread::scope(|scope| {
        let parts = scope.spawn(|| run(&elements, &PARTS));
        (run(&elements, &[PHASE]), parts.join().unwrap())
    });
    assert_eq!(whole.absorbed, parts.absorbed);
    assert_eq!(whole.squeezed, parts.squeezed);
    // a failure of assert_eq would print all of them
    assert!(whole.elements == parts.elements);
    // "absorb, 0 if d = 0, else ceil(d/8) - 1; squeeze, ceil(d/8)"
    let (phase, absorbed, squeezed) = (PHASE as u64, whole.absorbed, whole.squeezed);
    assert_eq!(
        (absorbed.phase, absorbed.done, absorbed.permutations),
        (1, 0, phase / 8 - 1)
    );
    assert_eq!(
        (squeezed.phase, squeezed.done, squeezed.permutations),
        (2, 0, phase / 4 - 1)
    );
}
