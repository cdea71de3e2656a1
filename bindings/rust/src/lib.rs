//! The challenge sponge that turns a protocol's messages into challenges: SAFE sessions over the field BabyBear (p = 2013265921) or
//! KoalaBear (p = 2130706433), with the Poseidon permutation and SHA3-256.
//!
//! The work is done by a static library in Rattle, whose every function is proved to do what its specification, documents 01 and 02, says, on
//! every input. This crate declares its functions ([`ffi`]) and puts types over them. It checks no rule of its own.
//!
//! # Separators
//!
//! **Every protocol of a verifier needs a separator of its own, and all of them one [`Form`]: form 2, or form 1 with separators of one length.** Then, as
//! is proved, no two of them share a tag string. Sessions of one tag string and field get the same challenges for the same messages, so a proof made
//! for one protocol passes in the other.
//!
//! With one separator, two protocols share it where their merged patterns are equal: calls of 3 and 3 elements merge to one of 6. In form 1 a tag string
//! is the merged pattern's words in bytes with the separator behind them, and says nowhere where the separator begins: with separators of unequal
//! length, other patterns can share it too. In form 2 the separator's length stands behind that, and lengths are free.
//!
//! - [`Protocol::with_form`] with [`Form::Two`] opens sessions of form 2. Take it for a suite whose separators differ in length, or may once do.
//! - [`Protocol::new`] opens sessions of form 1, for protocols whose separators all have one length.
//!
//! Between the forms nothing is said, since a tag string does not say its form: a separator of form 1 that ends with four bytes for its length can make
//! the string of a protocol of form 2. It does not say the field either, and what sessions of two fields squeeze is compared by no theorem: so their
//! separators have to differ too.
//!
//! Where a house hands out separators to its product lines, [`Owners`] is the table of which line has which.
//!
//! A note that is sealed by [`Seal`] is a session too, of form 1 always: its separator is one of the verifier's, and no other protocol has it.
//!
//! # A protocol of two rounds
//!
//! The prover commits to four elements and gets a challenge, answers with two elements and gets another. Both sides open a session of the
//! same protocol and absorb the same messages, so both derive the same challenges.
//!
//! ```
//! use tuilarder::{Call, Field, Form, Pattern, Protocol, Refusal};
//!
//! fn challenges(commitment: [u32; 4], response: [u32; 2]) -> Result<[u32; 2], Refusal> {
//!     let pattern = Pattern::new(&[Call::Absorb(4), Call::Squeeze(1), Call::Absorb(2), Call::Squeeze(1)])?;
//!     let mut session = Protocol::with_form(Field::BabyBear, Form::Two, &pattern, b"two rounds")?.start();
//!     session.absorb(&commitment)?;
//!     let [first] = session.challenge()?;
//!     session.absorb(&response)?;
//!     let [second] = session.challenge()?;
//!     session.finish()?;
//!     Ok([first, second])
//! }
//!
//! let by_prover = challenges([11, 22, 33, 44], [55, 66])?;
//! let by_verifier = challenges([11, 22, 33, 44], [55, 66])?;
//! assert_eq!(by_prover, by_verifier);
//!
//! // Here another response changes the second challenge alone.
//! let other = challenges([11, 22, 33, 44], [55, 67])?;
//! assert_eq!(other[0], by_prover[0]);
//! assert_ne!(other[1], by_prover[1]);
//! # Ok::<(), Refusal>(())
//! ```
//!
//! # Building
//!
//! The build script runs `bindings/staticlib` at the top of the checkout that this crate is part of, which proves the library and takes
//! some minutes; it needs the Rattle kit's `rt` on the path. With `TUILARDER_ARCHIVE_DIR` set to the directory of a `libtuilarder.a`,
//! it links that and runs nothing; an archive of another version is turned away, and an empty variable is as one that is not set. The library
//! is for x86-64 Linux only. It needs `memcpy` and `memset`, which a program without `std` has to bring.
//!
//! # Limits
//!
//! The time that a call takes depends on its inputs. It takes up to 32 KB of stack, as measured; `bindings/c/tuilarder.h` has the figure of each
//! function, and no proof bounds them. No strength against attack is claimed.

#![no_std]

pub mod ffi;
mod field;
mod form;
mod owners;
mod pattern;
mod protocol;
mod refusal;
mod seal;
mod session;

pub use field::Field;
pub use form::Form;
pub use owners::{Owners, OwnersFault};
pub use pattern::{Call, Pattern};
pub use protocol::Protocol;
pub use refusal::Refusal;
pub use seal::Seal;
pub use session::Session;

/// The state's outer elements, which are absorbed into and squeezed from.
pub const RATE: usize = 8;

/// The state's inner elements.
pub const CAPACITY: usize = 16;

/// All elements of the state.
pub const WIDTH: usize = RATE + CAPACITY;

/// The most round constants that a field has: KoalaBear's.
pub const MAX_ROUND_CONSTANTS: usize = 744;

/// One Poseidon permutation of a field in place.
///
/// # Errors
///
/// [`Refusal::ElementNotReduced`] (10), with the state as it was, where an element is the field's prime or more.
pub fn permute(field: Field, state: &mut [u32; WIDTH]) -> Result<(), Refusal> {
    // SAFETY: the state is lent for the call.
    refusal::result(unsafe { ffi::tuilarder_permute(field.number(), state) })
}

/// Writes the round constants of a field's permutation, made anew by Poseidon's generator, to the start of the buffer with zeros behind them, and
/// gives the part that they are: 696 of BabyBear, 744 of KoalaBear. Nothing else here needs them.
pub fn round_constants(field: Field, buffer: &mut [u32; MAX_ROUND_CONSTANTS]) -> &[u32] {
    let mut count = 0;
    // SAFETY: the buffer is lent for the call, and the count is this function's own.
    let number = unsafe { ffi::tuilarder_generate(field.number(), buffer, &mut count) };
    refusal::result(number).expect("a field has a known number");
    &buffer[..count]
}

/// The SHA3-256 digest of a string of bytes.
pub fn sha3_256(data: &[u8]) -> [u8; 32] {
    let mut digest = [0; 32];
    // SAFETY: the slice is valid for its length, and the digest is this function's own.
    unsafe { ffi::tuilarder_sha3_256(data.as_ptr(), data.len(), &mut digest) };
    digest
}
