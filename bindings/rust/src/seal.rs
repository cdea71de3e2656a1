use core::fmt;

use crate::ffi;
use crate::field::Field;
use crate::refusal::{result, Refusal};

/// What a note is sealed with and opened with: a field, a key, a nonce, a separator and the lengths of the note's blocks. Sealing is encryption
/// that authenticates (Algorithm 7 of the paper on SAFE): it gives a cipher element for each element of the note, and a mark behind them. With the
/// same five, [`Seal::open`] gives the note back. Where the mark is not that of what is opened, it is [`Refusal::MarkDiffers`] (21), the buffer holds
/// zeros, and nothing of the note is handed out.
///
/// ```
/// use tuilarder::{Field, Refusal, Seal};
///
/// let seal = Seal {
///     field: Field::BabyBear,
///     key: &[1, 2, 3, 4, 5, 6, 7, 8],
///     nonce: &[0, 0, 0, 0, 0, 0, 0, 1],
///     separator: b"coin note",
///     // two blocks: the coin, and what the owner writes to it
///     lengths: &[3, 2],
/// };
/// let mut sealed = [0; 5 + Seal::MARK_LENGTH];
/// seal.seal(&[10, 20, 30, 400, 500], &mut sealed)?;
///
/// let mut note = [0; 5];
/// seal.open(&sealed, &mut note)?;
/// assert_eq!(note, [10, 20, 30, 400, 500]);
///
/// // One element is changed: nothing of the note is handed out.
/// sealed[4] ^= 1;
/// assert_eq!(seal.open(&sealed, &mut note), Err(Refusal::MarkDiffers));
/// assert_eq!(note, [0; 5]);
/// # Ok::<(), Refusal>(())
/// ```
///
/// # A nonce serves once
///
/// **Never seal two notes with the same key and nonce.** The elements that are added to a block are squeezed from field, key, nonce, separator,
/// lengths and the plain blocks before it, and from nothing else. Where two notes have these in common, the same elements are added to their first
/// blocks, and to each later block as long as all plain blocks before it are equal. So in every block up to and with the first in which the notes
/// differ, the difference of two cipher elements is the difference of the plain ones, modulo p. Who sees both sealed notes has it without the key,
/// and with one of the notes that much of the other; and sees which two notes are equal, for then their sealed lists are too.
///
/// ```
/// use tuilarder::{Field, Refusal, Seal};
///
/// let seal = Seal { field: Field::BabyBear, key: &[7; 8], nonce: &[1; 8], separator: b"coin note", lengths: &[1, 2] };
/// let (mut first, mut second) = ([0; 3 + Seal::MARK_LENGTH], [0; 3 + Seal::MARK_LENGTH]);
/// seal.seal(&[5, 100, 200], &mut first)?;
/// seal.seal(&[5, 101, 202], &mut second)?;
/// // the first blocks are equal, and so are their ciphers; the second ones differ by 1 and 2
/// assert_eq!(first[0], second[0]);
/// let p = Field::BabyBear.prime();
/// assert_eq!((second[1] + p - first[1]) % p, 1);
/// assert_eq!((second[2] + p - first[2]) % p, 2);
/// # Ok::<(), Refusal>(())
/// ```
///
/// # Separators of one length
///
/// **All separators under one key have one length**, since a note's tag string is of [form 1](crate::Form), whatever form a verifier's protocols
/// have. With lengths 3 and 8 and a separator S a note has the tag string that length 3 has with the separator 8000000800000008 followed by S. Who
/// knows the second block of such a note has, without the key, a note of three elements that opens with that separator.
///
/// Beside protocols of form 2, let a note's separator end with four letters. As a number of four bytes they are above 256, so that the note's tag
/// string is one of form 2 of no protocol.
///
/// How many elements a note has, and in which blocks, is not hidden. No strength against attack is claimed.
///
/// # Not in place
///
/// A note is sealed and opened into another buffer than its own: here the borrow sees to it. Who calls [`ffi::tuilarder_seal`] and
/// [`ffi::tuilarder_open`] has to, since these turn no overlap away, and lose the note.
///
/// ```compile_fail,E0502
/// fn in_place(seal: tuilarder::Seal, note: &mut [u32; 20]) {
///     let _ = seal.seal(&note[..12], &mut note[..20]);
/// }
/// ```
#[derive(Clone, Copy)]
pub struct Seal<'a> {
    /// The field that key, nonce and note are elements of.
    pub field: Field,
    /// The key, which both sides have and nobody else.
    pub key: &'a [u32; Seal::KEY_LENGTH],
    /// The nonce, which need not be secret, and which no other note under this key has.
    pub nonce: &'a [u32; Seal::NONCE_LENGTH],
    /// The separator: see the [crate's page](crate#separators).
    pub separator: &'a [u8],
    /// How many elements each block has: 1 to [`Seal::MAX_BLOCKS`] blocks, of 1 to [`Pattern::MAX_CALL`](crate::Pattern::MAX_CALL) elements.
    pub lengths: &'a [u32],
}

/// The parameters that [`ffi::tuilarder_seal`] and [`ffi::tuilarder_open`] have in common.
type Function = unsafe extern "C" fn(
    u32,
    *const u32,
    usize,
    *const u32,
    usize,
    *const u8,
    usize,
    *const u32,
    usize,
    *const u32,
    usize,
    *mut u32,
    usize,
) -> u32;

impl Seal<'_> {
    /// The elements of a key.
    pub const KEY_LENGTH: usize = 8;

    /// The elements of a nonce.
    pub const NONCE_LENGTH: usize = 8;

    /// The elements of a mark, which stands behind the cipher elements.
    pub const MARK_LENGTH: usize = 8;

    /// The most blocks of a note.
    pub const MAX_BLOCKS: usize = 31;

    /// Seals a note, whose blocks stand one behind the other: fills the buffer with its cipher elements and then the mark. So the buffer has
    /// [`Seal::MARK_LENGTH`] elements more than the note.
    ///
    /// # Errors
    ///
    /// [`Refusal::SeparatorTooLong`] (6), [`Refusal::SealLengthInvalid`] (20), [`Refusal::ElementNotReduced`] (10, of key, nonce and note), the
    /// first that applies, in this order; nothing is written.
    pub fn seal(&self, plain: &[u32], buffer: &mut [u32]) -> Result<(), Refusal> {
        self.call(ffi::tuilarder_seal, plain, buffer)
    }

    /// Opens a note as sealing left it, its cipher elements and the mark: fills the buffer with its blocks. So the buffer has
    /// [`Seal::MARK_LENGTH`] elements less than what is opened.
    ///
    /// # Errors
    ///
    /// [`Refusal::SeparatorTooLong`] (6), [`Refusal::SealLengthInvalid`] (20), [`Refusal::ElementNotReduced`] (10, of key, nonce and what is
    /// opened, the mark too), the first that applies, in this order, and the buffer is left. Then [`Refusal::MarkDiffers`] (21), and the buffer
    /// holds zeros.
    pub fn open(&self, sealed: &[u32], buffer: &mut [u32]) -> Result<(), Refusal> {
        self.call(ffi::tuilarder_open, sealed, buffer)
    }

    fn call(&self, function: Function, text: &[u32], buffer: &mut [u32]) -> Result<(), Refusal> {
        // SAFETY: the slices are valid for their lengths, and `&mut` keeps the buffer apart from all others.
        let number = unsafe {
            function(
                self.field.number(),
                self.key.as_ptr(),
                self.key.len(),
                self.nonce.as_ptr(),
                self.nonce.len(),
                self.separator.as_ptr(),
                self.separator.len(),
                self.lengths.as_ptr(),
                self.lengths.len(),
                text.as_ptr(),
                text.len(),
                buffer.as_mut_ptr(),
                buffer.len(),
            )
        };
        result(number)
    }
}

/// The key is left out.
impl fmt::Debug for Seal<'_> {
    fn fmt(&self, f: &mut fmt::Formatter<'_>) -> fmt::Result {
        f.debug_struct("Seal")
            .field("field", &self.field)
            .field("nonce", &self.nonce)
            .field("separator", &format_args!("\"{}\"", self.separator.escape_ascii()))
            .field("lengths", &self.lengths)
            .finish_non_exhaustive()
    }
}
