use core::fmt;

use crate::ffi;
use crate::form::Form;
use crate::refusal::{result, Refusal};

/// The top bit of a word, set for ABSORB.
const ABSORB_BIT: u32 = 1 << 31;

/// The longest length that a word can hold.
const MAX_LENGTH: u32 = ABSORB_BIT - 1;

/// A call that a protocol declares beforehand, with its length in elements.
#[derive(Clone, Copy, Debug, PartialEq, Eq, Hash)]
pub enum Call {
    /// Takes so many elements in.
    Absorb(u32),
    /// Gives so many elements.
    Squeeze(u32),
}

impl Call {
    /// The word of the call, with `MAX_LENGTH` in the place of a length that no word can hold: both are too long for a call.
    fn word(self) -> u32 {
        match self {
            Call::Absorb(length) => ABSORB_BIT | length.min(MAX_LENGTH),
            Call::Squeeze(length) => length.min(MAX_LENGTH),
        }
    }

    fn of_word(word: u32) -> Call {
        let length = word & MAX_LENGTH;
        if word & ABSORB_BIT != 0 {
            Call::Absorb(length)
        } else {
            Call::Squeeze(length)
        }
    }
}

/// A pattern that START accepts: the calls that a protocol declares, at most [`Pattern::MAX_WORDS`] of at most [`Pattern::MAX_CALL`] elements.
/// The first is an ABSORB; the last may be of either kind.
///
/// Two patterns are equal if they declare the same calls. The sponge sees merged patterns, in which neighbours of one kind are added
/// together, so that a phase may be longer than a call: in form 2, and in form 1 with separators of one length, two protocols have the same tag
/// string exactly if merged patterns and separators are both equal. Patterns that merge to the same have the same [`Pattern::merged`].
///
/// Where a transcript ends on a message, so does its pattern. Its session ends only when all of that message is absorbed; but what is absorbed
/// last bears on no challenge, since none is squeezed after it.
///
/// ```
/// use tuilarder::{Call, Field, Pattern, Protocol, Refusal};
///
/// let pattern = Pattern::new(&[Call::Absorb(4), Call::Squeeze(1), Call::Absorb(2)])?;
/// let mut session = Protocol::new(Field::BabyBear, &pattern, b"last message")?.start();
/// session.absorb(&[11, 22, 33, 44])?;
/// let [_challenge] = session.challenge()?;
/// session.absorb(&[55])?;
/// // one element of the last message is missing
/// assert_eq!(session.fork().finish(), Err(Refusal::PatternNotDone));
/// session.absorb(&[66])?;
/// session.finish()?;
/// # Ok::<(), Refusal>(())
/// ```
#[derive(Clone, PartialEq, Eq, Hash)]
pub struct Pattern {
    // unused words are 0
    words: [u32; Pattern::MAX_WORDS],
    count: usize,
}

impl Pattern {
    /// The most calls that a pattern declares.
    pub const MAX_WORDS: usize = 64;

    /// The longest call that a pattern declares, in elements.
    pub const MAX_CALL: u32 = 16_777_216;

    /// The longest separator, in bytes.
    pub const MAX_SEPARATOR: usize = 256;

    /// The longest tag string, in bytes, which is one of form 2: a buffer of this length is never too short.
    pub const MAX_TAG_STRING: usize = 4 * Pattern::MAX_WORDS + Pattern::MAX_SEPARATOR + 4;

    /// The pattern of these calls.
    ///
    /// # Errors
    ///
    /// [`Refusal`] 1, 2, 19 or 3, the first that applies, in this order.
    pub fn new(calls: &[Call]) -> Result<Pattern, Refusal> {
        // one more than a pattern can have, so that the library sees that there are too many
        let mut words = [0; Pattern::MAX_WORDS + 1];
        for (word, call) in words.iter_mut().zip(calls) {
            *word = call.word();
        }
        Pattern::from_words(&words[..calls.len().min(words.len())])
    }

    /// The pattern of these words: a word has its top bit set for ABSORB and clear for SQUEEZE, and its low 31 bits are the length.
    ///
    /// # Errors
    ///
    /// [`Refusal`] 1, 2, 19 or 3, the first that applies, in this order.
    pub fn from_words(words: &[u32]) -> Result<Pattern, Refusal> {
        write_tag(Form::One, words, &[], &mut [0; 4 * Pattern::MAX_WORDS])?;
        let mut pattern = Pattern {
            words: [0; Pattern::MAX_WORDS],
            count: words.len(),
        };
        pattern.words[..words.len()].copy_from_slice(words);
        Ok(pattern)
    }

    /// The pattern and the separator that a tag string of form 1 was written from, given the separator's length. The pattern is a merged one, with
    /// calls longer than [`Pattern::MAX_CALL`] cut into calls of that length and any rest, and the separator is that part of the string. Together
    /// they have this tag string. [`Pattern::read_form_2`] reads the other form.
    ///
    /// # Errors
    ///
    /// [`Refusal::SeparatorTooLong`] (6, of the length given), then [`Refusal::NotTagString`] (13), then [`Refusal::WordCountOutOfRange`] (1): the
    /// string is read, but 64 calls do not suffice for its words, so no pattern and separator of that length have it. The words themselves are
    /// then only given by [`ffi::tuilarder_read_tag`].
    pub fn read(string: &[u8], separator_length: usize) -> Result<(Pattern, &[u8]), Refusal> {
        read(Form::One, string, separator_length)
    }

    /// The pattern and the separator that a tag string of form 2 was written from: the string says itself how long its separator is. The pattern
    /// is cut as [`Pattern::read`] cuts it, and the separator is that part of the string.
    ///
    /// # Errors
    ///
    /// [`Refusal::SeparatorTooLong`] (6, of the length that the last four bytes name), then [`Refusal::NotTagString`] (13, of a string under four bytes
    /// too), then [`Refusal::WordCountOutOfRange`] (1): the string is read, but 64 calls do not suffice for its words, so no pattern and separator
    /// have it.
    pub fn read_form_2(string: &[u8]) -> Result<(Pattern, &[u8]), Refusal> {
        // no length is looked at in form 2
        read(Form::Two, string, 0)
    }

    /// The words as they were declared.
    pub fn words(&self) -> &[u32] {
        &self.words[..self.count]
    }

    /// The calls as they were declared.
    pub fn calls(&self) -> impl Iterator<Item = Call> + '_ {
        self.words().iter().map(|&word| Call::of_word(word))
    }

    /// The same pattern in the fewest calls: neighbours of one kind are added together, and what is then longer than [`Pattern::MAX_CALL`] is
    /// cut into calls of that length and any rest.
    pub fn merged(&self) -> Pattern {
        let mut buffer = [0; 4 * Pattern::MAX_WORDS];
        let merged = self
            .tag_string(&[], &mut buffer)
            .and_then(|string| Pattern::read(string, 0));
        merged
            .expect("an accepted pattern has a tag string, which reads back")
            .0
    }

    /// Writes the tag string of form 1 of this pattern and a separator to the start of the buffer, and gives the part that was written.
    ///
    /// # Errors
    ///
    /// As [`Pattern::tag_string_with_form`].
    pub fn tag_string<'a>(&self, separator: &[u8], buffer: &'a mut [u8]) -> Result<&'a [u8], Refusal> {
        self.tag_string_with_form(Form::One, separator, buffer)
    }

    /// Writes the tag string of a form of this pattern and a separator to the start of the buffer, and gives the part that was written.
    ///
    /// # Errors
    ///
    /// [`Refusal::SeparatorTooLong`] (6), then [`Refusal::BufferTooShort`] (12); nothing is written.
    pub fn tag_string_with_form<'a>(
        &self,
        form: Form,
        separator: &[u8],
        buffer: &'a mut [u8],
    ) -> Result<&'a [u8], Refusal> {
        let length = write_tag(form, self.words(), separator, buffer)?;
        Ok(&buffer[..length])
    }
}

impl fmt::Debug for Pattern {
    fn fmt(&self, f: &mut fmt::Formatter<'_>) -> fmt::Result {
        f.write_str("Pattern ")?;
        f.debug_list().entries(self.calls()).finish()
    }
}

/// The pattern of a tag string, and the part of the string that is its separator.
fn read(form: Form, string: &[u8], separator_length: usize) -> Result<(Pattern, &[u8]), Refusal> {
    let (mut words, mut count) = ([0; Pattern::MAX_WORDS], 0);
    let (mut separator_start, mut separator_count) = (0, 0);
    // SAFETY: the string is valid for its length, and what is written is this function's own.
    let number = unsafe {
        ffi::tuilarder_read_tag(
            form.number(),
            string.as_ptr(),
            string.len(),
            separator_length,
            &mut words,
            &mut count,
            &mut separator_start,
            &mut separator_count,
        )
    };
    result(number)?;
    let separator = &string[separator_start..separator_start + separator_count];
    Ok((cut(&words[..count])?, separator))
}

/// The pattern of the words of a tag string, which are merged, and may be longer than a call.
fn cut(words: &[u32]) -> Result<Pattern, Refusal> {
    let mut pattern = Pattern {
        words: [0; Pattern::MAX_WORDS],
        count: 0,
    };
    // SAFETY: the slice is valid for its length, and the pattern is this function's own.
    let number = unsafe { ffi::tuilarder_cut(words.as_ptr(), words.len(), &mut pattern.words, &mut pattern.count) };
    result(number)?;
    Ok(pattern)
}

/// Writes a tag string to the start of a buffer, and gives its length.
fn write_tag(form: Form, words: &[u32], separator: &[u8], buffer: &mut [u8]) -> Result<usize, Refusal> {
    let mut written = 0;
    // SAFETY: the three slices are valid for their lengths, and no two of buffer, `written` and the rest overlap.
    let number = unsafe {
        ffi::tuilarder_write_tag(
            form.number(),
            words.as_ptr(),
            words.len(),
            separator.as_ptr(),
            separator.len(),
            buffer.as_mut_ptr(),
            buffer.len(),
            &mut written,
        )
    };
    result(number)?;
    Ok(written)
}
