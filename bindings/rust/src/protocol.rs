use core::fmt;

use crate::ffi::{self, Record};
use crate::field::Field;
use crate::form::Form;
use crate::pattern::Pattern;
use crate::refusal::{result, Refusal};
use crate::session::Session;

/// What a session is opened for: a field, a form, a pattern, and a separator, the byte string that names the protocol. Each protocol of a verifier
/// needs a separator of its own, and all of them one form: form 2, or form 1 with separators of one length. See the
/// [crate's page](crate#separators).
///
/// Two protocols are equal if field, form, declared calls and separator are. In one field, sessions get the same challenges for the same messages
/// if their protocols' [tag strings](Protocol::tag_string) are equal; the tag string says neither field nor form.
#[derive(Clone, PartialEq, Eq, Hash)]
pub struct Protocol {
    field: Field,
    form: Form,
    pattern: Pattern,
    // unused bytes are 0
    tag_string: [u8; Pattern::MAX_TAG_STRING],
    length: usize,
    // where the separator begins in it, and its length
    separator_start: usize,
    separator_length: usize,
}

impl Protocol {
    /// The protocol of a field, a pattern and a separator, with the tag string of form 1. Where all protocols of a verifier are of form 1, all their
    /// separators have one length; where lengths may differ, take [`Protocol::with_form`] and [`Form::Two`].
    ///
    /// # Errors
    ///
    /// As [`Protocol::with_form`].
    pub fn new(field: Field, pattern: &Pattern, separator: &[u8]) -> Result<Protocol, Refusal> {
        Protocol::with_form(field, Form::One, pattern, separator)
    }

    /// The protocol of a field, a pattern and a separator, with the tag string of a form.
    ///
    /// ```
    /// use tuilarder::{Call::*, Field, Form, Pattern, Protocol, Refusal};
    ///
    /// let pattern = Pattern::new(&[Absorb(4), Squeeze(1)])?;
    /// let payment = Protocol::with_form(Field::BabyBear, Form::Two, &pattern, b"payment")?;
    /// // of another length, and told apart all the same
    /// let refund = Protocol::with_form(Field::BabyBear, Form::Two, &pattern, b"refund")?;
    /// assert_ne!(payment.tag_string(), refund.tag_string());
    /// # Ok::<(), Refusal>(())
    /// ```
    ///
    /// # Errors
    ///
    /// [`Refusal::SeparatorTooLong`] (6); an accepted pattern has none of 1, 2, 19 and 3.
    pub fn with_form(field: Field, form: Form, pattern: &Pattern, separator: &[u8]) -> Result<Protocol, Refusal> {
        let mut tag_string = [0; Pattern::MAX_TAG_STRING];
        let length = pattern.tag_string_with_form(form, separator, &mut tag_string)?.len();
        Ok(Protocol {
            field,
            form,
            pattern: pattern.clone(),
            tag_string,
            length,
            separator_start: length - separator.len() - form.tail_length(),
            separator_length: separator.len(),
        })
    }

    /// START: a session of this protocol.
    pub fn start(&self) -> Session {
        let (words, separator) = (self.pattern.words(), self.separator());
        let mut session = Session::from_record(Record::WIPED);
        // SAFETY: the slices are valid for their lengths, and the record is this function's own.
        let number = unsafe {
            ffi::tuilarder_start(
                &mut session.record,
                self.field.number(),
                self.form.number(),
                words.as_ptr(),
                words.len(),
                separator.as_ptr(),
                separator.len(),
            )
        };
        result(number).expect("all of these were accepted when the protocol was made");
        session
    }

    /// The field that its elements are of.
    pub fn field(&self) -> Field {
        self.field
    }

    /// The form of its tag string.
    pub fn form(&self) -> Form {
        self.form
    }

    /// The pattern, with the calls as they were declared.
    pub fn pattern(&self) -> &Pattern {
        &self.pattern
    }

    /// The separator.
    pub fn separator(&self) -> &[u8] {
        &self.tag_string()[self.separator_start..][..self.separator_length]
    }

    /// The tag string: the merged pattern in bytes, then the separator, and in form 2 the separator's length in four bytes. START puts its hash into
    /// the state.
    pub fn tag_string(&self) -> &[u8] {
        &self.tag_string[..self.length]
    }
}

impl fmt::Debug for Protocol {
    fn fmt(&self, f: &mut fmt::Formatter<'_>) -> fmt::Result {
        f.debug_struct("Protocol")
            .field("field", &self.field)
            .field("form", &self.form)
            .field("pattern", &self.pattern)
            .field("separator", &format_args!("\"{}\"", self.separator().escape_ascii()))
            .finish()
    }
}
