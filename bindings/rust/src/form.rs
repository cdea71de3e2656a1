/// A form of tag strings: how a string that START hashes is made of a merged pattern and a separator.
///
/// **Take form 2 where separators may differ in length.** There no two protocols share a tag string unless merged patterns and separators are both
/// equal, whatever the lengths are. In form 1 that holds only among separators of one length. Between the forms nothing is said, so all
/// protocols of a verifier are of one: see the [crate's page](crate#separators).
///
/// These two have one string in form 1, and two in form 2:
///
/// ```
/// use tuilarder::{Call::*, Field, Form, Pattern, Protocol, Refusal};
///
/// let short = Pattern::new(&[Absorb(1), Squeeze(1)])?;
/// let long = Pattern::new(&[Absorb(1), Squeeze(1), Absorb(2), Squeeze(2)])?;
/// let strings = |form| -> Result<[Vec<u8>; 2], Refusal> {
///     let first = Protocol::with_form(Field::BabyBear, form, &short, &[0x80, 0, 0, 2, 0, 0, 0, 2])?;
///     let second = Protocol::with_form(Field::BabyBear, form, &long, &[])?;
///     Ok([first, second].map(|protocol| protocol.tag_string().to_vec()))
/// };
/// let [first, second] = strings(Form::One)?;
/// assert_eq!(first, second);
/// let [first, second] = strings(Form::Two)?;
/// assert_ne!(first, second);
/// # Ok::<(), Refusal>(())
/// ```
///
/// These are all forms that there are, so a `match` of both is complete.
#[derive(Clone, Copy, Debug, PartialEq, Eq, Hash)]
#[repr(u32)]
pub enum Form {
    /// Number 1: the merged words, four bytes each, highest first, then the separator. The string does not say where the separator begins.
    One = 1,
    /// Number 2: as form 1, and behind the separator its length, as four bytes, highest first.
    Two = 2,
}

impl Form {
    /// The number that the documents, records and the functions of [`ffi`](crate::ffi) have for it.
    pub const fn number(self) -> u32 {
        self as u32
    }

    /// The form that has this number, if one has.
    pub const fn from_number(number: u32) -> Option<Form> {
        match number {
            1 => Some(Form::One),
            2 => Some(Form::Two),
            _ => None,
        }
    }

    /// How many bytes stand behind the separator.
    pub(crate) const fn tail_length(self) -> usize {
        match self {
            Form::One => 0,
            Form::Two => 4,
        }
    }
}
