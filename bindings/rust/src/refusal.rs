use core::fmt;

/// Makes [`Refusal`] from one list, a row for each number: the number, the variant and the message, and lines of documentation before
/// them that say more.
macro_rules! refusals {
    ($($(#[doc = $more:literal])* $number:literal $variant:ident $message:literal,)*) => {
        /// Why a call was turned away: the conditions of the specification, documents 01 and 02, each with its number.
        ///
        /// There can be more of them in a later version, so a `match` outside of this crate needs an arm for others.
        #[non_exhaustive]
        #[derive(Clone, Copy, Debug, PartialEq, Eq, Hash)]
        #[repr(u32)]
        pub enum Refusal {
            $(
                #[doc = concat!($number, ": ", $message, ".")]
                $(#[doc = $more])*
                $variant = $number,
            )*
        }

        impl Refusal {
            /// The number that the documents and the functions of [`ffi`](crate::ffi) have for it.
            pub const fn number(self) -> u32 {
                self as u32
            }

            /// The refusal that has this number, if one has.
            pub const fn from_number(number: u32) -> Option<Refusal> {
                match number {
                    $($number => Some(Refusal::$variant),)*
                    _ => None,
                }
            }
        }

        impl fmt::Display for Refusal {
            fn fmt(&self, f: &mut fmt::Formatter<'_>) -> fmt::Result {
                f.write_str(match self {
                    $(Refusal::$variant => $message,)*
                })
            }
        }
    };
}

refusals! {
    /// Given by [`Pattern::read`](crate::Pattern::read), it says that the string is read, but that 64 calls do not suffice for its words.
    1 WordCountOutOfRange "pattern of 0 or over 64 words",
    2 WordLengthZero "a word of length 0",
    /// Its first outputs would be bare zeros.
    3 FirstWordSqueeze "first word is SQUEEZE",
    /// Nothing gives it: a pattern may end with ABSORB.
    4 LastWordAbsorb "last word is ABSORB (unused)",
    /// Nothing gives it: 64 calls of [`Pattern::MAX_CALL`](crate::Pattern::MAX_CALL) elements add up to less.
    5 MergedLengthTooLong "merged length above 2147483647 (unused)",
    /// Of a tag string of form 2 that is read, it says that the string's last four bytes name so long a separator.
    6 SeparatorTooLong "separator over 256 bytes",
    7 RecordNotOpen "record not open",
    8 RecordNotSound "open record not sound",
    /// The record is wiped.
    9 CallNotInPattern "call of the wrong kind, past the phase's end, or after the last phase",
    /// Of the session's field, or of that which the call names ([`Field::prime`](crate::Field::prime)).
    10 ElementNotReduced "an element of the field's prime or more",
    /// The record is wiped.
    11 PatternNotDone "FINISH before the last phase's end",
    12 BufferTooShort "lent buffer shorter than the tag string",
    /// In form 2 the length is that which the string's last four bytes name, and a string under four bytes names none.
    13 NotTagString "no tag string of that separator length",
    /// [`OwnersFault::Row`](crate::OwnersFault::Row) says which row.
    15 OwnersRowInvalid "a row whose first is above its last or not above the previous row's last, a row 129 or a row cut short",
    /// [`OwnersFault::Gap`](crate::OwnersFault::Gap) says which is the least.
    16 OwnersGap "a number that no row holds",
    17 SeparatorTooShort "the separator asked about is under four bytes",
    /// Only functions of [`ffi`](crate::ffi) give it: a [`Field`](crate::Field) has a known number.
    18 FieldUnknown "field number neither 1 nor 2",
    /// It is checked behind 2 and before 3. A longer phase is declared as several calls of one kind
    /// ([`Pattern::MAX_CALL`](crate::Pattern::MAX_CALL)).
    19 CallTooLong "a declared call above 16,777,216 elements",
    /// A [`Seal`](crate::Seal) has lengths for its blocks, at most [`Seal::MAX_BLOCKS`](crate::Seal::MAX_BLOCKS); of a sealed note the list has
    /// [`Seal::MARK_LENGTH`](crate::Seal::MARK_LENGTH) elements more than the plain one. It is checked behind 6 and before 10.
    20 SealLengthInvalid "no blocks or over 31, a block length of 0 or above 16,777,216, or any other lent list or buffer, key and nonce too, whose length isn't exactly what is needed",
    /// The buffer holds zeros, and nothing of the note.
    21 MarkDiffers "the mark differs",
    /// Only functions of [`ffi`](crate::ffi) give it: a [`Form`](crate::Form) has a known number. It is checked straight behind 18, and where there is no
    /// field first.
    22 FormUnknown "form number neither 1 nor 2",
}

impl core::error::Error for Refusal {}

/// What a function of the library answered.
///
/// # Panics
///
/// On a number that no refusal has: no function of the library answers with one.
pub(crate) fn result(number: u32) -> Result<(), Refusal> {
    if number == 0 {
        return Ok(());
    }
    Err(Refusal::from_number(number).unwrap_or_else(|| unreachable!("the library answered {number}")))
}
