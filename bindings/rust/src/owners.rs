use core::fmt;

use crate::ffi;
use crate::refusal::{result, Refusal};

/// A table that gives every number of 32 bits to exactly one product line, and so every separator of at least four bytes to one: a
/// separator's number is its first four bytes, highest byte first.
///
/// The table is lent as bytes. A row has ten of them: the first and the last number that it holds, of four bytes each, and its product line, of
/// two, highest byte first. Rows are in rising order, at most 128 of them, and hold each number once. [`Owners::new`] checks that, and the
/// bytes stay as they are while they are borrowed.
///
/// ```
/// use tuilarder::{Owners, OwnersFault, Refusal};
///
/// let mut rows = [
///     // from 0 to 0x6fffffff: product line 1
///     [0x00, 0x00, 0x00, 0x00, 0x6f, 0xff, 0xff, 0xff, 0x00, 0x01],
///     // from 0x70000000 to 0x7fffffff: product line 2
///     [0x70, 0x00, 0x00, 0x00, 0x7f, 0xff, 0xff, 0xff, 0x00, 0x02],
///     // from 0x80000000 to 0xffffffff: product line 3
///     [0x80, 0x00, 0x00, 0x00, 0xff, 0xff, 0xff, 0xff, 0x00, 0x03],
/// ];
/// let owners = Owners::new(rows.as_flattened())?;
/// // the number of "payment" is 0x7061796d, and that of "refunds" is 0x72656675
/// assert_eq!(owners.owner(b"payment"), Ok(2));
/// assert_eq!(owners.owner(b"refunds"), Ok(2));
/// assert_eq!(owners.owner(b"invoice"), Ok(1));
/// assert_eq!(owners.owner(&[0xff; 4]), Ok(3));
/// assert_eq!(owners.owner(b"pay"), Err(Refusal::SeparatorTooShort));
///
/// // without its last row, 0x80000000 is the least number that no row holds
/// assert_eq!(Owners::new(&rows.as_flattened()[..20]), Err(OwnersFault::Gap(0x80000000)));
/// // the second row begins with a number that the first one holds
/// rows[1][..4].copy_from_slice(&[0x6f, 0xff, 0xff, 0xff]);
/// assert_eq!(Owners::new(rows.as_flattened()), Err(OwnersFault::Row(2)));
/// # Ok::<(), OwnersFault>(())
/// ```
///
/// While a table is in use, nobody can write its bytes:
///
/// ```compile_fail,E0506
/// let mut table = [0, 0, 0, 0, 255, 255, 255, 255, 0, 1];
/// let owners = tuilarder::Owners::new(&table).unwrap();
/// table[9] = 2;
/// owners.owner(b"payment");
/// ```
///
/// None is made without the check:
///
/// ```compile_fail,E0451
/// tuilarder::Owners { table: &[] };
/// ```
#[derive(Clone, Copy, Debug, PartialEq, Eq, Hash)]
pub struct Owners<'a> {
    table: &'a [u8],
}

impl<'a> Owners<'a> {
    /// The bytes of a row.
    pub const ROW_BYTES: usize = 10;

    /// The most rows of a table.
    pub const MAX_ROWS: usize = 128;

    /// The owners that a table of bytes says.
    ///
    /// # Errors
    ///
    /// [`OwnersFault::Row`] with the first bad row; where there is none, [`OwnersFault::Gap`] with the least number that no row holds. The
    /// empty table is a gap.
    pub fn new(table: &'a [u8]) -> Result<Owners<'a>, OwnersFault> {
        let mut place = 0;
        // SAFETY: the slice is valid for its length, and the place is this function's own.
        let number = unsafe { ffi::tuilarder_check_owners(table.as_ptr(), table.len(), &mut place) };
        match result(number) {
            Ok(()) => Ok(Owners { table }),
            Err(Refusal::OwnersRowInvalid) => Err(OwnersFault::Row(place)),
            Err(Refusal::OwnersGap) => Err(OwnersFault::Gap(place)),
            Err(_) => unreachable!("the library answered {number}"),
        }
    }

    /// The product line that owns a separator. The library looks at the whole table again in each call.
    ///
    /// # Errors
    ///
    /// [`Refusal::SeparatorTooShort`] (17) for under four bytes. Longer ones are not refused here, not even those of over 256 bytes, with
    /// which no session can be opened.
    pub fn owner(&self, separator: &[u8]) -> Result<u16, Refusal> {
        let mut value = 0;
        // SAFETY: the slices are valid for their lengths, and the value is this function's own.
        let number = unsafe {
            ffi::tuilarder_owner(
                self.table.as_ptr(),
                self.table.len(),
                separator.as_ptr(),
                separator.len(),
                &mut value,
            )
        };
        result(number)?;
        // a row has two bytes for it
        Ok(value as u16)
    }
}

/// Why a table of owners was turned away, and where.
#[derive(Clone, Copy, Debug, PartialEq, Eq, Hash)]
pub enum OwnersFault {
    /// 15: this row, counted from 1, is the first that is bad: its first number is above its last or not above the previous row's last, or
    /// it is row 129, or cut short.
    Row(u32),
    /// 16: this is the least number that no row holds.
    Gap(u32),
}

impl OwnersFault {
    /// The refusal that it is, without the place: [`Refusal::OwnersRowInvalid`] (15) or [`Refusal::OwnersGap`] (16).
    pub const fn refusal(self) -> Refusal {
        match self {
            OwnersFault::Row(_) => Refusal::OwnersRowInvalid,
            OwnersFault::Gap(_) => Refusal::OwnersGap,
        }
    }
}

/// The refusal's message, then the place.
impl fmt::Display for OwnersFault {
    fn fmt(&self, f: &mut fmt::Formatter<'_>) -> fmt::Result {
        let refusal = self.refusal();
        match self {
            OwnersFault::Row(row) => write!(f, "{refusal}: row {row}"),
            OwnersFault::Gap(number) => write!(f, "{refusal}: {number}"),
        }
    }
}

impl core::error::Error for OwnersFault {}
