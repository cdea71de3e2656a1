/// A field: what a protocol's messages and challenges are elements of. Elements of a field are the numbers below its prime, p.
///
/// These are all fields that there are, so a `match` of both is complete.
#[derive(Clone, Copy, Debug, PartialEq, Eq, Hash)]
#[repr(u32)]
pub enum Field {
    /// Number 1, with p = 2013265921.
    BabyBear = 1,
    /// Number 2, with p = 2130706433.
    KoalaBear = 2,
}

impl Field {
    /// The number that the documents, records and the functions of [`ffi`](crate::ffi) have for it.
    pub const fn number(self) -> u32 {
        self as u32
    }

    /// The field that has this number, if one has.
    pub const fn from_number(number: u32) -> Option<Field> {
        match number {
            1 => Some(Field::BabyBear),
            2 => Some(Field::KoalaBear),
            _ => None,
        }
    }

    /// The prime p: elements are the numbers from 0 to p - 1.
    pub const fn prime(self) -> u32 {
        match self {
            Field::BabyBear => 2013265921,
            Field::KoalaBear => 2130706433,
        }
    }
}
