//! The refusal numbers, and the places that refusals come with.

/// The longest text or table that is read, counted to the end of the lent slice.
pub const LONGEST: usize = 65_535;

/// The refusals; each one's value is its number in the rules.
#[derive(Clone, Copy, Debug, PartialEq, Eq)]
pub enum Refusal {
    NoRoom = 1,
    NoDigit = 2,
    BadBase = 3,
    TooBig = 4,
    NotEnded = 5,
    OverLimit = 6,
    BadCode = 7,
    BadString = 8,
    BadReference = 9,
    UnknownName = 10,
    TooDeep = 11,
    AllowanceSpent = 12,
    BadTable = 13,
    UnknownCall = 14,
    BadExpression = 15,
    ZeroDivisor = 16,
    NotInteger = 17,
    OverLong = 18,
    BadField = 19,
    BadIndex = 20,
    CodeOver255 = 21,
}

impl Refusal {
    pub fn number(self) -> u8 {
        self as u8
    }

    /// This refusal with its place in whatever was being read.
    pub fn at(self, place: usize) -> Refused {
        Refused {
            refusal: self,
            place,
        }
    }
}

/// A refusal met while one slice was read, with its place in that slice.
#[derive(Clone, Copy, Debug, PartialEq, Eq)]
pub struct Refused {
    pub refusal: Refusal,
    pub place: usize,
}

impl Refused {
    /// This refusal of an operation that is lent more than one slice.
    pub fn within(self, slice: Slice) -> Located {
        Located {
            refused: self,
            slice,
        }
    }
}

/// The slices that one operation is lent; places in them are counted apart.
#[derive(Clone, Copy, Debug, PartialEq, Eq)]
pub enum Slice {
    Text,
    Farm,
    House,
    Index,
}

/// A refusal that says in which slice its place is counted.
#[derive(Clone, Copy, Debug, PartialEq, Eq)]
pub struct Located {
    pub refused: Refused,
    pub slice: Slice,
}

/// Refuses a slice that is too long, whatever stands in it.
pub fn check_length(lent: &[u8]) -> Result<(), Refused> {
    if lent.len() > LONGEST {
        return Err(Refusal::OverLong.at(0));
    }
    Ok(())
}
