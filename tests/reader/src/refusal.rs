//! The numbers that a caller can meet.

/// Why a call was refused, and where: a descriptor offset for a triplet, a data
/// offset for an item.
#[derive(Clone, Copy, Debug, PartialEq, Eq)]
pub struct Refusal {
    pub number: u32,
    pub place: u32,
}

impl Refusal {
    pub(crate) fn at(number: u32, place: usize) -> Refusal {
        Refusal {
            number,
            place: place as u32,
        }
    }
}

pub const OVERSIZE: u32 = 1;
pub const TORN_TRIPLET: u32 = 2;
pub const UNKNOWN_CONSTRUCT: u32 = 3;
pub const OUT_OF_SEQUENCE: u32 = 4;
pub const BAD_LENGTH: u32 = 5;
pub const BAD_PARAMETER: u32 = 6;
pub const NAME_TAKEN: u32 = 7;
pub const MISSING_REFERENCE: u32 = 8;
pub const NOT_CARRIED: u32 = 9;
pub const TOO_MANY_ITEMS: u32 = 10;
pub const NOTHING_DESCRIBED: u32 = 11;
pub const SMALL_LIST: u32 = 12;
pub const SHORT_DATA: u32 = 13;
pub const BAD_COUNT: u32 = 14;
pub const NO_END: u32 = 15;
pub const SURPLUS: u32 = 16;
pub const NO_SUCH_ITEM: u32 = 17;
pub const WRONG_KIND: u32 = 18;
pub const BAD_FILE: u32 = 19;
pub const BAD_DIGIT: u32 = 20;
pub const COLUMN_MISFIT: u32 = 21;
pub const ENDLESS: u32 = 22;
pub const NO_EXACT_FLOAT: u32 = 23;
pub const BAD_INDICATOR: u32 = 24;
