//! Why and where a call refuses, in document 01's numbers.

use crate::raw::{self, Reply, Written};
use std::fmt;

/// A refusal: a number that says why, and a place that says where.
///
/// A call that refuses has written to nothing that it was lent. Its text is the one that the program `remi` prints.
///
/// ```
/// use remizutogya::{Error, Profile, find_pattern, rate_of_words};
///
/// let refused = find_pattern(4, 1, &[0, 3, 2, 3]).unwrap_err();
/// assert_eq!((refused.number(), refused.place()), (Error::PATTERN, 1));
/// assert_eq!(refused.to_string(), "refused 11 at 1: forbidden pattern (top at 1)");
///
/// let refused = rate_of_words(Profile::new(4, 5, 1), &[], 1).unwrap_err();
/// assert_eq!(refused.to_string(), "refused 5 at 0: table shorter than 10(m+1) limbs");
/// ```
#[derive(Clone, Copy, Debug, PartialEq, Eq, Hash)]
pub struct Error {
    number: u8,
    place: usize,
}

impl Error {
    /// q is outside its range.
    pub const LEVELS: u8 = 1;
    /// m is outside its range.
    pub const LENGTH: u8 = 2;
    /// x is outside its range.
    pub const REACH: u8 = 3;
    /// The profile has no words that carry messages.
    pub const NO_MESSAGE: u8 = 4;
    /// The table is shorter than 10(m+1) limbs.
    pub const TABLE_SHORT: u8 = 5;
    /// The table does not belong to the profile; the place is its first wrong row.
    pub const TABLE_WRONG: u8 = 6;
    /// An input length fits no word, stream or bit count, or there are too many words or cells.
    pub const INPUT_LENGTH: u8 = 7;
    /// A bit after the last message bit, in the same byte, is 1; the place is the bit's.
    pub const BIT_BEHIND: u8 = 8;
    /// The lent output is too short.
    pub const OUTPUT_SHORT: u8 = 9;
    /// A cell is at or above q; the place is the cell's.
    pub const CELL: u8 = 10;
    /// There is a forbidden pattern; the place is that of its first top.
    pub const PATTERN: u8 = 11;
    /// The index is at or above N(m), or the row of the list at or above 40.
    pub const NO_SUCH: u8 = 12;
    /// A bridge cell is wrong; the place is the cell's.
    pub const BRIDGE: u8 = 13;
    /// In reading, a word is all 0; the place is that of its first cell.
    pub const ALL_ZERO: u8 = 14;
    /// In reading, an index is above 2^s; the place is that of the word's first cell.
    pub const INDEX_ABOVE: u8 = 15;
    /// In reading, a word is all top; the place is that of its first cell. 15 comes before it and
    /// applies to every such word, so no call gives it.
    pub const ALL_TOP: u8 = 16;

    /// The number, which is not 0.
    pub const fn number(self) -> u8 {
        self.number
    }

    /// The place; 0 where the number has none.
    pub const fn place(self) -> usize {
        self.place
    }
}

impl fmt::Display for Error {
    fn fmt(&self, f: &mut fmt::Formatter<'_>) -> fmt::Result {
        let reply = Reply {
            number: self.number,
            place: self.place,
        };
        let mut text = [0; raw::REPLY_BYTES];
        let bytes = raw::reply_text(reply, &mut text).count;
        f.write_str(str::from_utf8(&text[..bytes]).map_err(|_| fmt::Error)?)
    }
}

impl std::error::Error for Error {}

impl Reply {
    /// What the call gives, if it is done.
    pub(crate) fn giving<T>(self, given: T) -> Result<T, Error> {
        match self.number {
            0 => Ok(given),
            number => Err(Error {
                number,
                place: self.place,
            }),
        }
    }
}

impl Written {
    /// How much the call has written, if it is done.
    pub(crate) fn counted(self) -> Result<usize, Error> {
        self.reply.giving(self.count)
    }
}

#[cfg(test)]
mod tests {
    use super::Error;

    /// The numbers whose place is named in document 01's table.
    const WITH_PLACE: [u8; 8] = [6, 8, 10, 11, 13, 14, 15, 16];

    #[test]
    fn every_number_has_words_and_its_place() {
        let place = 345;
        for number in 1..=16 {
            let text = Error { number, place }.to_string();
            assert!(
                text.starts_with(&format!("refused {number} at 345: ")),
                "{text}"
            );
            assert_eq!(
                text.ends_with(" 345)"),
                WITH_PLACE.contains(&number),
                "{text}"
            );
            assert!(!text.contains("no meaning"), "{text}");
        }
    }
}
