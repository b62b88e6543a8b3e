//! What a call is handed and what it answers: the profile, the answer, the reply numbers and what they mean, and
//! the tests that most calls begin with.

use std::ops::RangeInclusive;

pub const LEVELS: u8 = 1;
pub const LENGTH: u8 = 2;
pub const REACH: u8 = 3;
pub const NO_MESSAGE: u8 = 4;
pub const TABLE_SHORT: u8 = 5;
pub const TABLE_WRONG: u8 = 6;
pub const INPUT_LENGTH: u8 = 7;
pub const BIT_BEHIND: u8 = 8;
pub const OUTPUT_SHORT: u8 = 9;
pub const CELL: u8 = 10;
pub const PATTERN: u8 = 11;
pub const NO_SUCH: u8 = 12;
pub const BRIDGE: u8 = 13;
pub const ALL_ZERO: u8 = 14;
pub const INDEX_ABOVE: u8 = 15;

/// What the numbers mean, from 1 on, and what stands at the place of those that have one.
const MEANINGS: [(&str, &str); 16] = [
    ("q outside its range, 2 to 32", ""),
    ("m outside its range, 1 to 128", ""),
    ("x outside its range, 1 to 8", ""),
    ("no words that carry messages", ""),
    ("table shorter than 10(m+1) limbs", ""),
    ("table does not belong", "first wrong row"),
    (
        "input length that fits no word, stream or bit count, or is over the most",
        "",
    ),
    ("bit after the last message bit is 1", "bit at"),
    ("lent output too short", ""),
    ("cell at or above q", "cell at"),
    ("forbidden pattern", "top at"),
    ("index at or above N(m), or list row at or above 40", ""),
    ("wrong bridge cell", "cell at"),
    ("word of all 0", "word at"),
    ("index above 2^s", "word at"),
    ("word of all top", "word at"),
];

/// The room that the text of a reply asks for, in bytes.
const TEXT_ROOM: usize = 256;

pub const LEVELS_RANGE: RangeInclusive<usize> = 2..=32;
pub const LENGTH_RANGE: RangeInclusive<usize> = 1..=128;
pub const REACH_RANGE: RangeInclusive<usize> = 1..=8;

/// A profile: q levels, word length m, reach x. Any numbers may be handed in.
#[derive(Clone, Copy, Debug, PartialEq, Eq)]
pub struct Profile {
    pub q: usize,
    pub m: usize,
    pub x: usize,
}

impl Profile {
    /// A profile of q levels, word length m and reach x.
    pub const fn new(q: usize, m: usize, x: usize) -> Profile {
        Profile { q, m, x }
    }

    /// The top level. Only for a profile in range.
    pub(crate) fn top(self) -> u8 {
        (self.q - 1) as u8
    }

    /// From the start of a word in a stream to the start of the next.
    pub(crate) fn stride(self) -> usize {
        self.m + self.x
    }
}

/// A call's reply number and place, and the number of cells, bits or limbs that it wrote.
#[derive(Clone, Copy, Debug, PartialEq, Eq)]
pub struct Answer {
    pub number: u8,
    pub place: usize,
    pub count: usize,
}

/// A value, or the answer that refuses.
pub type Tested<T> = Result<T, Answer>;

impl Answer {
    /// Done, with so much written.
    pub(crate) fn done(count: usize) -> Answer {
        Answer {
            number: 0,
            place: 0,
            count,
        }
    }

    /// Refused with a number at a place.
    pub(crate) fn refused(number: u8, place: usize) -> Answer {
        Answer {
            number,
            place,
            count: 0,
        }
    }

    /// The answer of a call that writes: how much, or the refusal.
    pub(crate) fn of(written: Tested<usize>) -> Answer {
        written.map_or_else(|refusal| refusal, Answer::done)
    }

    /// The answer of a call that gives a value: the value is all zero where the call is refused.
    pub(crate) fn with<T: Default>(given: Tested<T>) -> (Answer, T) {
        given.map_or_else(
            |refusal| (refusal, T::default()),
            |value| (Answer::done(0), value),
        )
    }
}

/// Refuses with a number at place 0 where a test holds.
pub fn refuse_if(test: bool, number: u8) -> Tested<()> {
    refuse_at(test.then_some(0), number)
}

/// Refuses with a number at a place, if there is one.
pub fn refuse_at(place: Option<usize>, number: u8) -> Tested<()> {
    place.map_or(Ok(()), |place| Err(Answer::refused(number, place)))
}

/// Refuses q, m or x outside its range.
pub fn test_profile(p: Profile) -> Tested<()> {
    refuse_if(!LEVELS_RANGE.contains(&p.q), LEVELS)?;
    refuse_if(!LENGTH_RANGE.contains(&p.m), LENGTH)?;
    refuse_if(!REACH_RANGE.contains(&p.x), REACH)
}

/// Writes what a reply with a number and a place says in words.
pub fn reply_text(number: u8, place: usize, out: &mut [u8]) -> Answer {
    Answer::of(tested_text(number, place, out))
}

fn tested_text(number: u8, place: usize, out: &mut [u8]) -> Tested<usize> {
    refuse_if(out.len() < TEXT_ROOM, OUTPUT_SHORT)?;
    let text = match number {
        0 => String::from("done"),
        _ => format!("refused {number} at {place}: {}", meaning(number, place)),
    };
    out[..text.len()].copy_from_slice(text.as_bytes());
    Ok(text.len())
}

fn meaning(number: u8, place: usize) -> String {
    match MEANINGS.get(usize::from(number) - 1) {
        None => String::from("number that has no meaning"),
        Some((meaning, "")) => String::from(*meaning),
        Some((meaning, named)) => format!("{meaning} ({named} {place})"),
    }
}
