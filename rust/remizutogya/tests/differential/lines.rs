//! Lines for the listing, rows of the published profiles, numbers of words to rate, and replies to be told.

use crate::random::Random;
use std::array;

/// Codes about as large as those that are listed, up to the one with the longest text and the longest words.
const LARGE: [[usize; 3]; 6] = [
    [2, 24, 7],
    [2, 25, 8],
    [16, 3, 1],
    [3, 8, 1],
    [4, 6, 1],
    [32, 2, 8],
];

const PUBLISHED_ROWS: usize = 40;
const MOST_WORDS: usize = 256;

/// A line for the listing: of a small code, of a large one, of any numbers, or damaged.
pub fn line(random: &mut Random) -> Vec<u8> {
    let [q, m, x] = match random.below(12) {
        0 => random.pick(&LARGE),
        1 | 2 => [random.below(40), random.below(140), random.below(12)],
        3 => array::from_fn(|_| random.below(1200)),
        _ => [
            random.within(2..=5),
            random.within(1..=4),
            random.within(1..=8),
        ],
    };
    let mut line = format!("{q} {m} {x}\n").into_bytes();
    if random.once_in(3) {
        damage_line(random, &mut line);
    }
    line
}

/// Puts in, takes out or changes one byte, or leaves none.
fn damage_line(random: &mut Random, line: &mut Vec<u8>) {
    let place = random.below(line.len());
    let byte = random.pick(b" 0123456789\n\r\t+-,\0\xff");
    match random.below(10) {
        0 => line.clear(),
        1 => line.insert(0, b'0'),
        2..4 => line.insert(place, byte),
        4 | 5 => line.push(byte),
        6 | 7 => drop(line.remove(place)),
        _ => line[place] = byte,
    }
}

/// A row of the published profiles, or a number behind them.
pub fn published_row(random: &mut Random) -> usize {
    match random.below(4) {
        0 => random.pick(&[PUBLISHED_ROWS, 1 << 32, usize::MAX]),
        _ => random.below(PUBLISHED_ROWS),
    }
}

/// A number of words to rate, or too many.
pub fn rated_words(random: &mut Random) -> usize {
    match random.below(8) {
        0 => random.pick(&[MOST_WORDS + 1, 1 << 32, usize::MAX]),
        1 => MOST_WORDS,
        _ => random.below(MOST_WORDS),
    }
}

/// The number and the place of a reply: any, and mostly one that is in use, at a place that is met.
pub fn reply(random: &mut Random) -> (u8, usize) {
    let number = match random.below(4) {
        0 => random.below(256),
        _ => random.below(17),
    };
    let place = random.number() >> random.below(64);
    (number as u8, place as usize)
}
