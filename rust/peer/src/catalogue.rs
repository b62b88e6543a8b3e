//! The published profiles, and the rate of a profile.

use crate::answers::{Answer, INPUT_LENGTH, NO_SUCH, Profile, Tested, refuse_if};
use crate::streams::MOST_WORDS;
use crate::table::Code;

/// The forty published profiles as q, x, m, s.
const PUBLISHED: [[usize; 4]; 40] = [
    [4, 1, 14, 27],
    [4, 1, 26, 50],
    [4, 1, 49, 95],
    [4, 1, 77, 149],
    [4, 1, 97, 188],
    [8, 1, 18, 53],
    [8, 1, 26, 77],
    [8, 1, 44, 131],
    [8, 1, 71, 211],
    [8, 1, 103, 307],
    [16, 1, 18, 71],
    [16, 1, 27, 107],
    [16, 1, 45, 179],
    [16, 1, 66, 263],
    [16, 1, 111, 443],
    [32, 1, 19, 94],
    [32, 1, 29, 144],
    [32, 1, 49, 244],
    [32, 1, 70, 349],
    [32, 1, 117, 584],
    [4, 2, 20, 38],
    [4, 2, 38, 72],
    [4, 2, 57, 108],
    [4, 2, 76, 144],
    [4, 2, 96, 182],
    [8, 2, 22, 65],
    [8, 2, 32, 95],
    [8, 2, 52, 154],
    [8, 2, 73, 216],
    [8, 2, 108, 320],
    [16, 2, 24, 95],
    [16, 2, 34, 135],
    [16, 2, 51, 203],
    [16, 2, 73, 291],
    [16, 2, 100, 399],
    [32, 2, 25, 124],
    [32, 2, 36, 179],
    [32, 2, 56, 279],
    [32, 2, 77, 384],
    [32, 2, 108, 539],
];

/// Gives a row of the published profiles as q, x, m, s.
pub fn published(row: usize) -> (Answer, [usize; 4]) {
    Answer::with(
        PUBLISHED
            .get(row)
            .copied()
            .ok_or(Answer::refused(NO_SUCH, 0)),
    )
}

/// Gives the rate of n words as bits and cells.
pub fn rate(p: Profile, table: &[u64], n: usize) -> (Answer, usize, usize) {
    let (answer, (bits, cells)) = Answer::with(tested_rate(p, table, n));
    (answer, bits, cells)
}

fn tested_rate(p: Profile, table: &[u64], n: usize) -> Tested<(usize, usize)> {
    let code = Code::lent_for_messages(p, table)?;
    refuse_if(n > MOST_WORDS, INPUT_LENGTH)?;
    Ok((n * code.message_length(), n * p.stride()))
}
