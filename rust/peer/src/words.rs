//! Index of a word and word of an index.

use crate::answers::{Answer, INPUT_LENGTH, NO_SUCH, OUTPUT_SHORT, Profile, Tested, refuse_if};
use crate::cells::test_cells;
use crate::limbs::{LIMBS, Number, add_product, is_below, product, subtract};
use crate::table::Code;

/// Gives the index of a word.
pub fn index(p: Profile, table: &[u64], cells: &[u8]) -> (Answer, Number) {
    Answer::with(tested_index(p, table, cells))
}

fn tested_index(p: Profile, table: &[u64], cells: &[u8]) -> Tested<Number> {
    let code = Code::lent(p, table)?;
    refuse_if(cells.len() != p.m, INPUT_LENGTH)?;
    test_cells(p.q, p.x, cells)?;
    Ok(index_of(&code, cells))
}

/// Writes the word of an index.
pub fn word(p: Profile, table: &[u64], index: &Number, out: &mut [u8]) -> Answer {
    Answer::of(tested_word(p, table, index, out))
}

fn tested_word(p: Profile, table: &[u64], index: &Number, out: &mut [u8]) -> Tested<usize> {
    let code = Code::lent(p, table)?;
    refuse_if(out.len() < p.m, OUTPUT_SHORT)?;
    refuse_if(!is_below(index, code.count()), NO_SUCH)?;
    put_word(&code, *index, &mut out[..p.m]);
    Ok(p.m)
}

/// The index of a legal word (003, theorem 2 and algorithm 1).
pub fn index_of(code: &Code, word: &[u8]) -> Number {
    let mut sum = [0; LIMBS];
    for (place, &level) in word.iter().enumerate() {
        if level > 0 {
            let i = word.len() - 1 - place;
            let g = g_behind(code.p, &word[..place]).min(i);
            add_product(
                &mut sum,
                &code.rows[i - g],
                u64::from(level) * code.powers[g],
            );
        }
    }
    sum
}

/// Writes the word of an index below N(m), from the left: the level is how often its weight can be taken
/// from what is left of the index.
pub fn put_word(code: &Code, index: Number, word: &mut [u8]) {
    let mut rest = index;
    for place in 0..word.len() {
        let i = word.len() - 1 - place;
        let g = g_behind(code.p, &word[..place]).min(i);
        word[place] = if g == 0 {
            take_level(code.p, &mut rest, &code.rows[i])
        } else {
            take_level(
                code.p,
                &mut rest,
                &product(&code.rows[i - g], code.powers[g]),
            )
        };
    }
}

/// Takes a weight from the rest as often as it goes, at most top times, and says how often.
fn take_level(p: Profile, rest: &mut Number, weight: &Number) -> u8 {
    let mut level = 0;
    while level < p.top() && !is_below(rest, weight) {
        subtract(rest, weight);
        level += 1;
    }
    level
}

/// The g of theorem 2 for the cell that comes behind these: x - k + 1 where the nearest top is k cells back,
/// k from 1 to x, and 0 where there is none. With g above i the weight is (q-1)^i N(0), so callers cut g to i.
fn g_behind(p: Profile, left: &[u8]) -> usize {
    left.iter()
        .rev()
        .take(p.x)
        .position(|&cell| cell == p.top())
        .map_or(0, |before| p.x - before)
}
