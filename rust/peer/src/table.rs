//! The table of counts: built, handed out, and tested when lent.

use crate::answers::{
    Answer, LENGTH, LENGTH_RANGE, NO_MESSAGE, OUTPUT_SHORT, Profile, TABLE_SHORT, TABLE_WRONG,
    Tested, refuse_at, refuse_if, test_profile,
};
use crate::limbs::{
    LIMBS, Number, add_product, bit_length, product, small, subtract, subtract_product,
};

/// As many powers of q - 1 as the recursion needs: up to x + 1, which is at most 9.
const POWERS: usize = 10;

/// The levels and the reach of the shipped table.
const SHIPPED_Q: usize = 4;
const SHIPPED_X: usize = 1;

/// How many words carry no message: that of all 0 and that of all top.
const KEPT_OUT: Number = small(2);

/// The least N(m) that gives a message length: two words carry no message, and 2^1 are left.
const LEAST_CARRYING: usize = 4;

/// A profile in range with the rows that belong to it.
pub struct Code<'a> {
    pub p: Profile,
    /// N(0) to N(m).
    pub rows: &'a [Number],
    /// The powers of q - 1 from 0 on.
    pub powers: [u64; POWERS],
}

impl<'a> Code<'a> {
    /// Tests a profile and the table lent for it.
    pub fn lent(p: Profile, table: &'a [u64]) -> Tested<Code<'a>> {
        test_profile(p)?;
        let rows = table
            .as_chunks()
            .0
            .get(..=p.m)
            .ok_or(Answer::refused(TABLE_SHORT, 0))?;
        let powers = powers(p.q);
        let wrong = (0..rows.len()).find(|&i| rows[i] != next_row(p, &powers, &rows[..i]));
        refuse_at(wrong, TABLE_WRONG)?;
        Ok(Code { p, rows, powers })
    }

    /// The same for a call on messages: a profile without messages is refused before its table.
    pub fn lent_for_messages(p: Profile, table: &'a [u64]) -> Tested<Code<'a>> {
        test_profile(p)?;
        refuse_if(carries_nothing(p), NO_MESSAGE)?;
        Code::lent(p, table)
    }

    /// N(m).
    pub fn count(&self) -> &Number {
        &self.rows[self.p.m]
    }

    /// The message length s. Only for a profile that carries messages.
    pub fn message_length(&self) -> usize {
        let mut carrying = *self.count();
        subtract(&mut carrying, &KEPT_OUT);
        bit_length(&carrying) - 1
    }
}

/// Builds the table of counts of a profile.
pub fn build(p: Profile, out: &mut [u64]) -> Answer {
    Answer::of(test_profile(p).and_then(|()| put_rows(p, out)))
}

/// Hands out the rows N(0) to N(m) of q = 4, x = 1.
pub fn shipped(m: usize, out: &mut [u64]) -> Answer {
    let p = Profile::new(SHIPPED_Q, m, SHIPPED_X);
    Answer::of(refuse_if(!LENGTH_RANGE.contains(&m), LENGTH).and_then(|()| put_rows(p, out)))
}

/// Writes the rows of a profile in range, and gives the number of limbs.
fn put_rows(p: Profile, out: &mut [u64]) -> Tested<usize> {
    let limbs = LIMBS * (p.m + 1);
    refuse_if(out.len() < limbs, OUTPUT_SHORT)?;
    let powers = powers(p.q);
    let rows = out[..limbs].as_chunks_mut().0;
    for i in 0..rows.len() {
        rows[i] = next_row(p, &powers, &rows[..i]);
    }
    Ok(limbs)
}

/// The row that follows the rows from N(0) on (003, theorem 1).
fn next_row(p: Profile, powers: &[u64; POWERS], rows: &[Number]) -> Number {
    let i = rows.len();
    if i < 2 {
        return small(if i == 0 { 1 } else { p.q as u64 });
    }
    let mut row = product(&rows[i - 1], p.q as u64);
    subtract_product(&mut row, &rows[i - 2], powers[1]);
    if i >= p.x + 2 {
        add_product(&mut row, &rows[i - p.x - 2], powers[p.x + 1]);
    } else {
        add_product(&mut row, &rows[0], powers[i - 1]);
    }
    row
}

/// The powers of q - 1 from 0 on.
fn powers(q: usize) -> [u64; POWERS] {
    let mut powers = [1; POWERS];
    for g in 1..POWERS {
        powers[g] = powers[g - 1] * (q as u64 - 1);
    }
    powers
}

/// Whether s is 0 or N(m) - 2 is 0: N(1) is q, and from m = 2 on N(m) is at least q^2.
fn carries_nothing(p: Profile) -> bool {
    p.m == 1 && p.q < LEAST_CARRYING
}
