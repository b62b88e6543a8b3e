//! Tables of counts: rows N(0) to N(m), ten limbs a row.

use crate::{Error, LIMBS, Profile, raw};

/// The limbs of a table for words of length m: 10(m+1), or [`usize::MAX`] where that is above it.
///
/// ```
/// assert_eq!(remizutogya::table_limbs(5), 60);
/// ```
pub const fn table_limbs(m: usize) -> usize {
    LIMBS.saturating_mul(m.saturating_add(1))
}

/// Builds the table of a profile, and gives how many limbs it has. It needs [`table_limbs`] limbs.
///
/// ```
/// use remizutogya::{LIMBS, Profile, build_table, table_limbs};
///
/// let mut table = [0; table_limbs(6)];
/// assert_eq!(build_table(Profile::new(4, 6, 1), &mut table), Ok(70));
/// assert_eq!(table[6 * LIMBS], 3409);
/// ```
///
/// # Errors
///
/// 1, 2, 3, 9.
pub fn build_table(p: Profile, out: &mut [u64]) -> Result<usize, Error> {
    raw::build_table(p, out).counted()
}

/// Hands out the shipped table, that of q = 4 and x = 1, for words of length m, and gives how many
/// limbs it has. It needs [`table_limbs`] limbs.
///
/// ```
/// use remizutogya::{Profile, build_table, shipped_table, table_limbs};
///
/// let (mut shipped, mut built) = ([0; table_limbs(128)], [0; table_limbs(128)]);
/// assert_eq!(shipped_table(128, &mut shipped), Ok(1290));
/// assert_eq!(build_table(Profile::new(4, 128, 1), &mut built), Ok(1290));
/// assert_eq!(shipped, built);
/// ```
///
/// # Errors
///
/// 2, 9.
pub fn shipped_table(m: usize, out: &mut [u64]) -> Result<usize, Error> {
    raw::shipped_table(m, out).counted()
}
