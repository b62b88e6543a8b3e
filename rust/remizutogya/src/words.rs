//! Calls on one word, and on a run of cells.

use crate::{Error, Index, Profile, raw};

/// The most cells that [`find_pattern`] takes.
pub const MOST_FOUND_CELLS: usize = 65_536;

/// Gives the index of a word, which has exactly m cells.
///
/// ```
/// use remizutogya::{Index, Profile, build_table, index_of_word, table_limbs};
///
/// let p = Profile::new(4, 6, 2);
/// let mut table = [0; table_limbs(6)];
/// build_table(p, &mut table)?;
/// assert_eq!(index_of_word(p, &table, &[0, 1, 1, 3, 0, 2])?, Index::from(334));
/// # Ok::<(), remizutogya::Error>(())
/// ```
///
/// # Errors
///
/// 1, 2, 3, 5, 6; 7 where there are not m cells; 10, 11.
pub fn index_of_word(p: Profile, table: &[u64], cells: &[u8]) -> Result<Index, Error> {
    let indexed = raw::index_of_word(p, table, cells);
    indexed.reply.giving(indexed.index)
}

/// Writes the word of an index, and gives how many cells it has, m.
///
/// ```
/// use remizutogya::{Index, Profile, build_table, table_limbs, word_of_index};
///
/// let p = Profile::new(4, 6, 2);
/// let mut table = [0; table_limbs(6)];
/// build_table(p, &mut table)?;
/// let mut word = [0; 6];
/// assert_eq!(word_of_index(p, &table, Index::from(1850), &mut word)?, 6);
/// assert_eq!(word, [2, 0, 3, 3, 2, 0]);
/// # Ok::<(), remizutogya::Error>(())
/// ```
///
/// # Errors
///
/// 1, 2, 3, 5, 6, 9; 12 where the index is at or above N(m).
pub fn word_of_index(
    p: Profile,
    table: &[u64],
    index: Index,
    out: &mut [u8],
) -> Result<usize, Error> {
    raw::word_of_index(p, table, index, out).counted()
}

/// Seeks the first forbidden pattern in a run of at most [`MOST_FOUND_CELLS`] cells; `Ok` says that
/// there is none.
///
/// ```
/// use remizutogya::{Error, find_pattern};
///
/// let cells = [3, 2, 2, 3];
/// assert_eq!(find_pattern(4, 1, &cells), Ok(()));
/// assert_eq!(find_pattern(4, 2, &cells).unwrap_err().number(), Error::PATTERN);
/// ```
///
/// # Errors
///
/// 1, 3; 7 for more cells; 10, wherever it stands; 11 at the first top of the leftmost pattern.
pub fn find_pattern(q: usize, x: usize, cells: &[u8]) -> Result<(), Error> {
    raw::find_pattern(q, x, cells).giving(())
}
