//! The published profiles, and the rate of a profile.

use crate::{Error, Profile, raw};

/// The number of published profiles.
pub const PUBLISHED_ROWS: usize = 40;

/// A published profile and its message length.
#[derive(Clone, Copy, Debug, PartialEq, Eq, Hash)]
pub struct Published {
    /// The profile.
    pub profile: Profile,
    /// The message length.
    pub s: usize,
}

/// The rate of n words as two whole numbers.
#[derive(Clone, Copy, Debug, PartialEq, Eq, Hash)]
pub struct Rate {
    /// The message bits: n s.
    pub bits: usize,
    /// The cells, with a bridge for each word: n (m + x).
    pub cells: usize,
}

/// Gives the published profile of a row, below [`PUBLISHED_ROWS`].
///
/// ```
/// use remizutogya::{Profile, Published, published_profile};
///
/// let last = Published { profile: Profile::new(32, 108, 2), s: 539 };
/// assert_eq!(published_profile(39), Ok(last));
/// ```
///
/// # Errors
///
/// 12.
pub fn published_profile(row: usize) -> Result<Published, Error> {
    let raw::Published { reply, q, x, m, s } = raw::remi_published_profile(row);
    reply.giving(Published {
        profile: Profile::new(q, m, x),
        s,
    })
}

/// Gives the rate of n words.
///
/// ```
/// use remizutogya::{Profile, Rate, build_table, rate_of_words, table_limbs};
///
/// let p = Profile::new(4, 9, 1);
/// let mut table = [0; table_limbs(9)];
/// build_table(p, &mut table)?;
/// assert_eq!(rate_of_words(p, &table, 2)?, Rate { bits: 34, cells: 20 });
/// # Ok::<(), remizutogya::Error>(())
/// ```
///
/// # Errors
///
/// 1, 2, 3, 4, 5, 6; 7 where n is above [`MOST_WORDS`](crate::MOST_WORDS).
pub fn rate_of_words(p: Profile, table: &[u64], n: usize) -> Result<Rate, Error> {
    let raw::Rated { reply, bits, cells } = raw::rate_of_words(p, table, n);
    reply.giving(Rate { bits, cells })
}
