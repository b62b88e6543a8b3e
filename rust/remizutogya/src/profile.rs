//! The profile.

/// A profile: q levels, 2 to 32; word length m, 1 to 128; reach x, 1 to 8.
///
/// Any numbers may be handed in; a call refuses what is out of range.
///
/// ```
/// use remizutogya::{Error, Profile, join_streams};
///
/// let refused = join_streams(Profile::new(33, 5, 1), &[], &[], &mut []).unwrap_err();
/// assert_eq!(refused.number(), Error::LEVELS);
/// ```
#[repr(C)]
#[derive(Clone, Copy, Debug, PartialEq, Eq, Hash)]
pub struct Profile {
    /// The levels of a cell; top is level q - 1.
    pub q: usize,
    /// The cells of a word.
    pub m: usize,
    /// The reach: the most cells below top between the tops of a forbidden pattern, and the cells
    /// of a bridge.
    pub x: usize,
}

impl Profile {
    /// A profile of q levels, word length m and reach x.
    #[must_use]
    pub const fn new(q: usize, m: usize, x: usize) -> Self {
        Profile { q, m, x }
    }
}
