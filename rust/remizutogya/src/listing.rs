//! The listing of a small code as text.

use crate::{Error, raw};

/// The bytes that [`list_code`] must be lent; no text is longer.
pub const LISTING_BYTES: usize = 262_144;

/// Writes what the listing program prints for a line, and gives how many bytes of text that is.
///
/// The line is q m x as decimals with single spaces and a newline. What cannot be listed is
/// answered by text too: `refused line`, `refused` and a number from 1 to 3, or `too many` for a
/// code of over 4,096 words.
///
/// ```
/// use remizutogya::{LISTING_BYTES, list_code};
///
/// let mut text = vec![0; LISTING_BYTES];
/// let bytes = list_code(b"2 1 1\n", &mut text)?;
/// assert_eq!(&text[..bytes], b"2 1 1 2 0\n0 0 -\n1 1 -\n");
/// # Ok::<(), remizutogya::Error>(())
/// ```
///
/// # Errors
///
/// 9 where less than [`LISTING_BYTES`] bytes are lent, whatever the line.
pub fn list_code(line: &[u8], out: &mut [u8]) -> Result<usize, Error> {
    raw::list_code(line, out).counted()
}
