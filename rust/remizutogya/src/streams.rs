//! Calls on streams: words with bridges between neighbours.

use crate::{Error, Profile, raw};

/// The most words that a stream has.
pub const MOST_WORDS: usize = 256;

/// The cells of a stream of n words: nm + (n-1)x, or [`usize::MAX`] where that is above it; 0 for
/// no words.
///
/// ```
/// use remizutogya::{Profile, stream_cells};
///
/// assert_eq!(stream_cells(Profile::new(4, 5, 1), 2), 11);
/// ```
pub const fn stream_cells(p: Profile, n: usize) -> usize {
    let bridges = n.saturating_sub(1);
    n.saturating_mul(p.m)
        .saturating_add(bridges.saturating_mul(p.x))
}

/// Writes the first `bits` bits of `bytes` as a stream, and gives how many cells it has.
///
/// Bits are packed high bit first, s bits a message with no gap between messages. Bytes after those
/// of the bits are ignored. Zero bits write the empty stream. [`stream_cells`] says how many cells
/// the words need.
///
/// ```
/// use remizutogya::{Profile, build_table, stream_cells, table_limbs, write_stream};
///
/// const P: Profile = Profile::new(2, 3, 1);
/// let mut table = [0; table_limbs(P.m)];
/// build_table(P, &mut table)?;
/// // The messages 0 and 3, of two bits each.
/// let mut cells = [0; stream_cells(P, 2)];
/// assert_eq!(write_stream(P, &table, &[0b00_11_0000], 4, &mut cells)?, 7);
/// assert_eq!(cells, [0, 0, 1, 1, 1, 0, 0]);
/// # Ok::<(), remizutogya::Error>(())
/// ```
///
/// # Errors
///
/// 1, 2, 3, 4, 5, 6; 7 where the bits are no multiple of s, carry over [`MOST_WORDS`] words or are
/// not all there; 8 with the bit's place from the first byte's high bit on; 9.
pub fn write_stream(
    p: Profile,
    table: &[u64],
    bytes: &[u8],
    bits: usize,
    out: &mut [u8],
) -> Result<usize, Error> {
    raw::write_stream(p, table, bytes, bits, out).counted()
}

/// Reads a stream back to its message bits, and gives how many bits it has: s for each word.
///
/// The bits are written high bit first, with zero bits to the end of the last byte. The empty
/// stream reads as zero bits.
///
/// ```
/// use remizutogya::{Profile, build_table, read_stream, table_limbs};
///
/// let p = Profile::new(2, 3, 1);
/// let mut table = [0; table_limbs(3)];
/// build_table(p, &mut table)?;
/// let mut bytes = [0];
/// assert_eq!(read_stream(p, &table, &[0, 0, 1, 1, 1, 0, 0], &mut bytes)?, 4);
/// assert_eq!(bytes, [0b00_11_0000]);
/// # Ok::<(), remizutogya::Error>(())
/// ```
///
/// # Errors
///
/// 1, 2, 3, 4, 5, 6; 7 where no stream of at most [`MOST_WORDS`] words has so many cells; 9; 10 in
/// any cell, bridges included; 11 inside a word; 13, 14, 15.
pub fn read_stream(
    p: Profile,
    table: &[u64],
    cells: &[u8],
    out: &mut [u8],
) -> Result<usize, Error> {
    raw::read_stream(p, table, cells, out).counted()
}

/// Joins two streams, bridged anew where both have words, and gives how many cells the joined
/// stream has.
///
/// ```
/// use remizutogya::{Profile, join_streams};
///
/// let mut cells = [0; 7];
/// assert_eq!(join_streams(Profile::new(2, 3, 1), &[0, 0, 1], &[1, 0, 0], &mut cells), Ok(7));
/// assert_eq!(cells, [0, 0, 1, 1, 1, 0, 0]);
/// ```
///
/// # Errors
///
/// 1, 2, 3; 7 where either is as long as no stream is, or both have over [`MOST_WORDS`] words
/// together; 9, 10, 11, 13, where a place in the second stream counts on from the first's length.
pub fn join_streams(
    p: Profile,
    first: &[u8],
    second: &[u8],
    out: &mut [u8],
) -> Result<usize, Error> {
    raw::join_streams(p, first, second, out).counted()
}

/// Turns a stream end for end, and gives how many cells it has.
///
/// ```
/// use remizutogya::{Profile, turn_stream};
///
/// let mut cells = [0; 7];
/// assert_eq!(turn_stream(Profile::new(4, 3, 1), &[0, 1, 2, 0, 3, 3, 0], &mut cells), Ok(7));
/// assert_eq!(cells, [0, 3, 3, 0, 2, 1, 0]);
/// ```
///
/// # Errors
///
/// 1, 2, 3; 7 where no stream of at most [`MOST_WORDS`] words has so many cells; 9, 10, 11, 13,
/// with places in the stream as lent.
pub fn turn_stream(p: Profile, cells: &[u8], out: &mut [u8]) -> Result<usize, Error> {
    raw::turn_stream(p, cells, out).counted()
}
