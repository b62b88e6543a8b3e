//! The archive's own calls, as `c/remizutogya.h` declares and documents them.
//!
//! Behind them come the same calls with slices in place of pointers, on which the rest of the crate
//! stands. All that is `unsafe` in this crate stands in this file.
//!
//! # Safety
//!
//! A slice is lent as a pointer and a length. The pointer must be good for as many elements as the
//! length says, and may be null only where that is 0. What is lent to be written must overlap
//! nothing else that is lent. The archive keeps no pointer when it answers.

use crate::{Index, Profile};

/// A reply: its number, 0 where the call is done, and its place where the number has one.
#[repr(C)]
#[derive(Clone, Copy, Debug, PartialEq, Eq)]
pub struct Reply {
    /// The number.
    pub number: u8,
    /// The place; 0 where the number has none.
    pub place: usize,
}

/// The answer of a call that writes.
#[repr(C)]
#[derive(Clone, Copy, Debug, PartialEq, Eq)]
pub struct Written {
    /// The reply.
    pub reply: Reply,
    /// How many cells, bits, limbs or bytes of text were written.
    pub count: usize,
}

/// The bytes that [`remi_reply_text`] must be lent; no text is longer.
pub const REPLY_BYTES: usize = 256;

/// The answer of [`remi_index_of_word`].
#[repr(C)]
#[derive(Clone, Copy, Debug, PartialEq, Eq)]
pub struct Indexed {
    /// The reply.
    pub reply: Reply,
    /// The index of the word.
    pub index: Index,
}

/// The answer of [`remi_published_profile`].
#[repr(C)]
#[derive(Clone, Copy, Debug, PartialEq, Eq)]
pub struct Published {
    /// The reply.
    pub reply: Reply,
    /// The levels.
    pub q: usize,
    /// The reach.
    pub x: usize,
    /// The word length.
    pub m: usize,
    /// The message length.
    pub s: usize,
}

/// The answer of [`remi_rate_of_words`].
#[repr(C)]
#[derive(Clone, Copy, Debug, PartialEq, Eq)]
pub struct Rated {
    /// The reply.
    pub reply: Reply,
    /// The message bits of the words.
    pub bits: usize,
    /// The cells of the words, each with a bridge.
    pub cells: usize,
}

unsafe extern "C" {
    /// See [`crate::build_table`].
    pub fn remi_build_table(p: Profile, out: *mut u64, out_limbs: usize) -> Written;

    /// See [`crate::shipped_table`].
    pub fn remi_shipped_table(m: usize, out: *mut u64, out_limbs: usize) -> Written;

    /// See [`crate::index_of_word`].
    pub fn remi_index_of_word(
        p: Profile,
        table: *const u64,
        table_limbs: usize,
        cells: *const u8,
        n_cells: usize,
    ) -> Indexed;

    /// See [`crate::word_of_index`].
    pub fn remi_word_of_index(
        p: Profile,
        table: *const u64,
        table_limbs: usize,
        i: Index,
        out: *mut u8,
        out_cells: usize,
    ) -> Written;

    /// See [`crate::write_stream`].
    pub fn remi_write_stream(
        p: Profile,
        table: *const u64,
        table_limbs: usize,
        bytes: *const u8,
        n_bytes: usize,
        bits: usize,
        out: *mut u8,
        out_cells: usize,
    ) -> Written;

    /// See [`crate::read_stream`].
    pub fn remi_read_stream(
        p: Profile,
        table: *const u64,
        table_limbs: usize,
        cells: *const u8,
        n_cells: usize,
        out: *mut u8,
        out_bytes: usize,
    ) -> Written;

    /// See [`crate::join_streams`].
    pub fn remi_join_streams(
        p: Profile,
        first: *const u8,
        n_first: usize,
        second: *const u8,
        n_second: usize,
        out: *mut u8,
        out_cells: usize,
    ) -> Written;

    /// See [`crate::turn_stream`].
    pub fn remi_turn_stream(
        p: Profile,
        cells: *const u8,
        n_cells: usize,
        out: *mut u8,
        out_cells: usize,
    ) -> Written;

    /// See [`crate::find_pattern`].
    pub fn remi_find_pattern(q: usize, x: usize, cells: *const u8, n_cells: usize) -> Reply;

    /// See [`crate::published_profile`].
    pub safe fn remi_published_profile(row: usize) -> Published;

    /// See [`crate::rate_of_words`].
    pub fn remi_rate_of_words(p: Profile, table: *const u64, table_limbs: usize, n: usize)
    -> Rated;

    /// See [`crate::list_code`].
    pub fn remi_list_code(
        line: *const u8,
        n_line: usize,
        out: *mut u8,
        out_bytes: usize,
    ) -> Written;

    /// What a reply says in words, which is what [`crate::Error`] displays.
    pub fn remi_reply_text(reply: Reply, out: *mut u8, out_bytes: usize) -> Written;
}

// The same calls with slices.

pub(crate) fn build_table(p: Profile, out: &mut [u64]) -> Written {
    // SAFETY: pointer and length are a slice's.
    unsafe { remi_build_table(p, out.as_mut_ptr(), out.len()) }
}

pub(crate) fn shipped_table(m: usize, out: &mut [u64]) -> Written {
    // SAFETY: pointer and length are a slice's.
    unsafe { remi_shipped_table(m, out.as_mut_ptr(), out.len()) }
}

pub(crate) fn index_of_word(p: Profile, table: &[u64], cells: &[u8]) -> Indexed {
    // SAFETY: pointers and lengths are of slices.
    unsafe { remi_index_of_word(p, table.as_ptr(), table.len(), cells.as_ptr(), cells.len()) }
}

pub(crate) fn word_of_index(p: Profile, table: &[u64], i: Index, out: &mut [u8]) -> Written {
    // SAFETY: pointers and lengths are of slices, and `out` is lent to this call alone.
    unsafe {
        remi_word_of_index(
            p,
            table.as_ptr(),
            table.len(),
            i,
            out.as_mut_ptr(),
            out.len(),
        )
    }
}

pub(crate) fn write_stream(
    p: Profile,
    table: &[u64],
    bytes: &[u8],
    bits: usize,
    out: &mut [u8],
) -> Written {
    // SAFETY: pointers and lengths are of slices, and `out` is lent to this call alone.
    unsafe {
        remi_write_stream(
            p,
            table.as_ptr(),
            table.len(),
            bytes.as_ptr(),
            bytes.len(),
            bits,
            out.as_mut_ptr(),
            out.len(),
        )
    }
}

pub(crate) fn read_stream(p: Profile, table: &[u64], cells: &[u8], out: &mut [u8]) -> Written {
    // SAFETY: pointers and lengths are of slices, and `out` is lent to this call alone.
    unsafe {
        remi_read_stream(
            p,
            table.as_ptr(),
            table.len(),
            cells.as_ptr(),
            cells.len(),
            out.as_mut_ptr(),
            out.len(),
        )
    }
}

pub(crate) fn join_streams(p: Profile, first: &[u8], second: &[u8], out: &mut [u8]) -> Written {
    // SAFETY: pointers and lengths are of slices, and `out` is lent to this call alone.
    unsafe {
        remi_join_streams(
            p,
            first.as_ptr(),
            first.len(),
            second.as_ptr(),
            second.len(),
            out.as_mut_ptr(),
            out.len(),
        )
    }
}

pub(crate) fn turn_stream(p: Profile, cells: &[u8], out: &mut [u8]) -> Written {
    // SAFETY: pointers and lengths are of slices, and `out` is lent to this call alone.
    unsafe { remi_turn_stream(p, cells.as_ptr(), cells.len(), out.as_mut_ptr(), out.len()) }
}

pub(crate) fn find_pattern(q: usize, x: usize, cells: &[u8]) -> Reply {
    // SAFETY: pointer and length are a slice's.
    unsafe { remi_find_pattern(q, x, cells.as_ptr(), cells.len()) }
}

pub(crate) fn rate_of_words(p: Profile, table: &[u64], n: usize) -> Rated {
    // SAFETY: pointer and length are a slice's.
    unsafe { remi_rate_of_words(p, table.as_ptr(), table.len(), n) }
}

pub(crate) fn list_code(line: &[u8], out: &mut [u8]) -> Written {
    // SAFETY: pointers and lengths are of slices, and `out` is lent to this call alone.
    unsafe { remi_list_code(line.as_ptr(), line.len(), out.as_mut_ptr(), out.len()) }
}

pub(crate) fn reply_text(reply: Reply, out: &mut [u8]) -> Written {
    // SAFETY: pointer and length are a slice's.
    unsafe { remi_reply_text(reply, out.as_mut_ptr(), out.len()) }
}
