//! The archive's calls on slices.
//!
//! SAFETY of every block: a pointer and its length come from one slice, and an output is lent to nothing else.

use crate::outcome::Given;
use remizutogya::raw::{self, Reply, Written};
use remizutogya::{Index, Profile};

impl Given {
    fn replied(reply: Reply, values: &[usize]) -> Given {
        Given {
            number: reply.number,
            place: reply.place,
            values: values.iter().map(|&value| value as u64).collect(),
        }
    }
}

impl From<Written> for Given {
    fn from(written: Written) -> Given {
        Given::replied(written.reply, &[written.count])
    }
}

fn own(p: peer::Profile) -> Profile {
    Profile {
        q: p.q,
        m: p.m,
        x: p.x,
    }
}

pub fn build(p: peer::Profile, out: &mut [u64]) -> Written {
    unsafe { raw::remi_build_table(own(p), out.as_mut_ptr(), out.len()) }
}

pub fn shipped(m: usize, out: &mut [u64]) -> Written {
    unsafe { raw::remi_shipped_table(m, out.as_mut_ptr(), out.len()) }
}

pub fn index(p: peer::Profile, table: &[u64], cells: &[u8]) -> Given {
    let indexed = unsafe {
        raw::remi_index_of_word(
            own(p),
            table.as_ptr(),
            table.len(),
            cells.as_ptr(),
            cells.len(),
        )
    };
    Given {
        values: indexed.index.limbs().to_vec(),
        ..Given::replied(indexed.reply, &[])
    }
}

pub fn word(p: peer::Profile, table: &[u64], index: [u64; 10], out: &mut [u8]) -> Written {
    let index = Index::from_limbs(index);
    unsafe {
        raw::remi_word_of_index(
            own(p),
            table.as_ptr(),
            table.len(),
            index,
            out.as_mut_ptr(),
            out.len(),
        )
    }
}

pub fn write(
    p: peer::Profile,
    table: &[u64],
    bytes: &[u8],
    bits: usize,
    out: &mut [u8],
) -> Written {
    let (limbs, room) = (table.len(), out.len());
    let (bytes, count) = (bytes.as_ptr(), bytes.len());
    unsafe {
        raw::remi_write_stream(
            own(p),
            table.as_ptr(),
            limbs,
            bytes,
            count,
            bits,
            out.as_mut_ptr(),
            room,
        )
    }
}

pub fn read(p: peer::Profile, table: &[u64], cells: &[u8], out: &mut [u8]) -> Written {
    let (limbs, room) = (table.len(), out.len());
    let (cells, count) = (cells.as_ptr(), cells.len());
    unsafe {
        raw::remi_read_stream(
            own(p),
            table.as_ptr(),
            limbs,
            cells,
            count,
            out.as_mut_ptr(),
            room,
        )
    }
}

pub fn join(p: peer::Profile, first: &[u8], second: &[u8], out: &mut [u8]) -> Written {
    let (second, count) = (second.as_ptr(), second.len());
    let (lent, room) = (out.as_mut_ptr(), out.len());
    unsafe {
        raw::remi_join_streams(
            own(p),
            first.as_ptr(),
            first.len(),
            second,
            count,
            lent,
            room,
        )
    }
}

pub fn turn(p: peer::Profile, cells: &[u8], out: &mut [u8]) -> Written {
    unsafe {
        raw::remi_turn_stream(
            own(p),
            cells.as_ptr(),
            cells.len(),
            out.as_mut_ptr(),
            out.len(),
        )
    }
}

pub fn find(q: usize, x: usize, cells: &[u8]) -> Given {
    Given::replied(
        unsafe { raw::remi_find_pattern(q, x, cells.as_ptr(), cells.len()) },
        &[],
    )
}

pub fn published(row: usize) -> Given {
    let given = raw::remi_published_profile(row);
    Given::replied(given.reply, &[given.q, given.x, given.m, given.s])
}

pub fn rate(p: peer::Profile, table: &[u64], n: usize) -> Given {
    let rated = unsafe { raw::remi_rate_of_words(own(p), table.as_ptr(), table.len(), n) };
    Given::replied(rated.reply, &[rated.bits, rated.cells])
}

pub fn list(line: &[u8], out: &mut [u8]) -> Written {
    unsafe { raw::remi_list_code(line.as_ptr(), line.len(), out.as_mut_ptr(), out.len()) }
}

pub fn reply_text(number: u8, place: usize, out: &mut [u8]) -> Written {
    unsafe { raw::remi_reply_text(Reply { number, place }, out.as_mut_ptr(), out.len()) }
}
