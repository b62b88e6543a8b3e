//! Streams written, read, joined and turned.

use crate::answers::{
    ALL_ZERO, Answer, BIT_BEHIND, BRIDGE, CELL, INDEX_ABOVE, INPUT_LENGTH, OUTPUT_SHORT, PATTERN,
    Profile, Tested, refuse_at, refuse_if, test_profile,
};
use crate::bits::{Packer, bytes_of, first_behind, number_at};
use crate::cells::{first_above, first_pattern};
use crate::limbs::{LIMBS, Number, add_product, is_below, power_of_two, small, subtract};
use crate::table::Code;
use crate::words::{index_of, put_word};

/// The most words of a stream.
pub const MOST_WORDS: usize = 256;

/// The index less the message.
const STEP: Number = small(1);

/// Writes message bits as a bridged stream.
pub fn write(p: Profile, table: &[u64], bytes: &[u8], bits: usize, out: &mut [u8]) -> Answer {
    Answer::of(tested_write(p, table, bytes, bits, out))
}

fn tested_write(
    p: Profile,
    table: &[u64],
    bytes: &[u8],
    bits: usize,
    out: &mut [u8],
) -> Tested<usize> {
    let code = Code::lent_for_messages(p, table)?;
    let s = code.message_length();
    let words = bits / s;
    refuse_if(
        !bits.is_multiple_of(s) || words > MOST_WORDS || bytes.len() < bytes_of(bits),
        INPUT_LENGTH,
    )?;
    refuse_at(first_behind(bytes, bits), BIT_BEHIND)?;
    let cells = cells_of(p, words);
    refuse_if(out.len() < cells, OUTPUT_SHORT)?;
    let stream = &mut out[..cells];
    for (k, part) in stream.chunks_mut(p.stride()).enumerate() {
        let mut index = number_at(bytes, k * s, s);
        add_product(&mut index, &STEP, 1);
        put_word(&code, index, &mut part[..p.m]);
    }
    for start in bridges(p, cells) {
        let right = bridge_level(p, stream[start - 1], stream[start + p.x]);
        stream[start..start + p.x].fill(right);
    }
    Ok(cells)
}

/// Reads a stream back to message bits.
pub fn read(p: Profile, table: &[u64], cells: &[u8], out: &mut [u8]) -> Answer {
    Answer::of(tested_read(p, table, cells, out))
}

fn tested_read(p: Profile, table: &[u64], cells: &[u8], out: &mut [u8]) -> Tested<usize> {
    let code = Code::lent_for_messages(p, table)?;
    let s = code.message_length();
    let bits = tested_words(p, &[cells])? * s;
    refuse_if(out.len() < bytes_of(bits), OUTPUT_SHORT)?;
    test_streams(p, &[cells])?;
    let mut indices: Vec<Number> = words(p, cells)
        .map(|(_, word)| index_of(&code, word))
        .collect();
    test_indices(p, s, &indices)?;
    let mut packer = Packer::new(out);
    for index in &mut indices {
        subtract(index, &STEP);
        packer.put(index, s);
    }
    packer.finish();
    Ok(bits)
}

/// Refuses a word of all 0, then an index above 2^s. A word of all top has index N(m) - 1, which is above 2^s,
/// so number 16 is never the lowest.
fn test_indices(p: Profile, s: usize, indices: &[Number]) -> Tested<()> {
    let last = power_of_two(s);
    let start_of =
        |test: &dyn Fn(&Number) -> bool| indices.iter().position(test).map(|k| k * p.stride());
    refuse_at(start_of(&|index| *index == [0; LIMBS]), ALL_ZERO)?;
    refuse_at(start_of(&|index| is_below(&last, index)), INDEX_ABOVE)
}

/// Joins two streams.
pub fn join(p: Profile, first: &[u8], second: &[u8], out: &mut [u8]) -> Answer {
    Answer::of(tested_join(p, first, second, out))
}

fn tested_join(p: Profile, first: &[u8], second: &[u8], out: &mut [u8]) -> Tested<usize> {
    test_profile(p)?;
    let cells = cells_of(p, tested_words(p, &[first, second])?);
    refuse_if(out.len() < cells, OUTPUT_SHORT)?;
    test_streams(p, &[first, second])?;
    out[..first.len()].copy_from_slice(first);
    out[cells - second.len()..cells].copy_from_slice(second);
    if let (Some(&before), Some(&after)) = (first.last(), second.first()) {
        out[first.len()..][..p.x].fill(bridge_level(p, before, after));
    }
    Ok(cells)
}

/// Turns a stream end for end.
pub fn turn(p: Profile, cells: &[u8], out: &mut [u8]) -> Answer {
    Answer::of(tested_turn(p, cells, out))
}

fn tested_turn(p: Profile, cells: &[u8], out: &mut [u8]) -> Tested<usize> {
    test_profile(p)?;
    tested_words(p, &[cells])?;
    refuse_if(out.len() < cells.len(), OUTPUT_SHORT)?;
    test_streams(p, &[cells])?;
    let turned = &mut out[..cells.len()];
    turned.copy_from_slice(cells);
    turned.reverse();
    Ok(cells.len())
}

/// The words of all streams together. Refuses a length that no stream has, and too many words.
fn tested_words(p: Profile, streams: &[&[u8]]) -> Tested<usize> {
    let mut words = 0;
    for stream in streams.iter().filter(|stream| !stream.is_empty()) {
        let cells = stream.len() + p.x;
        refuse_if(!cells.is_multiple_of(p.stride()), INPUT_LENGTH)?;
        words += cells / p.stride();
    }
    refuse_if(words > MOST_WORDS, INPUT_LENGTH)?;
    Ok(words)
}

/// Refuses the lowest number that is found in the cells of streams, at its first place, counted from the
/// start of the first stream.
fn test_streams(p: Profile, streams: &[&[u8]]) -> Tested<()> {
    type Seek = fn(Profile, &[u8]) -> Option<usize>;
    let tests: [(u8, Seek); 3] = [
        (CELL, |p, cells| first_above(p.q, cells)),
        (PATTERN, pattern_in_words),
        (BRIDGE, wrong_bridge_cell),
    ];
    for (number, seek) in tests {
        let mut before = 0;
        for cells in streams {
            refuse_at(seek(p, cells).map(|place| before + place), number)?;
            before += cells.len();
        }
    }
    Ok(())
}

/// The first top of the first pattern inside a word.
fn pattern_in_words(p: Profile, cells: &[u8]) -> Option<usize> {
    words(p, cells)
        .find_map(|(start, word)| first_pattern(p.q, p.x, word).map(|place| start + place))
}

/// The first cell of a bridge that has another level than the bridge must have.
fn wrong_bridge_cell(p: Profile, cells: &[u8]) -> Option<usize> {
    bridges(p, cells.len()).find_map(|start| {
        let right = bridge_level(p, cells[start - 1], cells[start + p.x]);
        cells[start..start + p.x]
            .iter()
            .position(|&cell| cell != right)
            .map(|place| start + place)
    })
}

/// The level of a bridge between two cells.
fn bridge_level(p: Profile, before: u8, after: u8) -> u8 {
    if before == p.top() && after == p.top() {
        p.top()
    } else {
        0
    }
}

/// The cells of a stream of so many words.
fn cells_of(p: Profile, words: usize) -> usize {
    (words * p.stride()).saturating_sub(p.x)
}

/// The words of a stream, each with the place of its first cell.
fn words(p: Profile, cells: &[u8]) -> impl Iterator<Item = (usize, &[u8])> {
    cells
        .chunks(p.stride())
        .enumerate()
        .map(move |(k, part)| (k * p.stride(), &part[..p.m]))
}

/// The places of the first cells of the bridges of a stream.
fn bridges(p: Profile, cells: usize) -> impl Iterator<Item = usize> {
    (p.m..cells).step_by(p.stride())
}
