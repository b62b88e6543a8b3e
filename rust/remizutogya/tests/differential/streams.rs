//! Messages and streams.

use crate::profiles::{in_range, message_length, right_table};
use crate::random::Random;
use crate::words::{damage_cell, damage_length, legal_word};
use peer::Profile;

const MOST_WORDS: usize = 256;

/// Words up to this length are put into streams by the hundred.
const SHORT: usize = 6;

/// How many words a stream has: few, or, mostly if they are short, about the most.
pub fn word_count(random: &mut Random, p: Profile) -> usize {
    let many = in_range(p).m <= SHORT || random.once_in(50);
    match random.below(20) {
        0 => 0,
        1..5 => 1,
        5 if many => random.within(MOST_WORDS - 1..=MOST_WORDS + 1),
        6 if many => random.within(6..=MOST_WORDS),
        _ => random.within(2..=5),
    }
}

/// The cells of n words and their bridges.
pub fn stream_cells(p: Profile, n: usize) -> usize {
    let p = in_range(p);
    (n * (p.m + p.x)).saturating_sub(p.x)
}

/// The bytes and the bit count of n messages: mostly right.
pub fn messages(random: &mut Random, p: Profile, n: usize) -> (Vec<u8>, usize) {
    let s = message_length(p);
    let bits = n * s;
    let mut bytes = right_bytes(random, bits);
    match random.below(32) {
        0 => (bytes, bits + 1),
        1 => (bytes, bits.saturating_sub(1)),
        2 => (
            bytes,
            random.pick(&[usize::MAX, usize::MAX - 7, usize::MAX / s.max(1) * s]),
        ),
        3 => (bytes, random.below(bits + s + 1)),
        4 => (random.bytes(bits / 8), bits),
        5..8 => (random.bytes(bits.div_ceil(8)), bits),
        8..12 => {
            bytes.extend(random.bytes(2));
            (bytes, bits)
        }
        _ => (bytes, bits),
    }
}

/// So many random bits, then zero bits to the end of the last byte.
fn right_bytes(random: &mut Random, bits: usize) -> Vec<u8> {
    let mut bytes = random.bytes(bits.div_ceil(8));
    if let Some(last) = bytes.last_mut() {
        *last &= u8::MAX << (bits.next_multiple_of(8) - bits);
    }
    bytes
}

/// A stream of n words: mostly right, mostly of words that carry messages.
pub fn stream(random: &mut Random, p: Profile, n: usize) -> Vec<u8> {
    let p = in_range(p);
    let mut cells = written_stream(random, p, n);
    if cells.is_empty() || random.once_in(4) {
        cells.resize(stream_cells(p, n), 0);
        (0..n).for_each(|k| put_legal_word(random, p, k, &mut cells));
    } else if random.once_in(4) {
        let k = random.below(n);
        put_legal_word(random, p, k, &mut cells);
    }
    set_bridges(p, &mut cells);
    match random.below(12) {
        0 | 1 => damage_cell(random, p.q, &mut cells),
        2 => (0..4).for_each(|_| damage_cell(random, p.q, &mut cells)),
        3 => damage_length(random, &mut cells),
        4 if n > 1 => damage_bridge(random, p, n, &mut cells),
        _ => {}
    }
    cells
}

/// The stream of n random messages; no cells where number 4 applies to the profile or n is too much.
fn written_stream(random: &mut Random, p: Profile, n: usize) -> Vec<u8> {
    let bits = n * message_length(p);
    let bytes = right_bytes(random, bits);
    let mut cells = vec![0; stream_cells(p, n)];
    let written = peer::write(p, &right_table(p), &bytes, bits, &mut cells);
    cells.truncate(written.count);
    cells
}

/// Puts any legal word in the place of word k of a stream.
fn put_legal_word(random: &mut Random, p: Profile, k: usize, cells: &mut [u8]) {
    cells[k * (p.m + p.x)..][..p.m].copy_from_slice(&legal_word(random, p));
}

/// Sets every bridge: all top between two tops, else all 0.
fn set_bridges(p: Profile, cells: &mut [u8]) {
    let top = p.q as u8 - 1;
    for start in (p.m..cells.len()).step_by(p.m + p.x) {
        let between_tops = [cells[start - 1], cells[start + p.x]] == [top, top];
        cells[start..start + p.x].fill(if between_tops { top } else { 0 });
    }
}

/// Sets a bridge to the level that it must not have, or one cell of it to any.
fn damage_bridge(random: &mut Random, p: Profile, n: usize, cells: &mut [u8]) {
    let start = random.below(n - 1) * (p.m + p.x) + p.m;
    let bridge = &mut cells[start..start + p.x];
    if random.once_in(2) {
        bridge[random.below(p.x)] = random.below(p.q) as u8;
    } else {
        bridge.fill(if bridge[0] == 0 { p.q as u8 - 1 } else { 0 });
    }
}
