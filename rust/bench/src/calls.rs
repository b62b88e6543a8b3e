//! The calls that are timed, each on both sides: the library and the peer are handed the same, and answer the same.

use crate::input;
use peer::Profile;
use remizutogya::{Error, Index};

/// A call that can be made again and again. It gives the count or the low limb that it is answered.
pub type Call = Box<dyn FnMut() -> u64>;

/// The library's call and the peer's.
pub struct Pair {
    pub library: Call,
    pub peer: Call,
}

/// What the library's answer is in short.
fn done(answer: Result<usize, Error>) -> u64 {
    answer.expect("the input is in order") as u64
}

/// What the peer's answer is in short.
fn peer_done(answer: peer::Answer) -> u64 {
    assert_eq!(answer.number, 0, "the input is in order");
    answer.count as u64
}

/// Reading a stream of n words.
pub fn reading(p: Profile, n: usize) -> Pair {
    let table: &[u64] = input::table(p).leak();
    let cells: &[u8] = input::stream(p, table, n).leak();
    let bytes = input::messages(p, table, n).0.len();
    let (mut out, mut peer_out) = (vec![0; bytes], vec![0; bytes]);
    Pair {
        library: Box::new(move || {
            done(remizutogya::read_stream(
                input::lent(p),
                table,
                cells,
                &mut out,
            ))
        }),
        peer: Box::new(move || peer_done(peer::read(p, table, cells, &mut peer_out))),
    }
}

/// Writing a stream of n words.
pub fn writing(p: Profile, n: usize) -> Pair {
    let table: &[u64] = input::table(p).leak();
    let (bytes, bits) = input::messages(p, table, n);
    let bytes: &[u8] = bytes.leak();
    let cells = input::stream_cells(p, n);
    let (mut out, mut peer_out) = (vec![0; cells], vec![0; cells]);
    Pair {
        library: Box::new(move || {
            done(remizutogya::write_stream(
                input::lent(p),
                table,
                bytes,
                bits,
                &mut out,
            ))
        }),
        peer: Box::new(move || peer_done(peer::write(p, table, bytes, bits, &mut peer_out))),
    }
}

/// Checking a table: the rate of no words, which looks at nothing else.
pub fn table_check(p: Profile) -> Pair {
    let table: &[u64] = input::table(p).leak();
    Pair {
        library: Box::new(move || {
            done(remizutogya::rate_of_words(input::lent(p), table, 0).map(|rate| rate.bits))
        }),
        peer: Box::new(move || peer_done(peer::rate(p, table, 0).0)),
    }
}

/// Building a table.
pub fn table_build(p: Profile) -> Pair {
    let mut out = input::table(p);
    let mut peer_out = out.clone();
    Pair {
        library: Box::new(move || done(remizutogya::build_table(input::lent(p), &mut out))),
        peer: Box::new(move || peer_done(peer::build(p, &mut peer_out))),
    }
}

/// The index of one word.
pub fn index(p: Profile) -> Pair {
    let table: &[u64] = input::table(p).leak();
    let word: &[u8] = input::stream(p, table, 1).leak();
    Pair {
        library: Box::new(move || {
            let index = remizutogya::index_of_word(input::lent(p), table, word);
            index.expect("the word is legal").limbs()[0]
        }),
        peer: Box::new(move || {
            let (answer, index) = peer::index(p, table, word);
            peer_done(answer);
            index[0]
        }),
    }
}

/// The word of one index.
pub fn word(p: Profile) -> Pair {
    let table: &[u64] = input::table(p).leak();
    let (answer, limbs) = peer::index(p, table, &input::stream(p, table, 1));
    peer_done(answer);
    let (mut out, mut peer_out) = (vec![0; p.m], vec![0; p.m]);
    Pair {
        library: Box::new(move || {
            done(remizutogya::word_of_index(
                input::lent(p),
                table,
                Index::from_limbs(limbs),
                &mut out,
            ))
        }),
        peer: Box::new(move || peer_done(peer::word(p, table, &limbs, &mut peer_out))),
    }
}

/// The finder over a run of legal cells.
pub fn finding(q: usize, x: usize, cells: usize) -> Pair {
    let cells: &[u8] = input::legal_cells(q, x, cells).leak();
    Pair {
        library: Box::new(move || done(remizutogya::find_pattern(q, x, cells).map(|()| 0))),
        peer: Box::new(move || peer_done(peer::find(q, x, cells))),
    }
}

/// Turning a stream of n words.
pub fn turning(p: Profile, n: usize) -> Pair {
    let cells: &[u8] = input::stream(p, &input::table(p), n).leak();
    let (mut out, mut peer_out) = (vec![0; cells.len()], vec![0; cells.len()]);
    Pair {
        library: Box::new(move || done(remizutogya::turn_stream(input::lent(p), cells, &mut out))),
        peer: Box::new(move || peer_done(peer::turn(p, cells, &mut peer_out))),
    }
}

/// Joining two streams of n words each.
pub fn joining(p: Profile, n: usize) -> Pair {
    let cells: &[u8] = input::stream(p, &input::table(p), n).leak();
    let joined = input::stream_cells(p, 2 * n);
    let (mut out, mut peer_out) = (vec![0; joined], vec![0; joined]);
    Pair {
        library: Box::new(move || {
            done(remizutogya::join_streams(
                input::lent(p),
                cells,
                cells,
                &mut out,
            ))
        }),
        peer: Box::new(move || peer_done(peer::join(p, cells, cells, &mut peer_out))),
    }
}
