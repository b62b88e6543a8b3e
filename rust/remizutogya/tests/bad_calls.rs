//! What the safe calls make of what the archive answers: a refusal is an error with its number and place, and
//! leaves what was lent as it was; an empty slice is lent as nothing. The list of bad calls is `c/bad_calls.c`.

use remizutogya::*;
use std::fmt::Debug;

/// At q = 4, x = 1 there are N(5) = 889 words of 5 cells, and s is 9.
const GOOD: Profile = Profile::new(4, 5, 1);
const GOOD_COUNT: u64 = 889;
const GOOD_BITS: usize = 9;
const WORD: [u8; 5] = [0, 1, 2, 3, 3];

/// What outputs are filled with, and how much of it stands on either side of what is lent.
const MARK: u8 = 0xa5;
const BORDER: usize = 64;

/// An output with a border on either side.
struct Output<T> {
    area: Vec<T>,
}

impl<T: Copy + From<u8> + PartialEq + Debug> Output<T> {
    fn of(room: usize) -> Output<T> {
        Output {
            area: vec![T::from(MARK); BORDER + room + BORDER],
        }
    }

    fn lent(&mut self) -> &mut [T] {
        let end = self.area.len() - BORDER;
        &mut self.area[BORDER..end]
    }

    /// The output must hold this from the front and be as it was elsewhere.
    fn must_hold(&self, front: &[T]) {
        let mut right = vec![T::from(MARK); self.area.len()];
        right[BORDER..][..front.len()].copy_from_slice(front);
        assert_eq!(self.area, right);
    }
}

fn good_table() -> [u64; table_limbs(GOOD.m)] {
    let mut table = [0; table_limbs(GOOD.m)];
    build_table(GOOD, &mut table).expect("the table is built");
    table
}

/// Every one of some calls must be refused with this number at this place.
#[track_caller]
fn must_refuse<T: Debug, const N: usize>(number: u8, place: usize, calls: [Result<T, Error>; N]) {
    for call in calls {
        let error = call.expect_err("the call is refused");
        assert_eq!((error.number(), error.place()), (number, place));
    }
}

fn all_ones() -> Index {
    Index::from_limbs([u64::MAX; LIMBS])
}

/// Every call that takes a profile, with the largest numbers, must refuse it with this number.
fn all_must_refuse(number: u8, p: Profile, table: &[u64], cells: &[u8], room: usize) {
    let mut limbs = Output::<u64>::of(room);
    let mut out = Output::<u8>::of(room);
    let writing = [
        build_table(p, limbs.lent()),
        word_of_index(p, table, all_ones(), out.lent()),
        write_stream(p, table, cells, usize::MAX, out.lent()),
        read_stream(p, table, cells, out.lent()),
        join_streams(p, cells, cells, out.lent()),
        turn_stream(p, cells, out.lent()),
    ];
    must_refuse(number, 0, writing);
    must_refuse(number, 0, [index_of_word(p, table, cells)]);
    must_refuse(number, 0, [rate_of_words(p, table, usize::MAX)]);
    limbs.must_hold(&[]);
    out.must_hold(&[]);
}

#[test]
fn profile_out_of_range() {
    let table = good_table();
    let far = usize::MAX;
    let refused = [
        (Error::LEVELS, Profile { q: far, ..GOOD }),
        (Error::LENGTH, Profile { m: far, ..GOOD }),
        (Error::REACH, Profile { x: far, ..GOOD }),
    ];
    for (number, p) in refused {
        all_must_refuse(number, p, &table, &WORD, table.len());
        all_must_refuse(number, p, &[], &[], 0);
    }
    must_refuse(Error::LENGTH, 0, [shipped_table(far, &mut [])]);
    must_refuse(Error::LEVELS, 0, [find_pattern(far, 0, &WORD)]);
    must_refuse(Error::REACH, 0, [find_pattern(4, far, &WORD)]);
}

#[test]
fn nothing_lent() {
    let without_room = [
        build_table(GOOD, &mut []),
        shipped_table(5, &mut []),
        list_code(&[], &mut []),
    ];
    must_refuse(Error::OUTPUT_SHORT, 0, without_room);
    let without_table = [
        word_of_index(GOOD, &[], all_ones(), &mut []),
        write_stream(GOOD, &[], &[], 0, &mut []),
        read_stream(GOOD, &[], &[], &mut []),
    ];
    must_refuse(Error::TABLE_SHORT, 0, without_table);
    must_refuse(Error::TABLE_SHORT, 0, [index_of_word(GOOD, &[], &[])]);
    must_refuse(Error::TABLE_SHORT, 0, [rate_of_words(GOOD, &[], 0)]);
    let silent = Profile::new(2, 1, 1);
    must_refuse(Error::NO_MESSAGE, 0, [rate_of_words(silent, &[], 0)]);
    assert_eq!(join_streams(GOOD, &[], &[], &mut []), Ok(0));
    assert_eq!(turn_stream(GOOD, &[], &mut []), Ok(0));
    assert_eq!(find_pattern(4, 1, &[]), Ok(()));
}

#[test]
fn one_slice_empty() {
    let table = good_table();
    let without_room = [
        word_of_index(GOOD, &table, all_ones(), &mut []),
        write_stream(GOOD, &table, &[0, 0], GOOD_BITS, &mut []),
        read_stream(GOOD, &table, &WORD, &mut []),
        join_streams(GOOD, &WORD, &WORD, &mut []),
        turn_stream(GOOD, &WORD, &mut []),
    ];
    must_refuse(Error::OUTPUT_SHORT, 0, without_room);
    must_refuse(Error::INPUT_LENGTH, 0, [index_of_word(GOOD, &table, &[])]);
    let streams: [(&[u8], &[u8]); 2] = [(&[], &WORD), (&WORD, &[])];
    for (first, second) in streams {
        let mut out = Output::of(WORD.len() + 1);
        assert_eq!(join_streams(GOOD, first, second, out.lent()), Ok(5));
        out.must_hold(&WORD);
    }
    let mut out = Output::of(WORD.len());
    assert_eq!(read_stream(GOOD, &table, &[], out.lent()), Ok(0));
    assert_eq!(write_stream(GOOD, &table, &[], 0, out.lent()), Ok(0));
    out.must_hold(&[]);
}

#[test]
fn one_place_wrong() {
    let table = good_table();
    let (above, pattern) = ([0, 0, 4, 0, 0], [1, 3, 0, 3, 1]);
    let index =
        |x, table: &[u64], cells: &[u8]| [index_of_word(Profile { x, ..GOOD }, table, cells)];
    must_refuse(Error::TABLE_WRONG, 4, index(2, &table, &WORD));
    must_refuse(Error::CELL, 2, index(1, &table, &above));
    must_refuse(Error::PATTERN, 1, index(1, &table, &pattern));
    must_refuse(Error::PATTERN, 1, [find_pattern(4, 1, &pattern)]);

    let mut out = Output::of(2 * WORD.len() + GOOD.x);
    let joined = join_streams(GOOD, &pattern, &above, out.lent());
    must_refuse(Error::CELL, 7, [joined]);
    let last_bit = write_stream(GOOD, &table, &[0, 1], GOOD_BITS, out.lent());
    must_refuse(Error::BIT_BEHIND, 15, [last_bit]);
    out.must_hold(&[]);
}

#[test]
fn numbers_too_large() {
    let table = good_table();
    let mut out = Output::of(WORD.len());
    for index in [Index::from(GOOD_COUNT), all_ones()] {
        let word = word_of_index(GOOD, &table, index, out.lent());
        must_refuse(Error::NO_SUCH, 0, [word]);
    }
    for bits in [(MOST_WORDS + 1) * GOOD_BITS, usize::MAX] {
        let written = write_stream(GOOD, &table, &[0, 0], bits, out.lent());
        must_refuse(Error::INPUT_LENGTH, 0, [written]);
    }
    out.must_hold(&[]);
    let rates = [MOST_WORDS + 1, usize::MAX].map(|n| rate_of_words(GOOD, &table, n));
    must_refuse(Error::INPUT_LENGTH, 0, rates);
    let rows = [PUBLISHED_ROWS, usize::MAX].map(published_profile);
    must_refuse(Error::NO_SUCH, 0, rows);
    let run = vec![0; MOST_FOUND_CELLS + 1];
    assert_eq!(find_pattern(4, 1, &run[1..]), Ok(()));
    must_refuse(Error::INPUT_LENGTH, 0, [find_pattern(4, 1, &run)]);
    assert_eq!(table_limbs(usize::MAX), usize::MAX);
    assert_eq!(stream_cells(GOOD, usize::MAX), usize::MAX);
}

#[test]
fn no_line_to_list() {
    let mut short = Output::of(LISTING_BYTES - 1);
    let listed = list_code(b"2 3 1\n", short.lent());
    must_refuse(Error::OUTPUT_SHORT, 0, [listed]);
    short.must_hold(&[]);
    let mut text = Output::of(LISTING_BYTES);
    assert_eq!(list_code(&[], text.lent()), Ok(13));
    text.must_hold(b"refused line\n");
}
