//! The cells of flash cartridges: tables of counts, words and their indices, streams written, read,
//! joined and turned, a pattern finder, the published profiles and their rates, the listing of a
//! small code.
//!
//! The work is done by an archive that is proved in Rattle; this crate lends it slices and turns
//! its replies into results. No call allocates, panics or keeps a state, so that any number of
//! threads may call at once.
//!
//! A profile is q levels, word length m and reach x. Top is level q - 1. A forbidden pattern is a
//! top, then 1 to x cells below top, then a top; a legal word has m cells, each below q, and no
//! such pattern. N(m) is the number of legal words of m cells, in the order of their leftmost
//! differing level, and the index of a word the number of them before it. The words of index 1 to
//! 2^s carry messages of s bits: the message is the index less one.
//!
//! Words are written as a stream, with a bridge of x cells between neighbours: all top if the cell
//! before it and the cell after it are both top, otherwise all 0. The whole round, with two
//! messages of nine bits:
//!
//! ```
//! use remizutogya::{Error, Profile, build_table, read_stream, stream_cells, table_limbs, write_stream};
//!
//! const P: Profile = Profile::new(4, 5, 1);
//!
//! let mut table = [0; table_limbs(P.m)];
//! build_table(P, &mut table)?;
//!
//! // The messages 107 and 415, high bit first: 001101011 110011111.
//! let messages = [0x35, 0xe7, 0xc0];
//! let mut cells = [0; stream_cells(P, 2)];
//! assert_eq!(write_stream(P, &table, &messages, 18, &mut cells)?, 11);
//! assert_eq!(cells, [0, 1, 2, 3, 3, 0, 1, 3, 0, 0, 1]);
//!
//! let mut bytes = [0; 3];
//! assert_eq!(read_stream(P, &table, &cells, &mut bytes)?, 18);
//! assert_eq!(bytes, messages);
//!
//! // A damaged cell: 13031 has a forbidden pattern, whose first top is at place 7 of the stream.
//! cells[9] = 3;
//! let refused = read_stream(P, &table, &cells, &mut bytes).unwrap_err();
//! assert_eq!((refused.number(), refused.place()), (Error::PATTERN, 7));
//! # Ok::<(), Error>(())
//! ```
//!
//! What is handed in may be anything at all. A call that cannot do what it is asked gives an
//! [`Error`] and has written to nothing; a call that is done writes from the front of what it is
//! lent and leaves the rest as it was.

#![warn(missing_docs)]
#![deny(unsafe_code)]

mod catalogue;
mod error;
mod listing;
mod numbers;
mod profile;
// The archive's calls take pointers; all that is unsafe stands there.
#[allow(unsafe_code)]
pub mod raw;
mod streams;
mod tables;
mod words;

pub use catalogue::{PUBLISHED_ROWS, Published, Rate, published_profile, rate_of_words};
pub use error::Error;
pub use listing::{LISTING_BYTES, list_code};
pub use numbers::{Index, LIMBS, Message};
pub use profile::Profile;
pub use streams::{MOST_WORDS, join_streams, read_stream, stream_cells, turn_stream, write_stream};
pub use tables::{build_table, shipped_table, table_limbs};
pub use words::{MOST_FOUND_CELLS, find_pattern, index_of_word, word_of_index};
