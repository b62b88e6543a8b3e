//! The peer: every call of document 01 a second time, in plain safe Rust, by the recursion, the weights and
//! the algorithm as source 003 prints them, on numbers of ten limbs. It shares no code with the library,
//! which is tested and measured against it.

mod answers;
mod bits;
mod catalogue;
mod cells;
mod limbs;
mod listing;
mod streams;
mod table;
mod words;

pub use answers::{Answer, Profile, reply_text};
pub use catalogue::{published, rate};
pub use cells::find;
pub use listing::list;
pub use streams::{join, read, turn, write};
pub use table::{build, shipped};
pub use words::{index, word};
