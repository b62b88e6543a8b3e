//! How the cost grows: cells a second over the words of a stream and over the length of a word.

use crate::cases::PROFILES;
use crate::timing::Times;
use crate::{calls, input, timing};
use peer::Profile;

/// The words that streams grow to.
const WORDS: [usize; 3] = [1, 16, 256];

/// The lengths that words grow to, at q = 4 and x = 1, in streams of 256 words.
const LENGTHS: [usize; 6] = [4, 8, 16, 32, 64, 128];

/// Every stream that is measured: its profile and its words.
fn streams() -> Vec<(Profile, usize)> {
    let over_words = PROFILES
        .into_iter()
        .flat_map(|(p, _)| WORDS.map(|n| (p, n)));
    let over_length = LENGTHS
        .into_iter()
        .map(|m| (Profile::new(4, m, 1), WORDS[2]));
    over_words.chain(over_length).collect()
}

/// Millions of cells a second, of the library and of the peer.
fn rates(cells: usize, times: Times) -> String {
    let rate = |seconds: f64| cells as f64 / seconds / 1e6;
    format!("{:>10.1} {:>8.1}", rate(times.library), rate(times.peer))
}

/// Prints the table.
pub fn print() {
    let streams = streams();
    let mut reading: Vec<_> = streams.iter().map(|&(p, n)| calls::reading(p, n)).collect();
    let mut writing: Vec<_> = streams.iter().map(|&(p, n)| calls::writing(p, n)).collect();
    let (read, write) = (
        timing::times(reading.iter_mut()),
        timing::times(writing.iter_mut()),
    );
    println!("\nmillions of cells a second         read              write");
    println!(
        "{:<18} {:>5} {:>10} {:>8} {:>10} {:>8}",
        "profile", "words", "library", "peer", "library", "peer"
    );
    for (&(p, n), (read, write)) in streams.iter().zip(read.into_iter().zip(write)) {
        let cells = input::stream_cells(p, n);
        println!(
            "{:<18} {n:>5} {} {}",
            input::name(p),
            rates(cells, read),
            rates(cells, write)
        );
    }
}
