//! Time of the two calls of each pair, by turns in one run.

use crate::calls::{Call, Pair};
use std::hint::black_box;
use std::time::Instant;

/// How often each pair is timed, all other pairs in between, and how often each time: the shortest
/// time of all counts, for the longer ones were disturbed.
const PASSES: usize = 8;
const ROUNDS: usize = 8;

/// The least seconds that a timed batch of calls takes.
const BATCH: f64 = 0.002;

/// The seconds that one call takes, of the library and of the peer.
#[derive(Clone, Copy)]
pub struct Times {
    pub library: f64,
    pub peer: f64,
}

/// The seconds of a batch of calls.
fn batch(calls: usize, call: &mut Call) -> f64 {
    let start = Instant::now();
    for _ in 0..calls {
        black_box(call());
    }
    start.elapsed().as_secs_f64()
}

/// How many calls make a batch that is long enough.
fn batch_size(call: &mut Call) -> usize {
    let mut calls = 1;
    while batch(calls, call) < BATCH {
        calls *= 2;
    }
    calls
}

/// Lowers the times of a pair to what is measured now. Both calls answer the same.
fn lower(times: &mut Times, pair: &mut Pair) {
    assert_eq!((pair.library)(), (pair.peer)());
    let (library, peer) = (batch_size(&mut pair.library), batch_size(&mut pair.peer));
    for _ in 0..ROUNDS {
        times.library = times
            .library
            .min(batch(library, &mut pair.library) / library as f64);
        times.peer = times.peer.min(batch(peer, &mut pair.peer) / peer as f64);
    }
}

/// The times of all pairs.
pub fn times<'a>(pairs: impl Iterator<Item = &'a mut Pair>) -> Vec<Times> {
    let unmeasured = Times {
        library: f64::MAX,
        peer: f64::MAX,
    };
    let mut measured: Vec<_> = pairs.map(|pair| (pair, unmeasured)).collect();
    for _ in 0..PASSES {
        for (pair, times) in &mut measured {
            lower(times, pair);
        }
    }
    measured.into_iter().map(|(_, times)| times).collect()
}
