//! The archive against the peer: every call, on good and damaged input over every profile, must give the same
//! number, place, count and values and leave the same in the lent output and around it.
//!
//! The case of a seed is the same in every run. REMIZUTOGYA_SEED names the first seed, REMIZUTOGYA_CASES how many
//! seeds are gone through; a run of fewer than 100,000 does not have to meet every number.

mod archive;
mod cases;
mod lines;
mod outcome;
mod profiles;
mod random;
mod streams;
mod words;

use peer::Profile;
use random::Random;
use std::collections::{BTreeMap, BTreeSet};
use std::env;
use std::thread;

const FIRST_SEED: u64 = 1;
const FULL_RUN: u64 = 300_000;
const LEAST_FULL_RUN: u64 = 100_000;

/// Every call with the numbers that it can give, a call a line.
const NUMBERS: &str = include_str!("../../../../tests/numbers.txt");

/// A call: its name, its share of the cases, and its case.
struct Call {
    name: &'static str,
    share: usize,
    case: fn(&mut Random, Profile) -> u8,
}

const fn call(name: &'static str, share: usize, case: fn(&mut Random, Profile) -> u8) -> Call {
    Call { name, share, case }
}

const CALLS: [Call; 13] = [
    call("build_table", 6, cases::build),
    call("shipped_table", 2, cases::shipped),
    call("index_of_word", 15, cases::index),
    call("word_of_index", 15, cases::word),
    call("write_stream", 15, cases::write),
    call("read_stream", 20, cases::read),
    call("join_streams", 10, cases::join),
    call("turn_stream", 6, cases::turn),
    call("find_pattern", 4, cases::find),
    call("published_profile", 1, cases::published),
    call("rate_of_words", 4, cases::rate),
    call("list_code", 2, cases::list),
    call("reply_text", 2, cases::reply_text),
];

#[test]
fn the_archive_answers_as_the_peer() {
    let first = variable("REMIZUTOGYA_SEED", FIRST_SEED);
    let cases = variable("REMIZUTOGYA_CASES", FULL_RUN);
    let mut met = BTreeMap::new();
    for k in 0..cases {
        let seed = Seed(first.wrapping_add(k));
        *met.entry(compare(&seed)).or_insert(0) += 1;
    }
    let compared: u64 = met.values().sum();
    println!("{compared} cases from seed {first}");
    assert_eq!(compared, cases);
    if cases >= LEAST_FULL_RUN {
        let lines = NUMBERS.lines().filter(|line| !line.starts_with('#'));
        let expected: BTreeSet<_> = lines.flat_map(numbers_of).collect();
        assert_eq!(met.into_keys().collect::<BTreeSet<_>>(), expected);
    }
}

/// Runs the case of a seed, and gives the call and the number that archive and peer both gave.
fn compare(seed: &Seed) -> (&'static str, u8) {
    let random = &mut Random::new(seed.0);
    let profile = profiles::profile(random, seed.0);
    let mut drawn = random.below(CALLS.iter().map(|call| call.share).sum());
    for call in &CALLS {
        if drawn < call.share {
            return (call.name, (call.case)(random, profile));
        }
        drawn -= call.share;
    }
    unreachable!("a draw is below the sum of the shares")
}

/// Each number of a line of numbers, with the call's name.
fn numbers_of(line: &'static str) -> impl Iterator<Item = (&'static str, u8)> {
    let mut words = line.split_whitespace();
    let call = words.next().expect("a line names its call");
    words.map(move |number| (call, number.parse().expect("a number follows")))
}

/// The number in an environment variable, or the usual one where it is not set.
fn variable(name: &str, usual: u64) -> u64 {
    env::var(name).map_or(usual, |text| {
        text.parse()
            .unwrap_or_else(|_| panic!("{name} is no number: {text}"))
    })
}

/// The seed of the case that is run, told if the case fails.
struct Seed(u64);

impl Drop for Seed {
    fn drop(&mut self) {
        if thread::panicking() {
            eprintln!(
                "to run the case again: REMIZUTOGYA_SEED={} REMIZUTOGYA_CASES=1",
                self.0
            );
        }
    }
}
