//! The cases of the tables of ratios, in the order in which they are printed.

use crate::calls::{self, Pair};
use crate::input;
use peer::Profile;

/// The words of each stream, and the cells of each run that the finder is handed.
const WORDS: usize = 256;
const RUN: usize = 65_536;

/// The profiles that are measured, each with the ratio that writing may have at most.
pub const PROFILES: [(Profile, f64); 4] = [
    (Profile::new(4, 97, 1), 0.80),
    (Profile::new(4, 14, 1), 0.40),
    (Profile::new(8, 103, 1), 0.65),
    (Profile::new(32, 117, 1), 0.40),
];

/// A call on both sides.
pub struct Case {
    /// What is called, and on what shape.
    pub name: String,
    /// What the library's time may be at most, the peer's being 1.
    pub bound: Option<f64>,
    /// The two calls.
    pub pair: Pair,
}

/// A case of a profile.
fn case(call: &str, p: Profile, bound: Option<f64>, pair: Pair) -> Case {
    Case {
        name: format!("{call}, {}", input::name(p)),
        bound,
        pair,
    }
}

/// A case of the finder.
fn finder(x: usize, bound: f64) -> Case {
    Case {
        name: format!("find, 65,536 cells, q=4 x={x}"),
        bound: Some(bound),
        pair: calls::finding(4, x, RUN),
    }
}

/// What the check of a table may have at most, where that is asked.
fn check_bound(p: Profile) -> Option<f64> {
    match p.q {
        4 => Some(0.5),
        32 => Some(0.8),
        _ => None,
    }
}

/// Every case.
pub fn all() -> Vec<Case> {
    let over = |make: &dyn Fn(Profile, f64) -> Case| PROFILES.map(|(p, bound)| make(p, bound));
    let mut cases = Vec::new();
    cases.extend(over(&|p, _| {
        case("read", p, Some(0.35), calls::reading(p, WORDS))
    }));
    cases.extend(over(&|p, bound| {
        case("write", p, Some(bound), calls::writing(p, WORDS))
    }));
    cases.extend(over(&|p, _| {
        case("table check", p, check_bound(p), calls::table_check(p))
    }));
    cases.extend(over(&|p, _| {
        case("table build", p, None, calls::table_build(p))
    }));
    cases.extend(over(&|p, _| case("index", p, Some(0.8), calls::index(p))));
    cases.extend(over(&|p, _| case("word", p, None, calls::word(p))));
    cases.extend([finder(1, 0.10), finder(8, 0.6)]);
    cases.extend(over(&|p, _| {
        case("turn", p, Some(0.3), calls::turning(p, WORDS))
    }));
    cases.extend(over(&|p, _| {
        case("join", p, None, calls::joining(p, WORDS / 2))
    }));
    cases
}
