//! The library measured beside the peer, on the same input, in one run.
//!
//! With no argument it prints three tables: each call's time, with its ratio and what that may be at most; each call's instructions as
//! callgrind counts them, where valgrind is installed; and how the cost grows. Handed a word, it prints the times of the cases whose names
//! have it. Handed the number of a case and `library` or `peer`, it makes that one call, for callgrind to count.

mod calls;
mod cases;
mod counting;
mod growth;
mod input;
mod timing;

use cases::Case;
use std::env;

/// Prints the time of every case.
fn print_times(cases: &mut [Case]) {
    let all = timing::times(cases.iter_mut().map(|case| &mut case.pair));
    println!(
        "{:<30} {:>12} {:>12} {:>7} {:>8}",
        "time", "library", "peer", "ratio", "at most"
    );
    for (case, times) in cases.iter().zip(all) {
        let bound = case
            .bound
            .map_or(String::from("-"), |bound| format!("{bound:.2}"));
        let (micros, peer_micros) = (times.library * 1e6, times.peer * 1e6);
        let ratio = times.library / times.peer;
        println!(
            "{:<30} {micros:>9.2} us {peer_micros:>9.2} us {ratio:>7.3} {bound:>8}",
            case.name
        );
    }
}

/// Prints the instructions of every case.
fn print_instructions(cases: &[Case]) {
    if !counting::is_installed() {
        println!("\nvalgrind is not installed: no instructions are counted");
        return;
    }
    println!(
        "\n{:<30} {:>12} {:>12} {:>7}",
        "instructions", "library", "peer", "ratio"
    );
    for (number, case) in cases.iter().enumerate() {
        let counts = (
            counting::instructions(number, "library"),
            counting::instructions(number, "peer"),
        );
        if let (Some(library), Some(peer)) = counts {
            println!(
                "{:<30} {library:>12} {peer:>12} {:>7.3}",
                case.name,
                library as f64 / peer as f64
            );
        } else {
            println!("{:<30} callgrind gave no count", case.name);
        }
    }
}

/// Makes one call of one case.
fn call_once(cases: &mut [Case], number: &str, side: &str) -> Option<()> {
    let pair = &mut cases.get_mut(number.parse::<usize>().ok()?)?.pair;
    match side {
        "library" => counting::counted_call(&mut pair.library),
        "peer" => counting::counted_call(&mut pair.peer),
        _ => return None,
    }
    Some(())
}

fn main() {
    let words: Vec<String> = env::args().skip(1).collect();
    let mut cases = cases::all();
    match words.as_slice() {
        [] => {
            print_times(&mut cases);
            print_instructions(&cases);
            growth::print();
        }
        [word] => {
            cases.retain(|case| case.name.contains(word));
            print_times(&mut cases);
        }
        [number, side] if call_once(&mut cases, number, side).is_some() => {}
        _ => eprintln!("usage: bench, or bench WORD, or bench CASE library, or bench CASE peer"),
    }
}
