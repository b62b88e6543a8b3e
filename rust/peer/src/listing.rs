//! What the listing program prints for a line.

use crate::answers::{Answer, OUTPUT_SHORT, Profile, Tested, refuse_if, test_profile};
use crate::cells::first_pattern;
use std::iter::once;

/// The room that the call asks for, in bytes.
const ROOM: usize = 262_144;

/// The most words that are listed.
const MOST_LISTED: usize = 4096;

/// The most digits of a number in a line.
const MOST_DIGITS: usize = 3;

/// Writes what the listing program prints for a line.
pub fn list(line: &[u8], out: &mut [u8]) -> Answer {
    Answer::of(tested_list(line, out))
}

fn tested_list(line: &[u8], out: &mut [u8]) -> Tested<usize> {
    refuse_if(out.len() < ROOM, OUTPUT_SHORT)?;
    let text = text_of(line);
    out[..text.len()].copy_from_slice(text.as_bytes());
    Ok(text.len())
}

fn text_of(line: &[u8]) -> String {
    let Some(p) = profile_in(line) else {
        return String::from("refused line\n");
    };
    if let Err(refusal) = test_profile(p) {
        return format!("refused {}\n", refusal.number);
    }
    legal_words(p).map_or_else(
        || String::from("too many\n"),
        |words| text_of_code(p, &words),
    )
}

/// The profile that an allowed line holds.
fn profile_in(line: &[u8]) -> Option<Profile> {
    let numbers: Option<Vec<usize>> = line
        .strip_suffix(b"\n")?
        .split(|&byte| byte == b' ')
        .map(number_in)
        .collect();
    match numbers?[..] {
        [q, m, x] => Some(Profile::new(q, m, x)),
        _ => None,
    }
}

/// The number that one to three digits hold, without a leading zero.
fn number_in(digits: &[u8]) -> Option<usize> {
    let allowed = digits.len() <= MOST_DIGITS
        && digits.iter().all(u8::is_ascii_digit)
        && (digits.len() == 1 || digits.first() != Some(&b'0'));
    if allowed {
        str::from_utf8(digits).ok()?.parse().ok()
    } else {
        None
    }
}

/// The legal words in order, or nothing where they are too many. A word is legal only if what stands before
/// its last cell is, so each length is listed from the one before.
fn legal_words(p: Profile) -> Option<Vec<Vec<u8>>> {
    let mut listed = vec![Vec::new()];
    for _ in 0..p.m {
        let longer = listed
            .iter()
            .flat_map(|word: &Vec<u8>| (0..=p.top()).map(|level| followed(word, level)));
        listed = longer
            .filter(|word| first_pattern(p.q, p.x, word).is_none())
            .collect();
        if listed.len() > MOST_LISTED {
            return None;
        }
    }
    Some(listed)
}

fn followed(word: &[u8], level: u8) -> Vec<u8> {
    word.iter().copied().chain(once(level)).collect()
}

/// The line of the code, then a line for each word.
fn text_of_code(p: Profile, words: &[Vec<u8>]) -> String {
    let s = (words.len() - 2).checked_ilog2().unwrap_or(0);
    let carrying = if s == 0 { 0 } else { 1 << s };
    let mut text = format!("{} {} {} {} {s}\n", p.q, p.m, p.x, words.len());
    for (index, word) in words.iter().enumerate() {
        let levels: Vec<String> = word.iter().map(u8::to_string).collect();
        let message = if (1..=carrying).contains(&index) {
            (index - 1).to_string()
        } else {
            String::from("-")
        };
        text += &format!("{index} {} {message}\n", levels.join(","));
    }
    text
}
