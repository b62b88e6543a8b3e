//! What a call gives and what it leaves in a lent output.

use crate::random::Random;
use peer::Answer;
use std::fmt::Debug;

/// How many elements are watched on either side of a lent output.
const MARGIN: usize = 16;

/// The reply of a call, and its count or values.
#[derive(Debug, PartialEq)]
pub struct Given {
    pub number: u8,
    pub place: usize,
    pub values: Vec<u64>,
}

impl Given {
    /// A reply of the peer with the values that stand beside it.
    pub fn of(answer: Answer, values: &[u64]) -> Given {
        Given {
            number: answer.number,
            place: answer.place,
            values: values.to_vec(),
        }
    }
}

impl From<Answer> for Given {
    fn from(answer: Answer) -> Given {
        Given::of(answer, &[answer.count as u64])
    }
}

/// What a call gave, and the memory of its lent output afterwards; none for a call that writes nothing.
pub struct Outcome<T> {
    pub given: Given,
    pub memory: Vec<T>,
}

/// A lent output in the middle of memory that is filled with a random pattern.
pub struct Lent<T> {
    memory: Vec<T>,
}

impl Lent<u64> {
    pub fn limbs(random: &mut Random, exact: usize) -> Lent<u64> {
        let room = random.room(exact);
        Lent {
            memory: random.limbs(room + 2 * MARGIN),
        }
    }
}

impl Lent<u8> {
    pub fn bytes(random: &mut Random, exact: usize) -> Lent<u8> {
        let room = random.room(exact);
        Lent {
            memory: random.bytes(room + 2 * MARGIN),
        }
    }
}

impl<T: Copy> Lent<T> {
    /// The outcome of a call that is lent a copy of the output.
    pub fn after<G: Into<Given>>(&self, call: impl FnOnce(&mut [T]) -> G) -> Outcome<T> {
        let mut memory = self.memory.clone();
        let end = memory.len() - MARGIN;
        let given = call(&mut memory[MARGIN..end]).into();
        Outcome { given, memory }
    }

    /// How long the output is.
    pub fn room(&self) -> usize {
        self.memory.len() - 2 * MARGIN
    }
}

/// Asserts that the archive gave and left the same as the peer, and gives the number.
pub fn agreed<T: Copy + Debug + PartialEq>(
    input: &dyn Debug,
    archive: Outcome<T>,
    peer: Outcome<T>,
) -> u8 {
    assert_eq!(archive.given, peer.given, "archive and peer on {input:?}");
    let pairs = || archive.memory.iter().zip(&peer.memory);
    if let Some(place) = pairs().position(|(ours, theirs)| ours != theirs) {
        let (ours, theirs) = (archive.memory[place], peer.memory[place]);
        let place = place as isize - MARGIN as isize;
        panic!(
            "left at {place} of the output: {ours:?} by the archive, {theirs:?} by the peer, on {input:?}"
        );
    }
    peer.given.number
}

/// The same for calls that write nothing.
pub fn agreed_values(input: &dyn Debug, archive: Given, peer: Given) -> u8 {
    let unlent = |given| Outcome::<u8> {
        given,
        memory: Vec::new(),
    };
    agreed(input, unlent(archive), unlent(peer))
}
