//! Profiles in range and out of range, and tables to lend with them.

use crate::random::Random;
use peer::Profile;

pub const LIMBS: usize = 10;

/// How many values q, m and x have in range.
const LEVELS: usize = 31;
const LENGTHS: usize = 128;
const REACHES: usize = 8;
const PROFILES: usize = LEVELS * LENGTHS * REACHES;

/// The profile of a seed. Even seeds go through all profiles in range; the others mostly have short words, and
/// some are out of range.
pub fn profile(random: &mut Random, seed: u64) -> Profile {
    if seed % 2 == 1 {
        return drawn_profile(random);
    }
    let number = (seed / 2 % PROFILES as u64) as usize;
    let (q, m, x) = (
        number % LEVELS,
        number / LEVELS % LENGTHS,
        number / LEVELS / LENGTHS,
    );
    Profile {
        q: 2 + q,
        m: 1 + m,
        x: 1 + x,
    }
}

fn drawn_profile(random: &mut Random) -> Profile {
    let edge = random.once_in(4);
    let q = if edge {
        random.pick(&[2, 3, 4, 32])
    } else {
        random.within(2..=32)
    };
    let m = if edge {
        random.pick(&[1, 2, 3, 127, 128])
    } else {
        random.within(1..=16)
    };
    let p = Profile {
        q,
        m,
        x: random.within(1..=8),
    };
    let outside = random.pick(&[0, 257, 1 << 32 | 4, usize::MAX]);
    match random.below(24) {
        0 => Profile {
            q: random.pick(&[1, 33, outside]),
            ..p
        },
        1 => Profile {
            m: random.pick(&[129, outside]),
            ..p
        },
        2 => Profile {
            x: random.pick(&[9, outside]),
            ..p
        },
        3 => Profile {
            q: random.below(40),
            m: random.below(140),
            x: random.below(12),
        },
        _ => p,
    }
}

/// The nearest profile in range.
pub fn in_range(p: Profile) -> Profile {
    Profile {
        q: p.q.clamp(2, 32),
        m: p.m.clamp(1, 128),
        x: p.x.clamp(1, 8),
    }
}

/// The limbs of a table, for the nearest profile in range.
pub fn table_limbs(p: Profile) -> usize {
    LIMBS * (in_range(p).m + 1)
}

/// The message length of the nearest profile in range, 0 where number 4 applies to it.
pub fn message_length(p: Profile) -> usize {
    let p = in_range(p);
    peer::rate(p, &right_table(p), 1).1
}

/// The table of the nearest profile in range.
pub fn right_table(p: Profile) -> Vec<u64> {
    let mut table = vec![0; table_limbs(p)];
    peer::build(in_range(p), &mut table);
    table
}

/// A table to lend with a profile: mostly the right one.
pub fn table(random: &mut Random, p: Profile) -> Vec<u64> {
    let p = in_range(p);
    let mut table = right_table(p);
    match random.below(32) {
        0 => table.truncate(table.len() - 1),
        1 => table.truncate(random.below(table.len())),
        2..5 => table.extend(random.limbs(LIMBS + 1)),
        5 => {
            table = right_table(Profile {
                x: random.within(1..=8),
                ..p
            })
        }
        6 => table = right_table(Profile { x: p.x + 1, ..p }),
        7 => table = right_table(Profile { q: p.q + 1, ..p }),
        8 => {
            table = right_table(Profile {
                m: random.within(1..=128),
                ..p
            })
        }
        9 => table.rotate_left(LIMBS),
        10..13 => damage_limb(random, &mut table),
        _ => {}
    }
    table
}

fn damage_limb(random: &mut Random, table: &mut [u64]) {
    let limb = random.below(table.len());
    table[limb] = match random.below(3) {
        0 => random.number(),
        1 => table[limb].wrapping_add(1),
        _ => table[limb] ^ 1 << random.below(64),
    };
}
