//! What the calls are handed: tables, message bits, streams, runs of legal cells. All is made by the peer, from a fixed seed.

use peer::Profile;

/// A profile in short.
pub fn name(p: Profile) -> String {
    format!("q={} m={} x={}", p.q, p.m, p.x)
}

/// The profile as the library takes it.
pub fn lent(p: Profile) -> remizutogya::Profile {
    remizutogya::Profile::new(p.q, p.m, p.x)
}

/// Random numbers, the same in each run.
pub struct Random(u64);

impl Random {
    /// From a seed on.
    pub fn new(seed: u64) -> Self {
        Random(seed)
    }

    /// The next number.
    pub fn number(&mut self) -> u64 {
        self.0 = self.0.wrapping_add(0x9e37_79b9_7f4a_7c15);
        let mut mixed = self.0;
        mixed = (mixed ^ (mixed >> 30)).wrapping_mul(0xbf58_476d_1ce4_e5b9);
        mixed = (mixed ^ (mixed >> 27)).wrapping_mul(0x94d0_49bb_1331_11eb);
        mixed ^ (mixed >> 31)
    }

    /// The next number below a bound.
    pub fn below(&mut self, bound: usize) -> usize {
        (self.number() % bound as u64) as usize
    }
}

/// The table of a profile.
pub fn table(p: Profile) -> Vec<u64> {
    let mut rows = vec![0; remizutogya::table_limbs(p.m)];
    assert_eq!(peer::build(p, &mut rows).number, 0);
    rows
}

/// The bits of n random messages, and how many they are.
pub fn messages(p: Profile, table: &[u64], n: usize) -> (Vec<u8>, usize) {
    let (answer, bits, _) = peer::rate(p, table, n);
    assert_eq!(answer.number, 0);
    let mut random = Random::new(p.q as u64);
    let mut bytes: Vec<u8> = (0..bits.div_ceil(8))
        .map(|_| random.number() as u8)
        .collect();
    if let (Some(last), used @ 1..) = (bytes.last_mut(), bits % 8) {
        *last &= 0xff << (8 - used);
    }
    (bytes, bits)
}

/// The cells of a stream of n words.
pub fn stream_cells(p: Profile, n: usize) -> usize {
    remizutogya::stream_cells(lent(p), n)
}

/// A stream of n words that carry random messages.
pub fn stream(p: Profile, table: &[u64], n: usize) -> Vec<u8> {
    let (bytes, bits) = messages(p, table, n);
    let mut cells = vec![0; stream_cells(p, n)];
    assert_eq!(peer::write(p, table, &bytes, bits, &mut cells).number, 0);
    cells
}

/// A run of n random cells without a forbidden pattern.
pub fn legal_cells(q: usize, x: usize, n: usize) -> Vec<u8> {
    let mut random = Random::new(x as u64);
    let mut cells = Vec::with_capacity(n);
    let mut since_top = x + 1;
    for _ in 0..n {
        let held = (1..=x).contains(&since_top);
        let level = random.below(if held { q - 1 } else { q });
        since_top = if level == q - 1 { 0 } else { since_top + 1 };
        cells.push(level as u8);
    }
    cells
}
