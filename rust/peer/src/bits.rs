//! Message bits in bytes: packed high bit first, with no gap between messages.

use crate::limbs::{LIMB_BITS, LIMBS, Number};

const BYTE_BITS: usize = 8;

/// How many bytes so many bits take.
pub fn bytes_of(bits: usize) -> usize {
    bits.div_ceil(BYTE_BITS)
}

/// The place of the first 1 behind the last of so many bits, in the same byte.
pub fn first_behind(bytes: &[u8], bits: usize) -> Option<usize> {
    let used = bits % BYTE_BITS;
    if used == 0 {
        return None;
    }
    let behind = bytes[bits / BYTE_BITS] & (u8::MAX >> used);
    (behind != 0).then(|| bits - used + behind.leading_zeros() as usize)
}

/// The number in the `length` bits from bit `start` on.
pub fn number_at(bytes: &[u8], start: usize, length: usize) -> Number {
    let mut number = [0; LIMBS];
    let mut end = start + length;
    for limb in number.iter_mut().take(length.div_ceil(LIMB_BITS)) {
        let width = LIMB_BITS.min(end - start);
        *limb = limb_before(bytes, end, width);
        end -= width;
    }
    number
}

/// The limb in the `width` bits, 1 to 64, that stand before bit `end`.
fn limb_before(bytes: &[u8], end: usize, width: usize) -> u64 {
    let last = bytes_of(end);
    let touched = &bytes[(end - width) / BYTE_BITS..last];
    let wide = touched
        .iter()
        .fold(0u128, |wide, &byte| wide << BYTE_BITS | u128::from(byte));
    let shifted = (wide >> (last * BYTE_BITS - end)) as u64;
    shifted & (u64::MAX >> (LIMB_BITS - width))
}

/// Puts numbers into bytes, one behind the other.
pub struct Packer<'a> {
    bytes: &'a mut [u8],
    /// Bytes filled.
    place: usize,
    /// The bits that do not fill a byte yet, and how many they are.
    held: u128,
    width: usize,
}

impl<'a> Packer<'a> {
    pub fn new(bytes: &'a mut [u8]) -> Packer<'a> {
        Packer {
            bytes,
            place: 0,
            held: 0,
            width: 0,
        }
    }

    /// Puts a number as `length` bits.
    pub fn put(&mut self, number: &Number, length: usize) {
        let (whole, part) = (length / LIMB_BITS, length % LIMB_BITS);
        if part > 0 {
            self.put_limb(number[whole], part);
        }
        for &limb in number[..whole].iter().rev() {
            self.put_limb(limb, LIMB_BITS);
        }
    }

    /// Fills the last byte with zero bits.
    pub fn finish(mut self) {
        if self.width > 0 {
            self.put_limb(0, BYTE_BITS - self.width);
        }
    }

    fn put_limb(&mut self, limb: u64, width: usize) {
        self.held = self.held << width | u128::from(limb);
        self.width += width;
        while self.width >= BYTE_BITS {
            self.width -= BYTE_BITS;
            self.bytes[self.place] = (self.held >> self.width) as u8;
            self.place += 1;
        }
    }
}
