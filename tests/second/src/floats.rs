//! 02 K7 "The river as a layer": whether a display has a float buffer, and the byte that an f32
//! becomes, from its bits and in whole numbers alone.

use crate::words::field;

/// "save in the host entry and the sheet program, which have no such buffer"
#[derive(Clone, Copy, Debug, PartialEq, Eq)]
pub enum Floats {
    With,
    Without,
}

/// A number's bytes in memory, little-endian.
pub const FLOAT_LEN: usize = 4;

/// The numbers that bytes stand for, by their bits.
pub fn numbers_of(bytes: &[u8]) -> Vec<u32> {
    let number = |bytes: &[u8]| u32::from_le_bytes(bytes.try_into().expect("four bytes"));
    bytes.chunks_exact(FLOAT_LEN).map(number).collect()
}

pub fn bytes_of(numbers: &[u32]) -> Vec<u8> {
    numbers.iter().flat_map(|number| number.to_le_bytes()).collect()
}

/// "A value that is not a number, or is at most 0, becomes 0; at least 1 becomes 255; any other
/// becomes the whole number nearest to 255 times its exact value, halves upward, so 0.5 gives 128.
/// The exact value is the one its bits stand for, as a fraction of whole numbers."
pub fn byte_of(bits: u32) -> u8 {
    let [sign, exponent, fraction] =
        [(31, 31), (30, 23), (22, 0)].map(|(high, low)| field(bits, high, low));
    let is_none = exponent == 255 && fraction != 0;
    if is_none || sign == 1 {
        return 0;
    }
    // 127 stands for a power of 0. What is infinite has the highest of all.
    if exponent >= 127 {
        return 255;
    }
    // The fraction is whole / 2^power. The lowest exponent has no leading 1, and the next one's
    // power.
    let (whole, power) =
        if exponent == 0 { (fraction, 149) } else { (1 << 23 | fraction, 150 - exponent) };
    // 255·whole is below 2^32: from here on the fraction is less than a quarter.
    if power > 33 {
        return 0;
    }
    // Of 255·whole / 2^power: half of the divisor more, and rounded down.
    ((255 * u64::from(whole) + (1 << (power - 1))) >> power) as u8
}
