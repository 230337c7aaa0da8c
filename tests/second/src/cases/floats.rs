//! Floats for pictures (02 K7), by their bits: beside each border between two bytes, below 0, from
//! 1 on, too small for a leading 1, infinite, not a number, and any at all.

use crate::cases::scene::alpha_runs;
use crate::rng::Rng;

const SIGN: u32 = 1 << 31;
const HALF: u32 = 0x3F00_0000;
const ONE: u32 = 0x3F80_0000;
const INFINITE: u32 = 0x7F80_0000;
/// The bits below an exponent.
const FRACTION: u32 = 0x007F_FFFF;

/// The f32 nearest to the border between byte k and the next, which lies at (2k + 1) / 510.
pub fn border(k: u32) -> u32 {
    ((f64::from(2 * k + 1) / 510.0) as f32).to_bits()
}

pub fn float(rng: &mut Rng) -> u32 {
    let (sign, any) = (rng.pick(&[0, SIGN]), rng.u32());
    let amid = 0x3A80_0000 + any % 0x0500_0000;
    match rng.below(20) {
        0 | 1 => any,
        2..=5 => border(any % 255).wrapping_add(rng.range(-2, 2) as u32),
        6 | 7 => HALF,
        8 => 0,
        9 => ONE,
        10 => ONE.wrapping_add(rng.range(-2, 2) as u32),
        11 => sign | INFINITE,
        12 | 13 => sign | INFINITE | rng.pick(&[1, 1 << 22, FRACTION, any & FRACTION | 1]),
        14 => sign | rng.pick(&[0, 1, FRACTION, any & FRACTION]),
        15 => SIGN | amid,
        _ => amid,
    }
}

/// One of each kind: 0, a half and 1 with what is beside them, with and without a sign; the ends of
/// the numbers without a leading 1, the largest number, infinite, and several that are none.
pub fn telling() -> Vec<u32> {
    let beside = [HALF, ONE].into_iter().flat_map(|number| [number - 1, number, number + 1]);
    let small = [0, 1, FRACTION, FRACTION + 1];
    let large = [INFINITE - 1, INFINITE];
    let none = [1, 1 << 22, FRACTION].map(|payload| INFINITE | payload);
    let all = beside.chain(small).chain(large).chain(none);
    all.flat_map(|number| [number, SIGN | number]).collect()
}

/// A number that becomes 0 or, as it is asked for, 255.
pub fn extreme(rng: &mut Rng, is_most: bool) -> u32 {
    let (least, most) = (border(0) - 2, border(254) + 2);
    if is_most {
        rng.pick(&[ONE, ONE, ONE + 1, most, INFINITE - 1, INFINITE])
    } else {
        rng.pick(&[0, 0, SIGN, 1, least, SIGN | ONE, SIGN | INFINITE, INFINITE | 1, u32::MAX])
    }
}

/// The numbers of pixels. Runs of clear and of opaque ones come often, as among pictures' bytes.
pub fn floats(rng: &mut Rng, length: usize) -> Vec<u32> {
    let mut numbers: Vec<u32> = (0..length).map(|_| float(rng)).collect();
    alpha_runs(rng, &mut numbers, [0, ONE]);
    numbers
}

// ---- series

/// The bits of the first of some floats, how much further on those of each next are, modulo 2^32,
/// and how many there are.
#[derive(Clone, Copy, Debug)]
pub struct Series {
    pub first: u32,
    pub step: u32,
    pub count: u32,
}

impl Series {
    pub fn bits(self) -> impl Iterator<Item = u32> {
        (0..self.count).map(move |i| self.first.wrapping_add(i.wrapping_mul(self.step)))
    }
}

/// Floats near a number, by so many steps either way.
fn beside(bits: u32, step: u32, steps: u32) -> Series {
    Series { first: bits.wrapping_sub(step * steps), step, count: 2 * steps + 1 }
}

/// Floats of every kind: those next to each border between two bytes and some further off, those
/// next to each that is telling, several of every exponent with and without a sign, and a mixture
/// over several lines of the largest width.
pub fn all_series() -> Vec<Series> {
    let borders =
        (0..255).map(border).flat_map(|bits| [beside(bits, 1, 8), beside(bits, 4_099, 9)]);
    let telling = telling().into_iter().map(|bits| beside(bits, 1, 8));
    let fractions = [0, 1, 2, 0x3F_FFFF, 1 << 22, 0x40_0001, 0x55_5555, FRACTION - 1, FRACTION];
    let exponents = fractions.map(|first| Series { first, step: FRACTION + 1, count: 512 });
    let mixture = Series { first: 1, step: 0x9E37_79B1, count: 3 * 4_095 * 3 + 1 };
    borders.chain(telling).chain(exponents).chain([mixture]).collect()
}
