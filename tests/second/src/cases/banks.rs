//! Contents for a controller's banks (01 "Tables" and "Graphics layers"): lists, colours, strings
//! and fonts that show something on a layer of a given size.

use crate::rng::Rng;
use crate::tables::{Bits, Kind, COLOURS, INSTRUCTIONS, STRINGS, STRING_LEN};

pub fn bank(rng: &mut Rng, kind: Kind, bits: Bits, width: i64, height: i64) -> Vec<u8> {
    match kind {
        Kind::Instruction => instructions(rng, width, height),
        Kind::Colour => (0..COLOURS).flat_map(|_| colour(rng)).collect(),
        Kind::Text => (0..STRINGS).flat_map(|_| string(rng)).collect(),
        Kind::Font => rng.bytes(kind.end(bits)),
    }
}

/// A list that ends early as a rule, at the 48th instruction sometimes, and now and then not at
/// all. What stands after END is anything, since it must not be drawn.
fn instructions(rng: &mut Rng, width: i64, height: i64) -> Vec<u8> {
    let end = match rng.below(20) {
        0..=2 => INSTRUCTIONS,
        3 | 4 => INSTRUCTIONS - 1,
        5 => rng.below(INSTRUCTIONS),
        6 => 0,
        _ => 1 + rng.below(9),
    };
    let mut bytes = Vec::new();
    for i in 0..INSTRUCTIONS {
        let opcode = if i == end { 0 } else { opcode(rng) };
        bytes.extend(instruction(rng, opcode, width, height));
    }
    bytes
}

/// Any opcode but END.
fn opcode(rng: &mut Rng) -> u32 {
    match rng.below(10) {
        0..=3 => 10,
        4 | 5 => 12,
        6..=8 => 14,
        _ => rng.pick(&[1, 2, 3, 4, 5, 6, 7, 8, 9, 11, 13, 15]),
    }
}

/// The bits that count for nothing are anything.
fn instruction(rng: &mut Rng, opcode: u32, width: i64, height: i64) -> Vec<u8> {
    let (x_start, x_end) = ends(rng, width);
    let (y_start, y_end) = ends(rng, height);
    let string = if rng.percent(90) { rng.below(STRINGS) as u32 } else { rng.range(8, 255) as u32 };
    let scale = rng.pick(&[0, 0, 0, 1, 1, 2, 3]);
    let weight = match rng.below(8) {
        0..=2 => 0,
        3 | 4 => rng.range(1, 3) as u32,
        _ => rng.range(0, 15) as u32,
    };
    let words = [
        opcode << 28 | (rng.u32() & 0x0F00_0000) | x_end << 12 | x_start,
        (rng.u32() & 0xFFFF_FF00) | string,
        scale << 30 | (rng.u32() & 0x3000_0000) | weight << 24 | y_end << 12 | y_start,
        rng.u32(),
    ];
    words.into_iter().flat_map(u32::to_le_bytes).collect()
}

/// A start and an end on one axis: in order as a rule, sometimes reversed, cut by the layer, or far
/// outside.
fn ends(rng: &mut Rng, size: i64) -> (u32, u32) {
    let most = (size + 2).min(4_095);
    let (first, second) = (rng.range(0, most), rng.range(0, most));
    let (start, end) = match rng.below(12) {
        0 => (first.max(second), first.min(second)),
        1 => (first, first),
        2 => (rng.range(0, 4_095), rng.range(0, 4_095)),
        3 => (first, rng.pick(&[4_095, 2_048, 2_049, 1_024])),
        4 => (0, size - 1),
        5 => (first, 0),
        6 => (0, first),
        _ => (first.min(second), first.max(second)),
    };
    (start as u32, end as u32)
}

fn colour(rng: &mut Rng) -> [u8; 4] {
    let alpha = if rng.percent(30) { 255 } else { rng.byte() };
    [rng.byte(), rng.byte(), rng.byte(), alpha]
}

/// An opaque colour for each index, of which no two are alike.
pub fn plain_colour(index: usize) -> [u8; 4] {
    let i = index as u8;
    [9 + 16 * i, 250 - 15 * i, 7 * i, 255]
}

/// Thirty-two bytes: a string with or without its zero byte, and letters after it that must not be
/// shown.
fn string(rng: &mut Rng) -> Vec<u8> {
    let zero = rng.below(STRING_LEN + 12);
    (0..STRING_LEN)
        .map(|i| match rng.below(12) {
            _ if i == zero => 0,
            0 => rng.pick(&[1, 9, 10, 31, 128, 129, 255]),
            1 => rng.pick(&[32, 33, 126, 127]),
            2 => rng.range(1, 255) as u8,
            _ => rng.range(32, 127) as u8,
        })
        .collect()
}
