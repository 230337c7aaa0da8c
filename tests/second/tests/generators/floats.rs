//! What the cases reach of float pictures (02 K7): float layers among others, the numbers that are
//! painted of them, wrong lengths, and kinds of layers that are refused.

use crate::{assert_came, fade_kinds, Counts, FADES};
use second::floats::{byte_of, Floats};
use second::paint::pixels;
use second::words::{layer_word, Words, FLOAT_BIT, KIND_BITS, LAYERS};
use std::collections::BTreeSet;
use std::ops::Range;

// ---- what is painted

/// A painting that is done: its words, the floats that it is lent, the depths and the lines that it
/// paints.
pub struct Painted<'a> {
    pub words: &'a Words,
    pub floats: &'a [u32],
    pub band: Range<u32>,
    pub lines: Range<i64>,
}

/// What it shows of float layers, by names.
pub fn float_kinds(painted: &Painted) -> BTreeSet<String> {
    let Painted { words, band, lines, .. } = painted;
    let is_shown = |n: &usize| {
        let layer = words.layer(*n);
        let is_there = band.contains(&layer.depth) && pixels(words, *n, lines).next().is_some();
        words.display_on() && layer.float && is_there
    };
    let shown: Vec<usize> = words.order().into_iter().filter(is_shown).collect();
    if shown.is_empty() {
        return BTreeSet::new();
    }
    let layers = shown.iter().flat_map(|&n| layer_kinds(painted, n));
    layers.chain(mixtures(words).into_iter().map(String::from)).collect()
}

/// Where in their fades float layers are that are seen at global alpha, whichever call paints them.
pub fn float_fades(words: &Words, frame: u32) -> BTreeSet<String> {
    let layers = words.order().into_iter().map(|n| words.layer(n));
    let fades = layers.filter(|layer| layer.float).flat_map(|layer| fade_kinds(&layer, frame));
    fades.filter(|_| words.display_on()).map(|fade| format!("floats, {fade}")).collect()
}

pub fn float_fade_names() -> [String; 9] {
    FADES.map(|fade| format!("floats, {fade}"))
}

/// How float layers stand among the others.
fn mixtures(words: &Words) -> Vec<&'static str> {
    let enabled: Vec<usize> = (0..LAYERS).filter(|&n| words.layer(n).enabled).collect();
    let is_picture = |n: &usize| !words.layer(*n).graphics && !words.layer(*n).float;
    let is_float = |n: &usize| words.layer(*n).float;
    let floats: Vec<usize> = enabled.iter().copied().filter(is_float).collect();
    let pictures: Vec<usize> = enabled.iter().copied().filter(is_picture).collect();
    let (first, last) = (floats[0], floats[floats.len() - 1]);
    let so = [
        floats.len() == 1,
        floats.len() == 2,
        floats.len() > 2,
        pictures.is_empty(),
        pictures.iter().any(|&n| n < last),
        pictures.iter().any(|&n| n > first),
        enabled.iter().any(|&n| words.layer(n).graphics),
        (0..LAYERS).any(|n| !enabled.contains(&n) && words.layer(n).float),
    ];
    MIXTURES.into_iter().zip(so).filter(|(_, is_so)| *is_so).map(|(name, _)| name).collect()
}

const MIXTURES: [&str; 8] = [
    "one float layer",
    "two float layers",
    "more float layers",
    "floats and no picture",
    "floats behind a picture",
    "a picture behind floats",
    "floats and a list",
    "floats and a float layer that is off",
];

/// What is seen of one float layer.
fn layer_kinds(painted: &Painted, n: usize) -> BTreeSet<String> {
    let Painted { words, floats, lines, .. } = painted;
    let layer = words.layer(n);
    let start = words.float_start(n) as usize;
    let places: Vec<usize> =
        pixels(words, n, lines).map(|(u, v)| start + 4 * (layer.width * v + u) as usize).collect();
    let numbers = places.iter().flat_map(|&at| &floats[at..at + 4]);
    let mut names: BTreeSet<&str> = numbers.map(|&number| number_name(number)).collect();
    let columns = pixels(words, n, &(layer.y..layer.y + 1)).count();
    let blocks = places.chunks(columns).flat_map(|line| line.chunks_exact(16));
    names.extend(blocks.filter(|_| !layer.global_alpha).map(|block| block_name(floats, block)));
    names.into_iter().map(String::from).chain([format!("floats of layer {n}")]).collect()
}

/// What sixteen pixels in a row have as alphas, by the places of the pixels.
fn block_name(floats: &[u32], block: &[usize]) -> &'static str {
    let all = |byte: u8| block.iter().all(|&at| byte_of(floats[at + 3]) == byte);
    match (all(0), all(255)) {
        (true, _) => BLOCKS[0],
        (_, true) => BLOCKS[1],
        _ => BLOCKS[2],
    }
}

const BLOCKS: [&str; 3] = ["sixteen clear floats", "sixteen opaque floats", "sixteen mixed floats"];

fn number_name(bits: u32) -> &'static str {
    let (value, has_sign) = (f32::from_bits(bits), bits >> 31 == 1);
    let so = [
        value.is_nan() && !has_sign,
        value.is_nan() && has_sign,
        value == f32::INFINITY,
        value == f32::NEG_INFINITY,
        bits == 0,
        bits == 1 << 31,
        value.is_subnormal(),
        value < 0.0,
        value == 1.0,
        value > 1.0,
        value == 0.5,
        byte_of(bits.wrapping_sub(1)) != byte_of(bits),
        byte_of(bits.wrapping_add(1)) != byte_of(bits),
        true,
    ];
    NUMBERS[so.iter().position(|&is_so| is_so).expect("the last is so")]
}

const NUMBERS: [&str; 14] = [
    "not a number",
    "not a number, with a sign",
    "infinite",
    "infinite, with a sign",
    "0",
    "0, with a sign",
    "without a leading 1",
    "below 0",
    "1",
    "above 1",
    "a half",
    "just over a border",
    "just under a border",
    "any other number",
];

/// All of that, and floats of each layer.
pub fn float_names() -> Vec<String> {
    let names = MIXTURES.into_iter().chain(BLOCKS).chain(NUMBERS).map(String::from);
    names.chain((0..LAYERS).map(|n| format!("floats of layer {n}"))).collect()
}

// ---- what is refused

/// How many floats are lent where another number is right.
pub fn length_name(lent: usize, right: usize) -> &'static str {
    match lent {
        0 => LENGTHS[0],
        _ if lent + 1 == right => LENGTHS[1],
        _ if lent == right + 1 => LENGTHS[2],
        _ if lent == 4 * right => LENGTHS[3],
        _ if lent < right => LENGTHS[4],
        _ => LENGTHS[5],
    }
}

pub const LENGTHS: [&str; 6] = [
    "no floats",
    "a float too few",
    "a float too many",
    "a float for each byte",
    "too few floats",
    "too many floats",
];

/// Kinds of layers that a start refuses.
pub fn refused_kinds(words: &Words, floats: Floats) -> BTreeSet<String> {
    let name = |n: usize| {
        let word = words.0[layer_word(n)];
        let is_on = if word & 1 == 1 { "on" } else { "off" };
        match (word & KIND_BITS, floats) {
            (KIND_BITS, _) => Some(format!("bits 1 and 2, {is_on}")),
            (FLOAT_BIT, Floats::Without) => Some(format!("bit 2 without floats, {is_on}")),
            _ => None,
        }
    };
    (0..LAYERS).filter_map(name).collect()
}

/// Layers with both bits, on and off; and where there are no floats, with bit 2 too.
pub fn assert_refused_kinds(counts: &Counts, floats: Floats, least: usize) {
    assert_came(counts, ["on", "off"].map(|is_on| format!("bits 1 and 2, {is_on}")), least);
    if floats == Floats::Without {
        let alone = ["on", "off"].map(|is_on| format!("bit 2 without floats, {is_on}"));
        assert_came(counts, alone, least);
    }
}
