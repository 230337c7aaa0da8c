//! Lines for the program that mends (02 K4): images in digits of either case and lines of bad form,
//! pages of them that are longer than what is read at once, and the lines of the gate.

use crate::cases::form::{add_digits, digits, foreign_byte, upper_digits};
use crate::cases::hosts::image_bytes;
use crate::cases::mends::words;
use crate::host::IMAGE_LEN;
use crate::rng::Rng;
use crate::words::{layer_word, Words, LAYERS, WORDS};

/// The pages that the tests compare unless told otherwise, of the seeds from 0 on.
pub const PAGES: u64 = 20;
/// Together more than 65,536 bytes.
pub const LINES_A_PAGE: usize = 200;

/// The digits of a line that is well formed.
const DIGITS: usize = 2 * IMAGE_LEN;

/// A page of that many lines; the last of them has its line feed or not.
pub fn gen_page(seed: u64, lines: usize) -> Vec<u8> {
    // Kept apart from the other cases' seeds.
    let rng = &mut Rng::new(seed ^ 0x7061_6765);
    let mut text: Vec<u8> = (0..lines).flat_map(|_| gen_line(rng)).collect();
    if rng.percent(50) {
        text.pop();
    }
    text
}

fn gen_line(rng: &mut Rng) -> Vec<u8> {
    let words = words(rng);
    let mut text = digits(rng, &image_bytes(&words));
    if rng.percent(15) {
        spoil(rng, &mut text);
    }
    text.push(b'\n');
    text
}

/// Makes a line one of bad form.
fn spoil(rng: &mut Rng, text: &mut Vec<u8>) {
    match rng.below(10) {
        0 => text.clear(),
        1 => text.truncate(rng.below(DIGITS)),
        2 => text.truncate(DIGITS - 1 - rng.below(2)),
        3 => add_digits(rng, text, DIGITS + 1),
        4 => add_digits(rng, text, DIGITS + 2),
        5 => text.extend_from_within(..),
        6 => text.push(rng.pick(b"\r \0")),
        7 => text.insert(rng.below(DIGITS + 1), foreign_byte(rng)),
        8 => text[rng.below(DIGITS)] = foreign_byte(rng),
        _ => {
            // Of two of these the low bits are a good line's length.
            let length = rng.pick(&[DIGITS + 256, DIGITS + 65_536, 1_000, 65_535, 65_536, 131_072]);
            add_digits(rng, text, length);
        }
    }
}

/// Every byte in place of a digit: the first, one amid, the last. A line feed makes two lines.
pub fn digit_page() -> Vec<u8> {
    let good = upper_digits(&image_bytes(&base()));
    let mut page = Vec::new();
    for (byte, at) in (0..=255).flat_map(|byte| [0, 207, DIGITS - 1].map(|at| (byte, at))) {
        page.extend(&good);
        page.push(b'\n');
        let start = page.len() - good.len() - 1;
        page[start + at] = byte;
    }
    page
}

/// Good lines of which some part lies before a multiple of 65,536 bytes and the rest behind it.
/// What comes before each is a line that is too long.
pub fn border_page() -> Vec<u8> {
    const BLOCK: usize = 65_536;
    let rng = &mut Rng::new(0);
    let mut page = Vec::new();
    for (i, before) in [0, 1, 2, 207, 208, 414, 415, 416, 417, 418].into_iter().enumerate() {
        add_digits(rng, &mut page, (i + 1) * BLOCK - before - 1);
        page.push(b'\n');
        page.extend(upper_digits(&image_bytes(&words(rng))));
        page.push(b'\n');
    }
    page
}

// ---- the lines of the gate

/// The lines that the gate runs the program on: each step, refusal and form. The last has no line
/// feed.
pub fn gate_lines() -> Vec<u8> {
    let good = upper_digits(&image_bytes(&base()));
    let with = |byte: u8| [&good[..], &[byte]].concat();
    let mut foreign = good.clone();
    foreign[300] = b'G';
    let mut lines: Vec<Vec<u8>> =
        gate_words().iter().map(|words| upper_digits(&image_bytes(words))).collect();
    lines.extend([good.to_ascii_lowercase(), b"aB".repeat(IMAGE_LEN)]);
    lines.extend([Vec::new(), good[..DIGITS - 1].to_vec(), good[..DIGITS - 2].to_vec()]);
    lines.extend([with(b'0'), with(b'\r'), with(b' '), good.repeat(3), foreign, good]);
    lines.join(&b'\n')
}

/// Words that pass: a screen of 8 by 4, a picture over all of it, and two lists in its corners.
fn base() -> Words {
    let mut words = Words::fresh();
    words.0[..4].copy_from_slice(&[0b101, 0x0004_0008, 0x0030_2010, 0x8421_1248]);
    for (n, layer) in [
        (0, [0x001, 0x8000_0080, 0, 0x0004_0008, 77, 0x00FF_0009]),
        (1, [0x203, 0x0000_00FF, 0x0002_0005, 0x0002_0003, 0, 0]),
        (5, [0x703, 0, 0, 0x0001_0001, u32::MAX, 0]),
    ] {
        words.0[layer_word(n)..layer_word(n + 1)].copy_from_slice(&layer);
    }
    words
}

/// Words to write over those. Layer 0 has the words from 4 on, layer 1 from 10, layer 5 from 34.
const WRITES: [&[(usize, u32)]; 29] = [
    &[],
    // reserved bits: one; in words without a layer; in the screen's
    &[(34, 0x701), (51, 1 << 31)],
    &[(0, u32::MAX), (2, u32::MAX), (3, u32::MAX)],
    &[(1, 0xF004_F008)],
    // floats: bit 2 alone, on and off; beside bit 1, on and off; and too wide, too high, too far
    &[(4, 0b101), (16, 0b100)],
    &[(10, 0x207), (16, 0b110)],
    &[(4, 0b101), (7, 0x0004_0009)],
    &[(4, 0b101), (7, 0x0005_0008)],
    &[(4, 0b101), (6, 0x0001_0001)],
    // bits 1 and 2 of a layer that is too wide, and so is cut
    &[(10, 0x207), (13, 0x0002_0009)],
    // no width, no height, no size; at a place where it stays
    &[(7, 0x0004_0000)],
    &[(7, 0x0000_0008), (13, 0x0000_0003), (37, 0)],
    &[(12, 0x0007_0009), (13, 0x0002_0000)],
    // a picture that is too wide, too high, as large as can be
    &[(7, 0x0004_0009)],
    &[(7, 0x0005_0008)],
    &[(6, 0x0FFF_0FFF), (7, 0x0FFF_0FFF)],
    // so a list
    &[(13, 0x0002_0009)],
    &[(13, 0x0005_0003)],
    &[(12, 0x0FFF_0FFF), (13, 0x0FFF_0FFF)],
    // past an edge by a pixel, past both edges, far past them
    &[(12, 0x0002_0006)],
    &[(12, 0x0003_0005)],
    &[(6, 0x0001_0001)],
    &[(34, 0x701), (36, 0x0FFF_0FFF)],
    // too large and too far where it is off
    &[(4, 0x700), (6, 0x0FFF_0FFF), (7, 0x0FFF_0FFF)],
    // one depth: of two; beside a third; of which one has no size, and its own is given anew
    &[(10, 0x003)],
    &[(10, 0x003), (34, 0x103)],
    &[(7, 0), (34, 0x203)],
    // no width, and no height but for reserved bits
    &[(1, 0x0004_0000), (51, u32::MAX)],
    &[(1, 0xF000_0008)],
];

/// Those words as they are and as they are written over; and some others.
fn gate_words() -> Vec<Words> {
    let written = |writes: &&[(usize, u32)]| {
        let mut words = base();
        writes.iter().for_each(|&(register, value)| words.0[register] = value);
        words
    };
    let others = [one_depth(), Words([u32::MAX; WORDS]), Words::fresh()];
    WRITES.iter().map(written).chain(others).collect()
}

/// Eight layers of depth 3.
fn one_depth() -> Words {
    let mut words = base();
    for n in 0..LAYERS {
        words.0[layer_word(n)] = 0x303;
        words.0[layer_word(n) + 3] = 0x0001_0001;
    }
    words
}
