//! Sheets and images that try every value of one small thing, or every pair of faults, so that no
//! seed has to meet it (01 "Registers", "Answers by number", "Sheet program and host entry").

use crate::cases::form::line_text;
use crate::cases::hosts::image_bytes;
use crate::sheet::{Line, Load, Write};
use crate::words::{layer_word, Words, LAYERS, WORDS};

const ONE_BY_ONE: u32 = 1 | 1 << 16;

/// Words that pass: one pixel of screen, and all eight layers on it as graphics.
fn one_pixel() -> Words {
    let mut words = Words::fresh();
    words.0[0] = 0b101;
    words.0[1] = ONE_BY_ONE;
    for n in 0..LAYERS {
        words.0[layer_word(n)] = 0b11 | (n as u32) << 8;
        words.0[layer_word(n) + 3] = ONE_BY_ONE;
    }
    words
}

/// Those words with each bit of each register the other way round, one at a time.
fn flipped_bits() -> Vec<Words> {
    let flip = |register: usize, bit: u32| {
        let mut words = one_pixel();
        words.0[register] ^= 1 << bit;
        words
    };
    (0..WORDS).flat_map(|register| (0..32).map(move |bit| flip(register, bit))).collect()
}

/// Those words with each kind of each layer, on and off: both bits of it are refused, and bit 2
/// alone where there are no floats (02 K7).
fn all_kinds() -> Vec<Words> {
    let with_kind = |n: usize, kind: u32| {
        let mut words = one_pixel();
        words.0[layer_word(n)] = kind | (n as u32) << 8;
        words
    };
    (0..LAYERS).flat_map(|n| (0..8).map(move |kind| with_kind(n, kind))).collect()
}

/// Words that take the place of a passing one and are refused: 7 thrice, 8 twice, and for each
/// layer 9 and 10 on either axis, 11, and 14.
fn faults() -> Vec<(usize, u32)> {
    let mut faults = vec![(0, 0b111), (51, 1 << 31), (1, 1), (1, 1 << 16), (4, 0b111)];
    for n in 0..LAYERS {
        let first = layer_word(n);
        let next_depth = ((n + 1) % LAYERS) as u32;
        faults.extend([(first + 3, 1), (first + 3, 1 << 16), (first + 2, 1), (first + 2, 1 << 16)]);
        faults.extend([(first, 0b11 | next_depth << 8), (first, 0b01 | (n as u32) << 8)]);
    }
    faults
}

/// Every two of the faults together, so that the order of the refusals shows.
fn paired_faults() -> Vec<Words> {
    let faults = faults();
    let mut pairs = Vec::new();
    for (i, &(register, value)) in faults.iter().enumerate() {
        for &(other_register, other_value) in &faults[i + 1..] {
            let mut words = one_pixel();
            words.0[register] = value;
            words.0[other_register] = other_value;
            pairs.push(words);
        }
    }
    pairs
}

fn swept_words() -> Vec<Words> {
    [vec![one_pixel()], flipped_bits(), all_kinds(), paired_faults()].concat()
}

/// A line for each of the swept words, which writes what differs from the line before.
pub fn word_sheet() -> Vec<u8> {
    let mut pending = Words::fresh();
    let mut lines = Vec::new();
    for words in swept_words() {
        let differing = (0..WORDS).filter(|&register| pending.0[register] != words.0[register]);
        let writes = differing.map(|register| write(&words, register)).collect();
        lines.push(Line { writes, ..Line::default() });
        pending = words;
    }
    lines.iter().flat_map(line_text).collect()
}

/// The swept words as register images, for the host entry.
pub fn word_images() -> Vec<Vec<u8>> {
    swept_words().iter().map(image_bytes).collect()
}

fn write(words: &Words, register: usize) -> Write {
    Write { register: register as u8, value: words.0[register] }
}

/// A line with one put for each selection from 00 to FF, then a line with one write for each
/// register from 00 to FF.
pub fn number_sheet() -> Vec<u8> {
    let words = one_pixel();
    let mut lines =
        vec![Line { writes: vec![write(&words, 0), write(&words, 1)], ..Line::default() }];
    for selection in 0..=255 {
        lines.push(Line { loads: vec![Load { selection, bytes: vec![0xAA] }], ..Line::default() });
    }
    for register in 0..=255 {
        let value = words.0.get(usize::from(register)).copied().unwrap_or(1);
        lines.push(Line { writes: vec![Write { register, value }], ..Line::default() });
    }
    lines.iter().flat_map(line_text).collect()
}

/// The worked line once for each byte but the line feed, in place of a digit of the background.
pub fn byte_sheet() -> Vec<u8> {
    let mut sheet = Vec::new();
    for byte in (0..=255).filter(|&byte| byte != b'\n') {
        let mut line = *b"00030000000005010001000202003020100000";
        line[32] = byte;
        sheet.extend(line);
        sheet.push(b'\n');
    }
    sheet
}
