//! The form of a line (01 "Sheet program and host entry"): a line written in digits, and the ways
//! to write it badly.

use crate::rng::Rng;
use crate::sheet::{Line, MOST_DIGITS};

/// The bytes that a line's digits stand for.
pub fn bytes(line: &Line) -> Vec<u8> {
    let mut bytes = vec![line.loads.len() as u8];
    for load in &line.loads {
        bytes.push(load.selection);
        bytes.extend((load.bytes.len() as u16).to_be_bytes());
        bytes.extend(&load.bytes);
    }
    bytes.push(line.writes.len() as u8);
    for write in &line.writes {
        bytes.push(write.register);
        bytes.extend(write.value.to_be_bytes());
    }
    bytes.extend((line.pictures.len() as u16).to_be_bytes());
    bytes.extend(&line.pictures);
    bytes
}

pub fn upper_digits(bytes: &[u8]) -> Vec<u8> {
    bytes.iter().map(|byte| format!("{byte:02X}")).collect::<String>().into_bytes()
}

/// A line's digits in upper case, with the line feed.
pub fn line_text(line: &Line) -> Vec<u8> {
    let mut text = upper_digits(&bytes(line));
    text.push(b'\n');
    text
}

/// The digits of those bytes, in upper, lower or mixed case.
pub fn digits(rng: &mut Rng, bytes: &[u8]) -> Vec<u8> {
    let lower_share = rng.pick(&[0, 0, 100, 50]);
    upper_digits(bytes)
        .into_iter()
        .map(|digit| if rng.percent(lower_share) { digit.to_ascii_lowercase() } else { digit })
        .collect()
}

/// Where the parts of a line's digits begin, so that a line can be cut in each of them.
fn part_starts(line: &Line) -> Vec<usize> {
    let mut starts = vec![0];
    let mut at = 2;
    for load in &line.loads {
        starts.extend([at, at + 2, at + 6]);
        at += 6 + 2 * load.bytes.len();
    }
    starts.push(at);
    at += 2;
    for _ in &line.writes {
        starts.extend([at, at + 2]);
        at += 10;
    }
    starts.extend([at, at + 4]);
    starts
}

/// One line that is very likely of bad form, made from the digits of a good one.
pub fn spoil(rng: &mut Rng, line: &Line, good: &[u8]) -> Vec<u8> {
    let mut text = good.to_vec();
    match rng.below(12) {
        0 => text.clear(),
        1 => text.truncate(rng.below(text.len())),
        2 | 3 => {
            let cut = rng.pick(&part_starts(line)) + rng.below(3);
            text.truncate(cut);
        }
        4 => text.push(b'0'),
        5 => text.extend(b"00".repeat(1 + rng.below(4))),
        6 => text.push(b'\r'),
        7 => text.insert(rng.below(good.len() + 1), foreign_byte(rng)),
        8 => text[rng.below(good.len())] = foreign_byte(rng),
        9 => text[..2].copy_from_slice(&rng.pick(&[*b"FF", *b"01", *b"7f"])),
        10 => {
            let bytes = rng.bytes(12);
            text = digits(rng, &bytes);
        }
        _ => lengthen(rng, &mut text),
    }
    text
}

/// Any byte but a digit and the line feed; the neighbours of the digits come often.
pub fn foreign_byte(rng: &mut Rng) -> u8 {
    let neighbours = *b" \t\r\0/:@G`g-x\x80\xFF";
    let any = rng.byte();
    if rng.percent(70) || any == b'\n' || any.is_ascii_hexdigit() {
        rng.pick(&neighbours)
    } else {
        any
    }
}

/// Adds digits until the line is too long, by one digit or by many.
fn lengthen(rng: &mut Rng, text: &mut Vec<u8>) {
    let length =
        rng.pick(&[MOST_DIGITS + 1, MOST_DIGITS + 2, 2 * MOST_DIGITS, 10_000, 65_536, 70_001]);
    add_digits(rng, text, length);
}

/// Adds digits until there are so many.
pub fn add_digits(rng: &mut Rng, text: &mut Vec<u8>, length: usize) {
    while text.len() < length {
        text.push(rng.pick(b"0123456789ABCDEFabcdef"));
    }
}
