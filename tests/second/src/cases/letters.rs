//! Glyphs by their pixels' values (02 K2), and a script about them: every value at each scale in
//! each text colour, fonts put up to their end, tables of the other length, wrong numbers of bits.

use crate::cases::banks::plain_colour;
use crate::script::*;
use crate::tables::{Bank, Bits, Kind, Tables, COLOURS, GLYPH_LINES};

/// The values of a line's pixels, from the left.
type Line = [u8; 8];

/// "The top bit is leftmost", or "leftmost pixel in the top two bits of the first".
fn line_bytes(bits: Bits, line: Line) -> Vec<u8> {
    let number = line.iter().fold(0, |number, &value| number << bits.number() | u16::from(value));
    number.to_be_bytes()[2 - bits.line_len()..].to_vec()
}

fn line_values(bits: Bits, bytes: &[u8]) -> Line {
    let number = bytes.iter().fold(0, |number, &byte| number << 8 | u16::from(byte));
    let value = |i: usize| number >> (bits.number() * (7 - i)) & ((1 << bits.number()) - 1);
    std::array::from_fn(|i| value(i) as u8)
}

/// Tables with each line of each glyph edited and written with so many bits; nothing else changes.
pub fn with_lines(tables: Tables, bits: Bits, edit: impl Fn(Line) -> Line) -> Vec<u8> {
    let edited = |line: &[u8]| line_bytes(bits, edit(line_values(tables.bits, line)));
    let mut all = vec![0; bits.tables_len()];
    for bank in Kind::ALL.into_iter().flat_map(Bank::all) {
        let bytes = tables.bank(bank);
        let bytes = match bank.kind {
            Kind::Font => bytes.chunks(tables.bits.line_len()).flat_map(edited).collect(),
            _ => bytes.to_vec(),
        };
        all[bank.start(bits)..][..bytes.len()].copy_from_slice(&bytes);
    }
    all
}

// ---- the script

/// The screen, and the layer over all of it.
const WIDTH: u32 = 64;
const HEIGHT: u32 = 16;

/// Two letters, and one behind the end.
const STRING: [u8; 4] = *b"!~\0!";

pub fn letter_script() -> Vec<Call> {
    let mut calls = Vec::new();
    for bits in Bits::ALL {
        show_page(&mut calls, bits);
        draw_text(&mut calls, bits);
        fill_font(&mut calls, bits);
        lend_the_others(&mut calls, bits);
        make_by_wrong_numbers(&mut calls, bits);
    }
    calls
}

fn call(calls: &mut Vec<Call>, letter: u8, a: u32, b: u32) {
    calls.push(Call { letter, a, b });
}

/// Stores a word in a bank that is shown.
fn store(calls: &mut Vec<Call>, bits: Bits, kind: Kind, at: usize, bytes: [u8; 4]) {
    let start = Bank { g: 0, kind, b: 0 }.start(bits);
    call(calls, TABLE_WORD, (start + at) as u32, u32::from_le_bytes(bytes));
}

/// A display whose layer 0 shows bank 0, with colours, the string and its glyphs.
fn show_page(calls: &mut Vec<Call>, bits: Bits) {
    let size = WIDTH | HEIGHT << 16;
    call(calls, NEW, bits.number() as u32, 0);
    for (register, word) in [(0, 0b101), (1, size), (4, 0b11), (7, size)] {
        call(calls, WRITE, register, word);
    }
    call(calls, START, 0, 0);
    call(calls, LEND, OUT, 4 * WIDTH * HEIGHT);
    for i in 0..COLOURS {
        store(calls, bits, Kind::Colour, 4 * i, plain_colour(i));
    }
    store(calls, bits, Kind::Text, 0, STRING);
    for letter in [STRING[0], STRING[1]] {
        let glyph = glyph(bits, letter.into());
        let start = glyph.len() * usize::from(letter - 32);
        for (at, word) in (start..).step_by(4).zip(glyph.chunks(4)) {
            store(calls, bits, Kind::Font, at, word.try_into().expect("whole words"));
        }
    }
}

/// Every value is in each line, and no line is the same from either end.
fn glyph(bits: Bits, letter: usize) -> Vec<u8> {
    let line = |i: usize| {
        let mut line = match bits {
            Bits::One => [1, 1, 0, 1, 0, 0, 0, 0],
            Bits::Two => [0, 1, 2, 3, 0, 2, 3, 1],
        };
        line.rotate_left((letter + i) % 8);
        line_bytes(bits, line)
    };
    (0..GLYPH_LINES).flat_map(line).collect()
}

/// The string in each text colour at each scale.
fn draw_text(calls: &mut Vec<Call>, bits: Bits) {
    store(calls, bits, Kind::Instruction, 0, [0, 0, 0, 12 << 4]);
    for scale in 0..4 {
        store(calls, bits, Kind::Instruction, 8, [0, 0, 0, scale << 6]);
        for colour in 0..COLOURS as u8 {
            store(calls, bits, Kind::Instruction, 12, [0, colour, 0, 0]);
            call(calls, FRAME, 0, 0);
        }
    }
}

/// Runs into the font of bank 1, of as many bytes as it has and of one more, and a put behind each.
fn fill_font(calls: &mut Vec<Call>, bits: Bits) {
    let selection = Bank { g: 0, kind: Kind::Font, b: 1 }.selection();
    let end = Kind::Font.end(bits) as u32;
    call(calls, FILL_PICTURES, 1, 0x0123_4567);
    for run in [end, end + 1] {
        call(calls, SELECT, selection, 0);
        call(calls, PUT_RUN, 0, run);
        call(calls, PUT, 0x5A, 0);
    }
}

/// Tables of the other number of bits, to each call that takes some.
fn lend_the_others(calls: &mut Vec<Call>, bits: Bits) {
    call(calls, LEND, TABLES, bits.other().tables_len() as u32);
    call(calls, PUT, 1, 0);
    call(calls, PUT_RUN, 0, 4);
    call(calls, BAND, 0, 8);
    call(calls, FRAME, 0, 0);
    call(calls, LEND, OUT, 4 * WIDTH);
    call(calls, LINE, 0, 0);
}

/// A put goes into the tables that are then lent, which a display of two bits would refuse.
fn make_by_wrong_numbers(calls: &mut Vec<Call>, bits: Bits) {
    for wrong in [0, 3, 0x102, u32::MAX] {
        call(calls, NEW, bits.number() as u32, 0);
        call(calls, NEW, wrong, 0);
        call(calls, SELECT, 1, 0);
        call(calls, PUT, 0x5A, 0);
    }
}
