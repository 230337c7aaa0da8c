//! Pages that draw every character, string length, string number, opcode, weight and text colour,
//! and each scale (01 "Graphics layers"), by one instruction each: as a sheet, and as calls of the
//! host entry with either number of bits (02 K2).

use crate::cases::banks::plain_colour;
use crate::cases::form::line_text;
use crate::cases::hosts::{image_bytes, HostCase};
use crate::rng::Rng;
use crate::sheet::{Line, Load, Write};
use crate::tables::{Bank, Bits, Kind, COLOURS, STRINGS, STRING_LEN};
use crate::words::Words;

/// A screen with layer 0 all over it, one instruction, and the string bank.
struct Page {
    size: (u32, u32),
    instruction: Instruction,
    strings: Vec<u8>,
}

/// The fields that vary; the rest of the box is the same on every page.
#[derive(Clone, Copy)]
struct Instruction {
    opcode: u32,
    start: u32,
    string: u32,
    scale: u32,
    weight: u32,
    colour: u32,
}

const TEXT: Instruction =
    Instruction { opcode: 12, start: 0, string: 0, scale: 0, weight: 0, colour: 2 };

impl Instruction {
    /// The box ends at 7 both ways, in colour 1.
    fn bytes(self) -> Vec<u8> {
        let Instruction { opcode, start, string, scale, weight, colour } = self;
        let words = [
            opcode << 28 | 7 << 12 | start,
            string,
            scale << 30 | weight << 24 | 7 << 12 | start,
            colour << 8 | 1,
        ];
        words.into_iter().flat_map(u32::to_le_bytes).collect()
    }
}

/// String 0 with those bytes, zeros after it.
fn string_0(bytes: &[u8]) -> Vec<u8> {
    let mut strings = bytes.to_vec();
    strings.resize(STRINGS * STRING_LEN, 0);
    strings
}

fn characters() -> impl Iterator<Item = Page> {
    (0..=255).map(|c| Page { size: (24, 8), instruction: TEXT, strings: string_0(&[c, b'A']) })
}

/// Thirty-two characters and room for one more, with the zero byte at each place or nowhere.
fn lengths() -> impl Iterator<Item = Page> {
    (0..=STRING_LEN).map(|zero| {
        let mut strings: Vec<u8> = (0..STRINGS * STRING_LEN).map(|i| 33 + (i % 90) as u8).collect();
        if zero < STRING_LEN {
            strings[zero] = 0;
        }
        Page { size: (264, 3), instruction: TEXT, strings }
    })
}

/// Each string number, with a box under the text; string i is the one letter i of the alphabet.
fn string_numbers() -> impl Iterator<Item = Page> {
    (0..=255).map(|string| {
        let mut strings = vec![0; STRINGS * STRING_LEN];
        for i in 0..STRINGS {
            strings[STRING_LEN * i] = b'A' + i as u8;
        }
        let instruction = Instruction { opcode: 14, start: 2, string, ..TEXT };
        Page { size: (12, 12), instruction, strings }
    })
}

/// Each opcode with each weight, on a layer that the box stays within and on one that cuts it.
fn boxes() -> impl Iterator<Item = Page> {
    (0..16 * 16 * 2).map(|i| {
        let instruction =
            Instruction { opcode: i / 32, start: 1, weight: i / 2 % 16, scale: i / 2 % 4, ..TEXT };
        let size = if i % 2 == 0 { (9, 9) } else { (6, 5) };
        Page { size, instruction, strings: string_0(b"A") }
    })
}

fn scales() -> impl Iterator<Item = Page> {
    (0..4 * 2).map(|i| {
        let size = if i % 2 == 0 { (64, 16) } else { (16, 64) };
        Page { size, instruction: Instruction { scale: i / 2, ..TEXT }, strings: string_0(b"AB") }
    })
}

/// Each number that a text colour can be, over the glyphs of two letters.
fn text_colours() -> impl Iterator<Item = Page> {
    (0..=255).map(|colour| {
        let instruction = Instruction { colour, ..TEXT };
        Page { size: (16, 8), instruction, strings: string_0(b"AB") }
    })
}

fn pages() -> impl Iterator<Item = Page> {
    let strings = characters().chain(lengths()).chain(string_numbers());
    strings.chain(boxes()).chain(scales()).chain(text_colours())
}

impl Page {
    /// What is to stand at the front of the banks of controller 0.
    fn banks(&self, bits: Bits) -> [(Kind, Vec<u8>); 4] {
        let end = [0; 16];
        [
            (Kind::Instruction, [&self.instruction.bytes()[..], &end].concat()),
            (Kind::Colour, (0..COLOURS).flat_map(plain_colour).collect()),
            (Kind::Text, self.strings.clone()),
            (Kind::Font, Rng::new(0).bytes(Kind::Font.end(bits))),
        ]
    }

    /// The registers that show it from bank b.
    fn writes(&self, b: usize) -> [(u8, u32); 5] {
        let size = self.size.0 | self.size.1 << 16;
        let banks = 0x0101_0101 * b as u32;
        [(0, 0b101), (1, size), (3, banks), (4, 0b11), (7, size)]
    }
}

/// Pages take turns in the two banks of controller 0, since only the idle one can be loaded. Both
/// have their font from the first pages.
pub fn drawing_sheet() -> Vec<u8> {
    let mut sheet = Vec::new();
    for (i, page) in pages().enumerate() {
        let b = 1 - i % 2;
        let load = |(kind, bytes)| {
            let bank = Bank { g: 0, kind, b };
            Load { selection: bank.selection() as u8, bytes }
        };
        let banks = page.banks(Bits::One).into_iter();
        let loads = banks.filter(|(kind, _)| *kind != Kind::Font || i < 2).map(load).collect();
        let writes = page.writes(b).map(|(register, value)| Write { register, value }).to_vec();
        sheet.extend(line_text(&Line { loads, writes, pictures: Vec::new() }));
    }
    sheet
}

/// A call for each page, from bank 0 and bank 1 by turns.
pub fn drawing_calls(bits: Bits) -> Vec<HostCase> {
    let call = |(i, page): (usize, Page)| {
        let mut words = Words::fresh();
        for (register, value) in page.writes(i % 2) {
            words.0[usize::from(register)] = value;
        }
        let mut tables = vec![0; bits.tables_len()];
        for (kind, bytes) in page.banks(bits) {
            let start = Bank { g: 0, kind, b: i % 2 }.start(bits);
            tables[start..start + bytes.len()].copy_from_slice(&bytes);
        }
        let output = vec![0xA5; words.output_len() as usize];
        HostCase { image: image_bytes(&words), frame: 0, tables, pictures: Vec::new(), output }
    };
    pages().enumerate().map(call).collect()
}
