//! 01 "Graphics layers", and 02 K2 for text: the colour index that a controller's instruction list
//! gives one pixel of its layer. Colours and blending are not here.

use crate::tables::{Bits, Kind, Tables, COLOURS, INSTRUCTION_LEN, STRINGS, STRING_LEN};
use crate::words::{field, Words};

/// A controller's strings and glyphs.
#[derive(Clone, Copy)]
pub struct Letters<'a> {
    pub strings: &'a [u8],
    pub font: &'a [u8],
    pub bits: Bits,
}

impl<'a> Letters<'a> {
    /// Those of the banks that word 3 names for a controller.
    pub fn active(words: &Words, g: usize, tables: Tables<'a>) -> Letters<'a> {
        Letters {
            strings: tables.active(words, Kind::Text, g),
            font: tables.active(words, Kind::Font, g),
            bits: tables.bits,
        }
    }

    /// "Glyph c−32 serves characters 32 to 127; others leave their cell. The top bit is leftmost";
    /// with two bits "A glyph line is two bytes, leftmost pixel in the top two bits of the first."
    fn glyph_value(&self, c: u8, column: usize, line: usize) -> Option<usize> {
        if !(32..=127).contains(&c) {
            return None;
        }
        let bits = self.bits;
        let start = bits.glyph_len() * usize::from(c - 32) + bits.line_len() * line;
        let bytes = &self.font[start..start + bits.line_len()];
        let line = bytes.iter().fold(0, |line, &byte| line << 8 | usize::from(byte));
        Some(line >> (bits.number() * (7 - column)) & ((1 << bits.number()) - 1))
    }
}

#[derive(Clone, Debug)]
pub struct Instruction {
    opcode: u32,
    x_start: i64,
    x_end: i64,
    y_start: i64,
    y_end: i64,
    string: usize,
    pub scale: i64,
    weight: i64,
    box_colour: usize,
    pub text_colour: usize,
}

impl Instruction {
    /// "An instruction is four little-endian words", field by field as the list under it has them.
    pub fn read(bytes: &[u8]) -> Instruction {
        let word = |i: usize| {
            u32::from_le_bytes([bytes[4 * i], bytes[4 * i + 1], bytes[4 * i + 2], bytes[4 * i + 3]])
        };
        Instruction {
            opcode: field(word(0), 31, 28),
            x_end: i64::from(field(word(0), 23, 12)),
            x_start: i64::from(field(word(0), 11, 0)),
            string: field(word(1), 7, 0) as usize,
            scale: [1, 2, 4, 8][field(word(2), 31, 30) as usize],
            weight: i64::from(field(word(2), 27, 24)),
            y_end: i64::from(field(word(2), 23, 12)),
            y_start: i64::from(field(word(2), 11, 0)),
            box_colour: field(word(3), 7, 0) as usize % COLOURS,
            text_colour: field(word(3), 15, 8) as usize % COLOURS,
        }
    }

    /// "10 is a box, 12 text, 14 a box and then text over it. All others do nothing".
    pub fn has_box(&self) -> bool {
        [10, 14].contains(&self.opcode)
    }

    pub fn has_text(&self) -> bool {
        [12, 14].contains(&self.opcode)
    }

    /// "A box has its ends included; start past end draws nothing. Weight 0 fills. Weight k draws
    /// pixels of the box less than k from one of its four sides, so an edge pixel is at distance
    /// 0."
    pub fn box_draws(&self, u: i64, v: i64) -> bool {
        if u < self.x_start || u > self.x_end || v < self.y_start || v > self.y_end {
            return false;
        }
        let distances = [u - self.x_start, self.x_end - u, v - self.y_start, self.y_end - v];
        self.weight == 0 || distances.iter().any(|&distance| distance < self.weight)
    }

    /// The value of the pixel of a glyph that lies over (u, v), if one does: "Text starts at x
    /// start, y start and stops at the string's first zero byte or after 32 characters (000:
    /// characters after the NULL are not shown). A string number above 7 draws nothing. Character i
    /// fills a cell 8·scale wide and high."
    pub fn text_value(&self, letters: &Letters, u: i64, v: i64) -> Option<usize> {
        let cell = 8 * self.scale;
        let right = u - self.x_start;
        let down = v - self.y_start;
        if self.string >= STRINGS || right < 0 || down < 0 || down >= cell {
            return None;
        }
        let i = (right / cell) as usize;
        if i >= STRING_LEN {
            return None;
        }
        let string = &letters.strings[STRING_LEN * self.string..STRING_LEN * (self.string + 1)];
        if string[..=i].contains(&0) {
            return None;
        }
        let (column, line) = (right % cell / self.scale, down / self.scale);
        letters.glyph_value(string[i], column as usize, line as usize)
    }
}

/// The instructions before the first END, and whether there is one.
pub struct List {
    pub instructions: Vec<Instruction>,
    pub ended: bool,
}

impl List {
    /// "The list runs to the first END or through all 48 instructions" and "Opcode 0 ends (000)."
    pub fn read(bank: &[u8]) -> List {
        let mut instructions = Vec::new();
        for bytes in bank.chunks(INSTRUCTION_LEN) {
            let instruction = Instruction::read(bytes);
            if instruction.opcode == 0 {
                return List { instructions, ended: true };
            }
            instructions.push(instruction);
        }
        List { instructions, ended: false }
    }

    /// "Every pixel begins with colour index 0." and "later ones overwrite"; "0 leaves the pixel, 1
    /// to 3 give text colour plus value minus one, modulo 16."
    pub fn index_at(&self, letters: &Letters, u: i64, v: i64) -> usize {
        let mut index = 0;
        for instruction in &self.instructions {
            if instruction.has_box() && instruction.box_draws(u, v) {
                index = instruction.box_colour;
            }
            if !instruction.has_text() {
                continue;
            }
            if let Some(value @ 1..) = instruction.text_value(letters, u, v) {
                index = (instruction.text_colour + value - 1) % COLOURS;
            }
        }
        index
    }
}
