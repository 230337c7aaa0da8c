//! 01 "Tables": where each bank lies in the lent table buffer, and what a selection number names;
//! 02 K2: the same with two bits a glyph's pixel.

use crate::words::{field, Words, LAYERS};

pub const INSTRUCTIONS: usize = 48;
pub const INSTRUCTION_LEN: usize = 16;
pub const COLOURS: usize = 16;
pub const STRINGS: usize = 8;
pub const STRING_LEN: usize = 32;
pub const GLYPHS: usize = 96;
pub const GLYPH_LINES: usize = 8;

/// How many bits a glyph's pixel has: "The number of bits is chosen when a state is made".
#[derive(Clone, Copy, Debug, PartialEq, Eq)]
pub enum Bits {
    One,
    Two,
}

impl Bits {
    pub const ALL: [Bits; 2] = [Bits::One, Bits::Two];

    /// None for "a bit number other than 1 or 2".
    pub fn of_number(number: u32) -> Option<Bits> {
        Bits::ALL.into_iter().find(|bits| bits.number() == number as usize)
    }

    pub const fn number(self) -> usize {
        match self {
            Bits::One => 1,
            Bits::Two => 2,
        }
    }

    pub const fn other(self) -> Bits {
        match self {
            Bits::One => Bits::Two,
            Bits::Two => Bits::One,
        }
    }

    /// "The lent table buffer has 29,696 bytes"; with two bits "the tables [grow] to 41,984".
    pub const fn tables_len(self) -> usize {
        match self {
            Bits::One => 29_696,
            Bits::Two => 41_984,
        }
    }

    /// "controller g (which serves layer g) at 3,712·g"; with two bits at 5,248·g.
    pub const fn controller_len(self) -> usize {
        match self {
            Bits::One => 3_712,
            Bits::Two => 5_248,
        }
    }

    /// "bank b at +1,856·b"; with two bits "A font bank grows to 1,536 bytes, a bank to 2,624".
    pub const fn bank_len(self) -> usize {
        match self {
            Bits::One => 1_856,
            Bits::Two => 2_624,
        }
    }

    /// A line of eight pixels: with two bits "A glyph line is two bytes".
    pub const fn line_len(self) -> usize {
        self.number()
    }

    pub const fn glyph_len(self) -> usize {
        GLYPH_LINES * self.line_len()
    }
}

#[derive(Clone, Copy, Debug, PartialEq, Eq)]
pub enum Kind {
    Instruction,
    Colour,
    Text,
    Font,
}

impl Kind {
    pub const ALL: [Kind; 4] = [Kind::Instruction, Kind::Colour, Kind::Text, Kind::Font];

    /// "kind (0 instruction, 1 colour, 2 text, 3 font)"
    pub fn number(self) -> u32 {
        match self {
            Kind::Instruction => 0,
            Kind::Colour => 1,
            Kind::Text => 2,
            Kind::Font => 3,
        }
    }

    /// "instructions at 0 (48 of 16 bytes), colours at 768 (16 of 4), strings at 832 (8 of 32),
    /// font at 1,088 (96 glyphs of 8 bytes)"
    pub fn offset(self) -> usize {
        match self {
            Kind::Instruction => 0,
            Kind::Colour => 768,
            Kind::Text => 832,
            Kind::Font => 1_088,
        }
    }

    /// Its bytes, which are also "the kind's end". The bits count for a font alone.
    pub fn end(self, bits: Bits) -> usize {
        match self {
            Kind::Instruction => INSTRUCTIONS * INSTRUCTION_LEN,
            Kind::Colour => COLOURS * 4,
            Kind::Text => STRINGS * STRING_LEN,
            Kind::Font => GLYPHS * bits.glyph_len(),
        }
    }
}

/// One bank of one kind of one controller.
#[derive(Clone, Copy, Debug, PartialEq, Eq)]
pub struct Bank {
    pub g: usize,
    pub kind: Kind,
    pub b: usize,
}

impl Bank {
    /// "A selection is a number 0..63: bits 5:3 controller (001), bits 2:1 kind (0 instruction, 1
    /// colour, 2 text, 3 font), bit 0 bank." Any number is read by these bits: no select takes one
    /// above 63, but a state that comes as bytes may hold one.
    pub fn of_selection(selection: u32) -> Bank {
        Bank {
            g: field(selection, 5, 3) as usize,
            kind: Kind::ALL[field(selection, 2, 1) as usize],
            b: field(selection, 0, 0) as usize,
        }
    }

    /// Both banks of each controller.
    pub fn all(kind: Kind) -> impl Iterator<Item = Bank> {
        (0..LAYERS).flat_map(move |g| [0, 1].map(|b| Bank { g, kind, b }))
    }

    pub fn selection(self) -> u32 {
        (self.g as u32) << 3 | self.kind.number() << 1 | self.b as u32
    }

    /// Where it begins in the tables.
    pub fn start(self, bits: Bits) -> usize {
        bits.controller_len() * self.g + bits.bank_len() * self.b + self.kind.offset()
    }
}

/// Lent tables, and the number of bits by which they are read.
#[derive(Clone, Copy, Debug)]
pub struct Tables<'a> {
    pub bits: Bits,
    pub bytes: &'a [u8],
}

impl<'a> Tables<'a> {
    /// "the host entry goes by the table length". Those of neither length are not whole, whichever
    /// number they are read by.
    pub fn by_length(bytes: &'a [u8]) -> Tables<'a> {
        let is_two = bytes.len() == Bits::Two.tables_len();
        Tables { bits: if is_two { Bits::Two } else { Bits::One }, bytes }
    }

    /// "6 compares with the chosen length"
    pub fn are_whole(self) -> bool {
        self.bytes.len() == self.bits.tables_len()
    }

    pub fn bank(self, bank: Bank) -> &'a [u8] {
        &self.bytes[bank.start(self.bits)..][..bank.kind.end(self.bits)]
    }

    /// The bank that word 3 names for a controller.
    pub fn active(self, words: &Words, kind: Kind, g: usize) -> &'a [u8] {
        self.bank(Bank { g, kind, b: words.bank(kind, g) })
    }
}
