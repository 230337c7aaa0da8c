//! 01 "Registers": the 52 words and their fields, and the checks that a start makes of them; 02 K7:
//! layers whose pictures are floats.

use crate::answers::*;
use crate::fade::Fade;
use crate::floats::Floats;
use crate::tables::Kind;

pub const WORDS: usize = 52;
pub const LAYERS: usize = 8;

/// The first of a layer's six words: "4+6n".
pub const fn layer_word(n: usize) -> usize {
    4 + 6 * n
}

/// "depth 10:8" of a layer's first word.
pub const DEPTH_BITS: u32 = 0x700;
/// "bit 1 graphics"
pub const GRAPHICS_BIT: u32 = 0b010;
/// 02 K7: "Bit 2 of a layer's first word now says that its picture comes from a second lent buffer"
pub const FLOAT_BIT: u32 = 0b100;
/// Both, of which a layer may have one.
pub const KIND_BITS: u32 = GRAPHICS_BIT | FLOAT_BIT;

/// The bits that the table of registers names. "Every other bit is reserved."
pub fn named_bits(register: usize) -> u32 {
    // "width 11:0, height 27:16", and likewise x and y.
    const TWO_NUMBERS: u32 = 0x0FFF_0FFF;
    match register {
        0 => 0b101,
        1 => TWO_NUMBERS,
        2 => 0x00FF_FFFF,
        3 => 0xFFFF_FFFF,
        _ => match (register - 4) % 6 {
            0 => 0x0000_0707,
            1 => 0x8000_00FF,
            2 | 3 => TWO_NUMBERS,
            4 => 0xFFFF_FFFF,
            _ => 0x00FF_FFFF,
        },
    }
}

/// The field "high:low" of a word.
pub fn field(word: u32, high: u32, low: u32) -> u32 {
    (word >> low) & ((1 << (high - low + 1)) - 1)
}

/// A layer's six words, read.
#[derive(Clone, Debug)]
pub struct Layer {
    pub enabled: bool,
    pub graphics: bool,
    /// A frame layer whose picture is floats.
    pub float: bool,
    pub depth: u32,
    pub global_alpha: bool,
    pub fade: Fade,
    pub x: i64,
    pub y: i64,
    pub width: i64,
    pub height: i64,
}

impl Layer {
    /// "each 4·width·height bytes", and of a float layer as many f32 numbers: "four a pixel"
    pub fn picture_len(&self) -> i64 {
        4 * self.width * self.height
    }

    /// Whether it lies on a line of the screen.
    pub fn is_on(&self, y: i64) -> bool {
        (self.y..self.y + self.height).contains(&y)
    }
}

#[derive(Clone, Debug, PartialEq, Eq)]
pub struct Words(pub [u32; WORDS]);

impl Words {
    /// "A fresh state has all numbers 0"
    pub fn fresh() -> Words {
        Words([0; WORDS])
    }

    /// "bit 0 display on"
    pub fn display_on(&self) -> bool {
        field(self.0[0], 0, 0) == 1
    }

    /// "bit 2 update enable"
    pub fn update_enabled(&self) -> bool {
        field(self.0[0], 2, 2) == 1
    }

    /// "output width 11:0"
    pub fn width(&self) -> i64 {
        i64::from(field(self.0[1], 11, 0))
    }

    /// "height 27:16"
    pub fn height(&self) -> i64 {
        i64::from(field(self.0[1], 27, 16))
    }

    /// "background channel 0 7:0, channel 1 15:8, channel 2 23:16"
    pub fn background(&self) -> [u8; 3] {
        let word = self.0[2];
        [field(word, 7, 0) as u8, field(word, 15, 8) as u8, field(word, 23, 16) as u8]
    }

    /// "active bank bits of controllers 0..7: instruction 7:0, colour 15:8, text 23:16, font 31:24"
    pub fn bank(&self, kind: Kind, g: usize) -> usize {
        let bit = 8 * kind.number() + g as u32;
        field(self.0[3], bit, bit) as usize
    }

    /// "layer n: bit 0 enabled, bit 1 graphics, depth 10:8", then the five words after it. Bit 2
    /// beside bit 1, which no start lets in, says nothing.
    pub fn layer(&self, n: usize) -> Layer {
        let first = layer_word(n);
        let [kind, alpha, corner, size, start, length] =
            [0, 1, 2, 3, 4, 5].map(|i| self.0[first + i]);
        Layer {
            enabled: field(kind, 0, 0) == 1,
            graphics: kind & GRAPHICS_BIT != 0,
            float: kind & KIND_BITS == FLOAT_BIT,
            depth: field(kind, 10, 8),
            global_alpha: field(alpha, 31, 31) == 1,
            fade: Fade {
                value: field(alpha, 7, 0),
                target: field(length, 23, 16),
                start,
                length: field(length, 15, 0),
            },
            x: i64::from(field(corner, 11, 0)),
            y: i64::from(field(corner, 27, 16)),
            width: i64::from(field(size, 11, 0)),
            height: i64::from(field(size, 27, 16)),
        }
    }

    /// The enabled layers "in rising depth".
    pub fn order(&self) -> Vec<usize> {
        let mut layers: Vec<usize> = (0..LAYERS).filter(|&n| self.layer(n).enabled).collect();
        layers.sort_by_key(|&n| self.layer(n).depth);
        layers
    }

    /// "Start 7, 8, then layers 0 to 7 each 9 then 10, then 11." and "Disabled layers are looked at
    /// for 7 only."
    pub fn check(&self, floats: Floats) -> u32 {
        let is_reserved = |register: usize| self.0[register] & !named_bits(register) != 0;
        if (0..WORDS).any(is_reserved) || (0..LAYERS).any(|n| self.is_no_kind(n, floats)) {
            return RESERVED_BIT;
        }
        if self.width() == 0 || self.height() == 0 {
            return NO_OUTPUT;
        }
        let mut depths = Vec::new();
        for layer in (0..LAYERS).map(|n| self.layer(n)).filter(|layer| layer.enabled) {
            if layer.width == 0 || layer.height == 0 {
                return EMPTY_LAYER;
            }
            if layer.x + layer.width > self.width() || layer.y + layer.height > self.height() {
                return LAYER_OUTSIDE;
            }
            depths.push(layer.depth);
        }
        // 11 waits until every layer has had its 9 and 10.
        if (0..depths.len()).any(|i| depths[..i].contains(&depths[i])) {
            return SAME_DEPTH;
        }
        DONE
    }

    /// 02 K7: "7 now for bits 1 and 2 together but no longer for bit 2 alone, save in the host
    /// entry and the sheet program", in disabled layers too.
    fn is_no_kind(&self, n: usize, floats: Floats) -> bool {
        let kind = self.0[layer_word(n)] & KIND_BITS;
        kind == KIND_BITS || kind == FLOAT_BIT && floats == Floats::Without
    }

    /// "output not 4·width·height bytes"
    pub fn output_len(&self) -> i64 {
        4 * self.width() * self.height()
    }

    /// Of one line: "4·width".
    pub fn line_len(&self) -> i64 {
        4 * self.width()
    }

    /// "Pictures: enabled frame layers in rising layer number, each 4·width·height bytes in raster
    /// order, without gaps, whatever the band."
    pub fn pictures_len(&self) -> i64 {
        self.picture_start(LAYERS)
    }

    /// Where layer n's picture begins: after those of the enabled frame layers of lower number. 02
    /// K7: "Byte pictures skip such layers."
    pub fn picture_start(&self, n: usize) -> i64 {
        self.lengths_below(n, |layer| !layer.graphics && !layer.float)
    }

    /// 02 K7: "a second lent buffer of f32 numbers, four a pixel, in rising layer number like the
    /// other": how many numbers.
    pub fn floats_len(&self) -> i64 {
        self.float_start(LAYERS)
    }

    /// With which number layer n's floats begin.
    pub fn float_start(&self, n: usize) -> i64 {
        self.lengths_below(n, |layer| layer.float)
    }

    /// The pictures of enabled layers of such a kind and of lower number, together.
    fn lengths_below(&self, n: usize, is_such: fn(&Layer) -> bool) -> i64 {
        (0..n)
            .map(|lower| self.layer(lower))
            .filter(|layer| layer.enabled && is_such(layer))
            .map(|layer| layer.picture_len())
            .sum()
    }
}
