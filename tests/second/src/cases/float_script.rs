//! A script about float pictures (02 K7): numbers that become each kind of byte, float layers among
//! pictures and lists, lengths and kinds that are refused, and displays without a float buffer.

use crate::cases::floats::{border, telling};
use crate::script::*;
use crate::words::{layer_word, Words, FLOAT_BIT, GRAPHICS_BIT, KIND_BITS, LAYERS};

/// The screen.
const WIDTH: u32 = 16;
const HEIGHT: u32 = 4;
const SIZE: u32 = WIDTH | HEIGHT << 16;

pub fn float_script() -> Vec<Call> {
    let mut page = Page { calls: Vec::new(), words: Words::fresh() };
    page.paint_numbers();
    page.mix_layers();
    page.lend_wrongly();
    page.refuse_kinds();
    page.calls
}

/// The records so far, and the words that are pending after them.
struct Page {
    calls: Vec<Call>,
    words: Words,
}

impl Page {
    fn call(&mut self, letter: u8, a: u32, b: u32) {
        self.calls.push(Call { letter, a, b });
    }

    fn write(&mut self, register: usize, value: u32) {
        self.words.0[register] = value;
        self.call(WRITE, register as u32, value);
    }

    /// A display with a screen, and with a float buffer or without.
    fn make(&mut self, bits: u32, floats: u32) {
        self.call(NEW, bits, floats);
        self.words = Words::fresh();
        for (register, value) in [(0, 0b101), (1, SIZE)] {
            self.write(register, value);
        }
    }

    /// Starts, and lends as many bytes and floats as the words ask for.
    fn show(&mut self) {
        self.call(START, 0, 0);
        let lengths = [self.words.pictures_len(), self.words.floats_len()];
        self.lend(lengths.map(|length| length as u32));
    }

    fn lend(&mut self, [bytes, floats]: [u32; 2]) {
        self.call(LEND, PICTURES, bytes);
        self.call(LEND, FLOATS, floats);
    }

    /// A frame, two bands over it, and two lines over some of it.
    fn paint_each_way(&mut self) {
        self.call(LEND, OUT, 4 * WIDTH * HEIGHT);
        self.call(FRAME, 0, 0);
        self.call(BAND, 0, 3);
        self.call(BAND, 3, 8);
        self.call(LEND, OUT, 4 * WIDTH);
        self.call(LINE, 0, 0);
        self.call(LINE, 1, 4 * WIDTH);
    }

    // ---- numbers

    /// A float layer over all, and in it numbers as colours of opaque pixels, and as alphas of
    /// white ones over black.
    fn paint_numbers(&mut self) {
        self.make(1, 1);
        for (register, value) in [(layer_word(0), FLOAT_BIT | 0x401), (layer_word(0) + 3, SIZE)] {
            self.write(register, value);
        }
        self.show();
        let borders = [0, 1, 63, 127, 128, 254].map(border);
        let beside = borders.into_iter().flat_map(|border| [border - 1, border, border + 1]);
        let numbers: Vec<u32> = beside.chain(telling()).collect();
        let colours = (0..).filter(|place| place % 4 < 3);
        self.paint_numbers_at(&numbers, colours);
        let alphas = (0..).map(|pixel| 4 * pixel + 3);
        self.paint_numbers_at(&numbers, alphas);
        // Clear all over.
        self.call(FILL_FLOATS, 0, 0);
        self.paint_each_way();
    }

    fn paint_numbers_at(&mut self, numbers: &[u32], places: impl Iterator<Item = u32>) {
        // More than 1 everywhere but in the alphas, which are 1.
        self.call(FILL_FLOATS, u32::MAX, 0);
        let mut last = 0;
        for (place, &number) in places.zip(numbers) {
            self.call(FLOAT, place, number);
            last = place;
        }
        self.paint_each_way();
        for first in (0..=last).step_by(32) {
            self.call(VIEW, first, 0);
        }
    }

    // ---- layers

    /// Layers of every kind, three of them of floats; each in turn is switched on or off, and each in
    /// turn is given another kind, so that each has floats once.
    fn mix_layers(&mut self) {
        self.show_mixture();
        self.paint_each_way();
        for n in 0..LAYERS {
            let first = layer_word(n);
            let word = self.words.0[first];
            let other = if word & FLOAT_BIT == 0 { FLOAT_BIT } else { GRAPHICS_BIT };
            for changed in [word ^ 1, word & !KIND_BITS | 1 | other] {
                self.write(first, changed);
                self.show();
                if self.words.layer(n).float {
                    self.paint_each_way();
                } else {
                    self.call(LEND, OUT, 4 * WIDTH * HEIGHT);
                    self.call(FRAME, 0, 0);
                }
            }
            self.write(first, word);
        }
        self.paint_in_the_dark();
    }

    /// With lists that have no END: the display off, and on again.
    fn paint_in_the_dark(&mut self) {
        self.call(FILL_TABLES, 0x1111_1111, 0);
        for display in [0b100, 0b101] {
            self.write(0, display);
            self.show();
            self.call(LEND, OUT, 4 * WIDTH * HEIGHT);
            self.call(FILL, 0, 0);
            self.paint_each_way();
            self.call(TOGGLE, u32::MAX, 0);
        }
    }

    fn show_mixture(&mut self) {
        self.make(2, 1);
        let layers = [
            [FLOAT_BIT | 1, 0x000, 0x0000_0000, SIZE],
            [0b001, 0x700, 0x0001_0002, 0x0002_0009],
            [GRAPHICS_BIT | 1, 0x100, 0x0000_0004, 0x0003_0008],
            [FLOAT_BIT | 1, 0x600, 0x0001_0007, 0x0003_0009],
            [FLOAT_BIT, 0x400, 0x0001_0000, 0x0002_0010],
            [0b001, 0x200, 0x0000_0001, 0x0004_0003],
            [FLOAT_BIT | 1, 0x500, 0x0000_0003, 0x0004_0005],
            [GRAPHICS_BIT, 0x300, 0x0000_0000, 0x0001_0001],
        ];
        for (n, [kind, depth, corner, size]) in layers.into_iter().enumerate() {
            let words = [(0, kind | depth), (2, corner), (3, size)];
            words.into_iter().for_each(|(i, word)| self.write(layer_word(n) + i, word));
        }
        // Layer 3 by global alpha, in a fade.
        for (i, word) in [(1, 1 << 31 | 40), (5, 0x00F0_0010)] {
            self.write(layer_word(3) + i, word);
        }
        let fills = [(FILL_TABLES, 0x0601_0003), (FILL_PICTURES, 0x9E37_79B1)];
        for (letter, step) in fills.into_iter().chain([(FILL_FLOATS, 0x7F4A_7C15)]) {
            self.call(letter, 1, step);
        }
        self.show();
    }

    // ---- refusals

    /// Too few floats, too many, none, one for each byte and one for each pixel; pictures that are
    /// wrong too, and pictures that are wrong alone. Whatever is painted asks for all of them.
    fn lend_wrongly(&mut self) {
        self.show_mixture();
        let [bytes, floats] =
            [self.words.pictures_len(), self.words.floats_len()].map(|length| length as u32);
        for lent in [floats - 1, floats + 1, 0, 4 * floats, floats / 4] {
            self.lend([bytes, lent]);
            self.paint_each_way();
        }
        for lent in [[bytes + 1, floats + 1], [0, 0], [bytes - 1, floats]] {
            self.lend(lent);
            self.paint_each_way();
        }
        self.lend([bytes, floats - 1]);
        self.call(LEND, OUT, 4 * WIDTH * HEIGHT);
        self.call(BAND, 4, 4);
        // With the display off, too.
        self.write(0, 0b100);
        self.call(START, 0, 0);
        self.paint_each_way();
    }

    /// Bits 1 and 2 together, with the layer on and off; bit 2 where there is no float buffer; and
    /// a float layer where one was asked for with a wrong number of bits.
    fn refuse_kinds(&mut self) {
        for (bits, floats) in [(1, 1), (1, 0), (2, 1 << 31), (3, 1), (3, 0)] {
            self.make(bits, floats);
            self.write(layer_word(6) + 3, SIZE);
            for kind in [KIND_BITS, KIND_BITS | 1, FLOAT_BIT, FLOAT_BIT | 1, 0b001] {
                self.write(layer_word(6), kind);
                self.call(START, 0, 0);
            }
        }
    }
}
