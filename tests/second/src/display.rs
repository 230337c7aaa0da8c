//! 01 "What the display is made of", "Registers", "Tables" and "Answers by number": the state and
//! its calls; 02 K1: runs of two of them, K2: its bits, K3: a line, K7: its floats. Every call
//! answers its number.

use crate::answers::*;
use crate::floats::Floats;
use crate::paint::{self, Pictures};
use crate::tables::{Bank, Bits, Tables};
use crate::words::{Words, WORDS};

/// "A write is five bytes", in a run.
pub const ITEM_LEN: usize = 5;

/// "The state holds pending registers, active registers, frame number (32 bits), error word (32
/// bits), and a table selection with its place." And "The number of bits is chosen when a state is
/// made", as is whether it has a float buffer.
#[derive(Clone, Debug, PartialEq, Eq)]
pub struct Display {
    pub(crate) bits: Bits,
    pub(crate) floats: Floats,
    pub(crate) pending: Words,
    pub(crate) active: Words,
    pub(crate) frame: u32,
    pub(crate) errors: u32,
    pub(crate) selected: Selected,
}

/// Whether something is selected, the selection and its place.
#[derive(Clone, Debug, PartialEq, Eq)]
pub(crate) struct Selected {
    pub is_any: bool,
    pub selection: u32,
    pub place: u32,
}

/// A painting of layers: the ends of a band, a whole frame, or the number of a line.
#[derive(Clone, Copy, Debug, PartialEq, Eq)]
pub enum Painting {
    Band(u32, u32),
    Frame,
    Line(u32),
}

impl Display {
    /// "17 for a bit number other than 1 or 2 when making a state, handing back a fresh one-bit
    /// state", which has the float buffer that was asked for.
    pub fn new(bits: u32, floats: Floats) -> (u32, Display) {
        match Bits::of_number(bits) {
            Some(bits) => (DONE, Display::fresh(bits, floats)),
            None => (WRONG_BITS, Display::fresh(Bits::One, floats)),
        }
    }

    /// "A fresh state has all numbers 0 and nothing selected."
    pub fn fresh(bits: Bits, floats: Floats) -> Display {
        Display {
            bits,
            floats,
            pending: Words::fresh(),
            active: Words::fresh(),
            frame: 0,
            errors: 0,
            selected: Selected { is_any: false, selection: 0, place: 0 },
        }
    }

    pub fn bits(&self) -> Bits {
        self.bits
    }

    pub fn floats(&self) -> Floats {
        self.floats
    }

    pub fn errors(&self) -> u32 {
        self.errors
    }

    pub fn frame_number(&self) -> u32 {
        self.frame
    }

    pub fn width(&self) -> i64 {
        self.active.width()
    }

    pub fn height(&self) -> i64 {
        self.active.height()
    }

    /// The pending words, which the generators go on from.
    pub fn pending(&self) -> &Words {
        &self.pending
    }

    /// The active words, which say what the generators have to lend.
    pub fn active(&self) -> &Words {
        &self.active
    }

    /// Lent tables, read by its number of bits.
    pub fn tables<'a>(&self, bytes: &'a [u8]) -> Tables<'a> {
        Tables { bits: self.bits, bytes }
    }

    /// "A write changes the pending word."
    pub fn write(&mut self, register: u32, value: u32) -> u32 {
        if register as usize >= WORDS {
            return NO_REGISTER;
        }
        self.pending.0[register as usize] = value;
        DONE
    }

    /// "Selecting sets the place to 0, also when it selects the same bank again."
    pub fn select(&mut self, selection: u32) -> u32 {
        if selection > 63 {
            return NO_BANK;
        }
        self.selected = Selected { is_any: true, selection, place: 0 };
        DONE
    }

    /// "Error bits are toggled by writing: each 1 clears a set bit and sets a clear one, all 32 of
    /// them (000); this is never refused."
    pub fn toggle(&mut self, bits: u32) -> u32 {
        self.errors ^= bits;
        DONE
    }

    /// "Starting a frame adds one to the frame number, wrapping at 2^32. Then, if the pending
    /// update bit is set, the pending words are checked, and if they pass they become the active
    /// ones."
    pub fn start(&mut self) -> u32 {
        self.frame = self.frame.wrapping_add(1);
        if !self.pending.update_enabled() {
            return DONE;
        }
        let answer = self.pending.check(self.floats);
        if answer == DONE {
            self.active = self.pending.clone();
        }
        answer
    }

    /// "Order: put 6, 3, 4, 5." and "Each put stores one byte and moves the place by one." A place
    /// past the kind's end, which only a state that comes as bytes can have, counts as at it.
    pub fn put(&mut self, tables: &mut [u8], byte: u8) -> u32 {
        if !self.tables(tables).are_whole() {
            return WRONG_TABLES;
        }
        let Selected { is_any, selection, place } = &mut self.selected;
        let bank = Bank::of_selection(*selection);
        if !*is_any {
            return NOTHING_SELECTED;
        }
        if self.active.bank(bank.kind, bank.g) == bank.b {
            return BANK_ACTIVE;
        }
        if *place as usize >= bank.kind.end(self.bits) {
            // "error bit 4g+1 set, else unchanged"
            self.errors |= 1 << (4 * bank.g + 1);
            return BANK_FULL;
        }
        tables[bank.start(self.bits) + *place as usize] = byte;
        *place += 1;
        DONE
    }

    /// "one call that puts a whole run of bytes"
    pub fn put_run(&mut self, tables: &mut [u8], run: &[u8]) -> (u32, usize) {
        in_order(run.iter().map(|&byte| self.put(tables, byte)))
    }

    /// "one that makes a run of register writes .. register then little-endian value; fewer left at
    /// the end are no item."
    pub fn write_run(&mut self, run: &[u8]) -> (u32, usize) {
        let value = |item: &[u8]| u32::from_le_bytes(item[1..].try_into().expect("four bytes"));
        in_order(run.chunks_exact(ITEM_LEN).map(|item| self.write(item[0].into(), value(item))))
    }

    /// "Fill writes the background to every pixel.", whether or not the display is on.
    pub fn fill(&mut self, out: &mut [u8]) -> u32 {
        if self.active.output_len() == 0 {
            return NOTHING_ACTIVE;
        }
        if out.len() as i64 != self.active.output_len() {
            return WRONG_OUTPUT;
        }
        paint::fill(&self.active, out);
        DONE
    }

    /// "Paint 15, 12, 13, 6, 14.", and 18.
    fn paint_refusal(
        &self,
        low: u32,
        high: u32,
        tables: &[u8],
        pictures: Pictures,
        out: &[u8],
    ) -> u32 {
        if low > high || high > 8 {
            return WRONG_BAND;
        }
        if self.active.output_len() == 0 {
            return NOTHING_ACTIVE;
        }
        let right = self.active.output_len();
        paint::buffer_refusal(&self.active, self.tables(tables), pictures, right, out)
    }

    /// "Painting the band a..b (depths from a up to but not b) blends the enabled layers of those
    /// depths".
    pub fn paint(
        &mut self,
        low: u32,
        high: u32,
        tables: &[u8],
        pictures: Pictures,
        out: &mut [u8],
    ) -> u32 {
        let answer = self.paint_refusal(low, high, tables, pictures, out);
        if answer == DONE {
            let tables = self.tables(tables);
            self.errors |= paint::band(&self.active, self.frame, low, high, tables, pictures, out);
        }
        answer
    }

    /// "A whole frame is a fill and band 0..8, refused as paint."
    pub fn frame(&mut self, tables: &[u8], pictures: Pictures, out: &mut [u8]) -> u32 {
        let answer = self.paint_refusal(0, 8, tables, pictures, out);
        if answer == DONE {
            paint::fill(&self.active, out);
            let tables = self.tables(tables);
            self.errors |= paint::band(&self.active, self.frame, 0, 8, tables, pictures, out);
        }
        answer
    }

    /// "Refusals in order: 12, 15 for a line number at or past the height, 13 against 4·width, 6,
    /// 14.", and 18.
    fn line_refusal(&self, y: u32, tables: &[u8], pictures: Pictures, out: &[u8]) -> u32 {
        if self.active.output_len() == 0 {
            return NOTHING_ACTIVE;
        }
        if i64::from(y) >= self.active.height() {
            return WRONG_BAND;
        }
        let right = self.active.line_len();
        paint::buffer_refusal(&self.active, self.tables(tables), pictures, right, out)
    }

    /// Line y of the whole frame, in "one lent output line".
    pub fn line(&mut self, y: u32, tables: &[u8], pictures: Pictures, out: &mut [u8]) -> u32 {
        let answer = self.line_refusal(y, tables, pictures, out);
        if answer == DONE {
            let tables = self.tables(tables);
            self.errors |= paint::line(&self.active, self.frame, y.into(), tables, pictures, out);
        }
        answer
    }
}

impl Painting {
    /// The call of a display that makes it.
    pub fn make(
        self,
        display: &mut Display,
        tables: &[u8],
        pictures: Pictures,
        out: &mut [u8],
    ) -> u32 {
        match self {
            Painting::Band(low, high) => display.paint(low, high, tables, pictures, out),
            Painting::Frame => display.frame(tables, pictures, out),
            Painting::Line(y) => display.line(y, tables, pictures, out),
        }
    }
}

/// Makes the calls of a run, each when its answer is asked for: "the single calls made in order,
/// stopping after the first refusal .. It answers the refusal, or 0, and how many items were done
/// before it".
fn in_order(answers: impl Iterator<Item = u32>) -> (u32, usize) {
    let mut done = 0;
    for answer in answers {
        if answer != DONE {
            return (answer, done);
        }
        done += 1;
    }
    (DONE, done)
}
