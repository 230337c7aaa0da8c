//! Sheets of seeded lines (01 "Sheet program and host entry"). Each line goes on from the state
//! that the lines before it left, so that most lines paint a frame; the rest are refused on purpose
//! or badly formed.

use crate::answers::*;
use crate::cases::scene::{controller, nudge, pictures, scene, spoil, Room};
use crate::cases::{banks, form};
use crate::floats::Floats;
use crate::rng::Rng;
use crate::sheet::{Line, Load, Sheet, Write, MOST_DIGITS, MOST_OUTPUT};
use crate::tables::{Bank, Kind};
use crate::words::{Words, LAYERS, WORDS};

/// The sheets that the tests compare unless told otherwise, of the seeds from 0 on.
pub const SHEETS: u64 = 50;
pub const LINES_A_SHEET: usize = 40;

/// Pixels that frame layers bring at most: their bytes, a controller's four banks and the writes
/// stay within a line.
const FRAME_PIXELS: i64 = 470;

/// The sheet program has no float buffer.
const FLOATS: Floats = Floats::Without;

/// Pixels of the largest screen that a line can paint.
const SCREEN_PIXELS: i64 = 1_024;

/// A sheet of that many lines; the last of them has its line feed or not.
pub fn gen_sheet(seed: u64, lines: usize) -> Vec<u8> {
    let mut rng = Rng::new(seed);
    let dark_lines = if rng.percent(40) { rng.below(4) } else { 0 };
    let mut author = Author { rng, sheet: Sheet::new(), dark_lines };
    let mut text = Vec::new();
    for _ in 0..lines {
        text.extend(author.line());
        text.push(b'\n');
    }
    if author.rng.percent(50) {
        text.pop();
    }
    text
}

struct Author {
    rng: Rng,
    /// What the lines so far have made.
    sheet: Sheet,
    /// Lines still to come that leave the update bit clear, so that nothing is active and 12 comes.
    dark_lines: usize,
}

impl Author {
    fn line(&mut self) -> Vec<u8> {
        let mut line = self.plan();
        let form = self.rng.below(100);
        match form {
            0..=2 => self.fill_up(&mut line, MOST_DIGITS / 2),
            // Well formed but for its length.
            3 => self.fill_up(&mut line, MOST_DIGITS / 2 + 1),
            _ => {}
        }
        let mut text = form::digits(&mut self.rng, &form::bytes(&line));
        if form >= 90 {
            text = form::spoil(&mut self.rng, &line, &text);
        }
        self.sheet.line(&text);
        text
    }

    /// A well formed line, with up to two of its steps to be refused.
    fn plan(&mut self) -> Line {
        let faults = self.faults();
        let mut line = Line::default();
        let mut wish = self.wish();
        self.load_idle_banks(&mut line, &mut wish);
        for &fault in &faults {
            match fault {
                RESERVED_BIT..=SAME_DEPTH => spoil(&mut self.rng, &mut wish, fault, FLOATS),
                NO_BANK | BANK_ACTIVE | BANK_FULL => self.spoil_loads(&mut line, fault),
                _ => {}
            }
        }
        self.write_words(&mut line, &wish);
        if faults.contains(&NO_REGISTER) {
            let at = self.rng.below(line.writes.len() + 1);
            let register = self.rng.pick(&[52, 53, 63, 64, 127, 128, 255]);
            line.writes.insert(at, Write { register, value: self.rng.u32() });
        }
        self.add_pictures(&mut line, faults.contains(&WRONG_PICTURES));
        line
    }

    /// The refusals to provoke: none as a rule, sometimes two, so that their order shows.
    fn faults(&mut self) -> Vec<u32> {
        const FAULTS: [u32; 8] = [
            NO_REGISTER,
            NO_BANK,
            BANK_ACTIVE,
            BANK_FULL,
            RESERVED_BIT,
            NO_OUTPUT,
            WRONG_PICTURES,
            WRONG_PICTURES,
        ];
        // Two of these show that the layers are asked one by one, and depths after all of them.
        const LAYER_FAULTS: [u32; 3] = [EMPTY_LAYER, LAYER_OUTSIDE, SAME_DEPTH];
        let count = match self.rng.below(100) {
            0..=15 => 1,
            16..=21 => 2,
            _ => 0,
        };
        let choices = if self.rng.percent(35) { &LAYER_FAULTS[..] } else { &FAULTS[..] };
        (0..count).map(|_| self.rng.pick(choices)).collect()
    }

    /// The words that the line shall make pending: a new scene, or the present one with changes.
    fn wish(&mut self) -> Words {
        let display = &self.sheet.display;
        let now = display.frame_number().wrapping_add(1);
        let word_3 = display.pending().0[3];
        // After a refused start the pending words are left behind and the active ones gone on from.
        let base = [display.pending(), display.active()]
            .into_iter()
            .find(|words| words.check(FLOATS) == DONE)
            .cloned();
        let too_large =
            base.as_ref().is_some_and(|words| words.width() * words.height() > SCREEN_PIXELS);
        let new_share = if too_large { 60 } else { 14 };
        let frame_pixels = FRAME_PIXELS;
        let room = |width, height| Room { width, height, frame_pixels, now, floats: FLOATS };
        let mut wish = match base {
            Some(base) if !self.rng.percent(new_share) => {
                nudge(&mut self.rng, &base, room(base.width(), base.height()))
            }
            _ => {
                let (width, height) = screen(&mut self.rng);
                scene(&mut self.rng, room(width, height))
            }
        };
        wish.0[0] |= 0b100;
        wish.0[3] = word_3;
        if self.dark_lines > 0 {
            self.dark_lines -= 1;
            wish.0[0] &= !0b100;
        } else if self.rng.percent(8) {
            wish.0[0] &= !0b100;
        }
        wish
    }

    /// Loads of banks that are not active, and mostly the wish that they become so.
    fn load_idle_banks(&mut self, line: &mut Line, wish: &mut Words) {
        let g = controller(&mut self.rng, wish);
        let bits = self.sheet.display.bits();
        let tables = self.sheet.display.tables(&self.sheet.tables);
        let no_colours = tables.active(wish, Kind::Colour, g).iter().all(|&byte| byte == 0);
        let kinds = match self.rng.below(10) {
            0..=2 => Vec::new(),
            _ if no_colours => Kind::ALL.to_vec(),
            3..=6 => vec![self.rng.pick(&Kind::ALL)],
            _ => vec![self.rng.pick(&Kind::ALL), self.rng.pick(&[Kind::Colour, Kind::Text])],
        };
        for kind in kinds {
            let bank = self.idle(kind, g);
            let layer = wish.layer(g);
            let mut bytes = banks::bank(&mut self.rng, kind, bits, layer.width, layer.height);
            if self.rng.percent(10) {
                bytes.truncate(self.rng.below(bytes.len() + 1));
            }
            line.loads.push(Load { selection: bank.selection() as u8, bytes });
            if self.rng.percent(90) {
                let bit = 8 * kind.number() + g as u32;
                wish.0[3] = wish.0[3] & !(1 << bit) | (bank.b as u32) << bit;
            }
        }
        if self.rng.percent(4) {
            // Nothing is put, so it matters to nobody whether the bank is active.
            line.loads.push(Load { selection: self.rng.below(64) as u8, bytes: Vec::new() });
        }
        if self.rng.percent(4) {
            wish.0[3] ^= 1 << self.rng.below(32);
        }
    }

    fn idle(&self, kind: Kind, g: usize) -> Bank {
        Bank { g, kind, b: 1 - self.sheet.display.active().bank(kind, g) }
    }

    /// Puts a load that is refused somewhere among the loads.
    fn spoil_loads(&mut self, line: &mut Line, fault: u32) {
        let full_before: Vec<usize> =
            (0..LAYERS).filter(|g| self.sheet.display.errors() >> (4 * g + 1) & 1 == 1).collect();
        let g = if full_before.is_empty() || self.rng.percent(60) {
            self.rng.below(LAYERS)
        } else {
            self.rng.pick(&full_before)
        };
        let kind =
            self.rng.pick(&[Kind::Colour, Kind::Colour, Kind::Text, Kind::Font, Kind::Instruction]);
        let idle = self.idle(kind, g);
        let (selection, count) = match fault {
            NO_BANK => (self.rng.pick(&[64, 65, 127, 128, 255]), self.rng.below(5)),
            BANK_ACTIVE => (Bank { b: 1 - idle.b, ..idle }.selection(), 1 + self.rng.below(70)),
            _ => {
                let end = kind.end(self.sheet.display.bits());
                (idle.selection(), end + 1 + self.rng.below(3))
            }
        };
        let load = Load { selection: selection as u8, bytes: self.rng.bytes(count) };
        line.loads.insert(self.rng.below(line.loads.len() + 1), load);
    }

    /// The writes that turn the pending words into the wished ones, in any order; some words are
    /// first written otherwise.
    fn write_words(&mut self, line: &mut Line, wish: &Words) {
        let pending = self.sheet.display.pending();
        let mut registers: Vec<usize> = (0..WORDS).filter(|&i| pending.0[i] != wish.0[i]).collect();
        if self.rng.percent(10) {
            registers.push(self.rng.below(WORDS));
        }
        self.rng.shuffle(&mut registers);
        if self.rng.percent(10) {
            for &register in registers.iter().take(3) {
                line.writes.push(Write { register: register as u8, value: self.rng.u32() });
            }
        }
        line.writes
            .extend(registers.iter().map(|&i| Write { register: i as u8, value: wish.0[i] }));
    }

    /// Pictures for the words that will be active once the line's start is done.
    fn add_pictures(&mut self, line: &mut Line, wrong: bool) {
        let mut trial = self.sheet.clone();
        trial.loads_and_writes(line);
        trial.display.start();
        let right = trial.display.active().pictures_len();
        // 13 comes before 14, and 14 comes though the display is off.
        let too_large = trial.display.active().output_len() > MOST_OUTPUT as i64;
        let dark = !trial.display.active().display_on();
        let length = if wrong || (too_large || dark) && self.rng.percent(20) {
            let by = self.rng.pick(&[-right, -4, -1, 1, 4, 40]);
            (right + by).max(0)
        } else {
            right
        };
        line.pictures = pictures(&mut self.rng, length as usize);
    }

    /// Adds loads of idle banks until the line stands for that many bytes, where it stands for
    /// fewer. They come first, so that the line's own loads have the last word.
    fn fill_up(&mut self, line: &mut Line, length: usize) {
        const LOAD_HEAD: usize = 3;
        loop {
            let missing = length.saturating_sub(form::bytes(line).len());
            if missing < LOAD_HEAD {
                return;
            }
            let kind = self.rng.pick(&[Kind::Instruction, Kind::Font]);
            let g = self.rng.below(LAYERS);
            let bank = self.idle(kind, g);
            let mut count = kind.end(self.sheet.display.bits()).min(missing - LOAD_HEAD);
            if (1..LOAD_HEAD).contains(&(missing - LOAD_HEAD - count)) {
                // Too little would be left for another load.
                count -= LOAD_HEAD;
            }
            let bytes = self.rng.bytes(count);
            line.loads.insert(0, Load { selection: bank.selection() as u8, bytes });
        }
    }
}

/// A screen of at most 1,024 pixels as a rule; now and then one that is too large to be lent.
fn screen(rng: &mut Rng) -> (i64, i64) {
    match rng.below(20) {
        0 => rng.pick(&[(32, 32), (64, 16), (16, 64), (1_024, 1), (1, 1_024), (256, 4)]),
        1 => rng.pick(&[(33, 32), (41, 25), (1_025, 1), (1, 1_025)]),
        2 => rng.pick(&[(4_095, 4_095), (4_095, 1), (1, 4_095), (80, 50)]),
        3 => (1, rng.range(1, 700)),
        4 => (rng.range(1, 700), 1),
        5 => (rng.range(250, 341), rng.range(1, 3)),
        6..=8 => (rng.range(1, 8), rng.range(1, 8)),
        _ => {
            let width = rng.range(9, 60);
            (width, rng.range(1, (SCREEN_PIXELS / width).min(48)))
        }
    }
}
