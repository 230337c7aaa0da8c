//! Scripts of calls on one display (01 "Answers by number"), and the script that the gate runs.

use crate::answers::DONE;
use crate::cases::floats::float;
use crate::cases::scene::{controller, nudge, scene, spoil, Room};
use crate::cases::{banks, float_script, letter_script, lines, orders, runs};
use crate::display::{Display, Painting, ITEM_LEN};
use crate::floats::{Floats, FLOAT_LEN};
use crate::rng::Rng;
use crate::script::*;
use crate::tables::{Bank, Bits, Kind, COLOURS};
use crate::words::{layer_word, Words, WORDS};

/// The pixels that frame layers may bring together.
const FRAME_PIXELS: i64 = 900;

/// The first word of an instruction that ends a list.
const END: [u8; 4] = [0; 4];

/// The scripts that the tests compare unless told otherwise, of the seeds from 0 on.
pub const SCRIPTS: u64 = 36;
pub const RECORDS_A_SCRIPT: usize = 1_000;
/// And the scripts of edges.
pub const EDGES: u64 = 12;

/// The first seed with which the gate's script has calls of every kind.
const GATE_SEED: u64 = 25;
const GATE_RECORDS: usize = 2_000;
const GATE_TURNS: usize = 20;

/// A script of n records. It is made up of short runs, each going on from what the calls before it
/// left.
pub fn gen_calls(seed: u64, n: usize) -> Vec<Call> {
    // Kept apart from the other cases' seeds.
    let mut author = Author::new(seed ^ 0x6361_6C6C);
    // Every fourth script begins with the display that is there before the first record.
    if seed % 4 < 3 {
        author.call(NEW, 1 + (seed % 2) as u32, 1);
    }
    while author.calls.len() < n {
        let nothing_active = author.stage.display.active().output_len() == 0;
        match author.rng.below(80) {
            _ if nothing_active && author.rng.percent(50) => author.set_up(),
            0..=2 => author.begin_anew(),
            3 => author.unknown(),
            4..=18 => author.load(),
            19..=33 => author.set_up(),
            34..=37 => author.toggle(),
            38 => author.lend_the_others(),
            39..=45 => author.paint_text(),
            46..=53 => author.paint_lines(),
            54 | 55 => author.paint_again(),
            _ => author.paint(),
        }
    }
    author.calls.truncate(n);
    author.calls
}

/// Calls, the making of a display first, after which everything is lent as a frame needs it, over
/// an output that holds something, and a depth at which the painting may be split: between two
/// layers as a rule, at an end at times.
pub fn gen_split(seed: u64) -> (Vec<Call>, u32) {
    let mut author = Author::new(seed ^ 0x7370_6C69);
    author.make_ready();
    let active = author.stage.display.active();
    let upper = author.rng.pick(&active.order()[1..]);
    let depth = active.layer(upper).depth;
    let depth = if author.rng.percent(15) { author.rng.pick(&[0, 8]) } else { depth };
    (author.calls, depth)
}

/// A script whose fades stand at each of their edges in turn, with fills of wrong lengths between
/// the frames.
pub fn gen_edges(seed: u64) -> Vec<Call> {
    let mut author = Author::new(seed ^ 0x6564_6765);
    author.make_ready();
    let length = author.rng.range(2, 65_535);
    let (first, last) = (i64::from(i32::MIN), i64::from(i32::MAX));
    for e in [first, first + 1, -1, 0, 1, length - 1, length, length + 1, last - 1, last] {
        author.fade_at(e, length);
        author.call(FRAME, 0, 0);
        author.fill_wrongly();
    }
    author.fade_at(0, 0);
    author.call(FRAME, 0, 0);
    author.calls
}

/// A script in which other words are given so often, by which the order of layers or the places of
/// pictures are others: they are copied, refused, not looked at or left pending. After it layers are
/// painted each way.
pub fn gen_orders(seed: u64, turns: usize) -> Vec<Call> {
    let mut author = Author::new(seed ^ 0x6F72_6465);
    author.show_order();
    for _ in 0..turns {
        let old = author.stage.display.active().clone();
        author.rearrange();
        author.paint_each_way(&old);
    }
    author.calls
}

/// The script that the gate runs: all blends, the fades of ten lengths, calls of every kind,
/// changes of order, letters of one bit and two, and float pictures.
pub fn gate_script() -> Vec<Call> {
    let blends = (0..256).map(|alpha| Call { letter: BLENDS, a: alpha, b: 0 });
    let lengths = [0, 1, 2, 3, 4, 255, 256, 32_768, 65_534, 65_535];
    let fades = lengths.map(|length| Call { letter: FADES, a: length, b: 0 });
    let calls = gen_calls(GATE_SEED, GATE_RECORDS).into_iter();
    let orders = gen_orders(0, GATE_TURNS).into_iter();
    let scripts = letter_script().into_iter().chain(float_script());
    blends.chain(fades).chain(calls).chain(orders).chain(scripts).collect()
}

struct Author {
    rng: Rng,
    stage: Stage,
    calls: Vec<Call>,
}

impl Author {
    fn new(seed: u64) -> Author {
        Author { rng: Rng::new(seed), stage: Stage::new(), calls: Vec::new() }
    }

    fn call(&mut self, letter: u8, a: u32, b: u32) -> u32 {
        let call = Call { letter, a, b };
        let (answer, _) = self.stage.play(call);
        self.calls.push(call);
        answer
    }

    /// A fresh display, at times more than one after another, to which some bytes are put at times
    /// before anything is selected.
    fn begin_anew(&mut self) {
        for _ in 0..self.rng.range(1, 3) {
            let (bits, floats) = (new_bits(&mut self.rng), new_floats(&mut self.rng));
            self.call(NEW, bits, floats);
        }
        if self.rng.percent(60) {
            let bytes = self.rng.bytes(24);
            self.run_puts(&bytes);
        }
    }

    /// A letter that means nothing.
    fn unknown(&mut self) {
        let letter = self.rng.pick(b"CO?0az");
        let (a, b) = (self.rng.u32(), self.rng.u32());
        self.call(letter, a, b);
    }

    /// Fills a buffer: alike all over, by a slope, or by a mixture.
    fn fill_buffer(&mut self, letter: u8) {
        let (first, any) = (self.rng.u32(), self.rng.u32());
        let step = self.rng.pick(&[0, 1 << 24, any >> 8, any >> 12, any | 1, any | 1]);
        self.call(letter, first, step);
    }

    /// Stores some numbers among the floats of the layers, at times behind them.
    fn store_floats(&mut self, count: i64) {
        let end = self.stage.display.active().floats_len().max(1) as usize;
        for _ in 0..count {
            let place = self.rng.below(end) as u32;
            let (last, past) = (self.stage.floats.len() as u32 - 1, self.stage.floats.len() as u32);
            let behind = self.rng.pick(&[last, past, past + place, u32::MAX]);
            let place = if self.rng.percent(5) { behind } else { place };
            let number = float(&mut self.rng);
            self.call(FLOAT, place, number);
        }
    }

    /// Lends the right length of a buffer, or so many times in a hundred a wrong one near it.
    /// Floats are counted in bytes at times.
    fn lend(&mut self, buffer: u32, right: usize, wrong: i64) {
        let mut length = right;
        if self.rng.percent(wrong) {
            let bytes = if buffer == FLOATS { FLOAT_LEN * right } else { right + 4 };
            length = self.rng.pick(&[0, right.saturating_sub(1), right + 1, right + 4, bytes]);
        }
        let Lent { tables, pictures, floats, out } = self.stage.lent;
        if [tables, pictures, out, floats][buffer as usize] != length {
            self.call(LEND, buffer, length as u32);
        }
    }

    fn lend_tables(&mut self, wrong: i64) {
        self.lend(TABLES, self.stage.display.bits().tables_len(), wrong);
    }

    /// Lends the tables of the other number of bits to each call that takes some.
    fn lend_the_others(&mut self) {
        self.lend_all();
        let other = self.stage.display.bits().other();
        self.call(LEND, TABLES, other.tables_len() as u32);
        let line = self.stage.display.active().line_len() as u32;
        let paintings = [(BAND, 0, 8), (FRAME, 0, 0), (LEND, OUT, line), (LINE, 0, 0)];
        for (letter, a, b) in [(PUT, 1, 0), (PUT_RUN, 0, 4)].into_iter().chain(paintings) {
            self.call(letter, a, b);
        }
    }

    /// Makes a display of either number of bits, has two layers shown, with their words pending
    /// too, and lends each buffer as a frame needs it.
    fn make_ready(&mut self) {
        let (bits, floats) = (self.rng.pick(&Bits::ALL), new_floats(&mut self.rng));
        self.call(NEW, bits.number() as u32, floats);
        self.fill_buffer(FILL_TABLES);
        let mut layers = 0;
        while layers < 2 || !self.stage.display.active().display_on() {
            self.set_up();
            self.load();
            layers = self.stage.display.active().order().len();
        }
        let active = self.stage.display.active().clone();
        self.write_missing(&active);
        for letter in [FILL_PICTURES, FILL_FLOATS, FILL_OUT] {
            self.fill_buffer(letter);
        }
        let lengths = [
            (TABLES, bits.tables_len() as i64),
            (PICTURES, active.pictures_len()),
            (FLOATS, active.floats_len()),
            (OUT, active.output_len()),
        ];
        for (buffer, length) in lengths {
            self.call(LEND, buffer, length as u32);
        }
    }

    /// Starts a frame in which some layer is e frames into its fade.
    fn fade_at(&mut self, e: i64, length: i64) {
        let n = self.rng.pick(&self.stage.display.active().order());
        let first = layer_word(n) as u32;
        let now = self.stage.display.frame_number().wrapping_add(1);
        let (value, target) = (u32::from(self.rng.byte()), u32::from(self.rng.byte()));
        self.call(WRITE, first + 1, 1 << 31 | value);
        self.call(WRITE, first + 4, now.wrapping_sub(e as u32));
        self.call(WRITE, first + 5, length as u32 | target << 16);
        self.call(START, 0, 0);
    }

    /// A fill that is lent too little or too much, and then what is right.
    fn fill_wrongly(&mut self) {
        let right = self.stage.lent.out;
        let wrong = self.rng.pick(&[0, right - 4, right - 1, right + 1, right + 4]);
        for length in [wrong, right] {
            self.call(LEND, OUT, length as u32);
            self.call(FILL, 0, 0);
        }
    }

    /// From now on a painting is made once or a few times.
    fn paint_again(&mut self) {
        let more = self.rng.pick(&[0, 0, 1, 2, 3, MOST_TIMES, MOST_TIMES + 1, MOST_TIMES + 2]);
        self.call(AGAIN, more, 0);
    }

    /// Changes tables: all of them, words of a bank, or by puts, single ones or runs.
    fn load(&mut self) {
        let kind = self.rng.pick(&[
            Kind::Instruction,
            Kind::Instruction,
            Kind::Colour,
            Kind::Text,
            Kind::Font,
        ]);
        let (active, bits) = (self.stage.display.active(), self.stage.display.bits());
        let g = controller(&mut self.rng, active);
        let layer = active.layer(g);
        let bytes = banks::bank(&mut self.rng, kind, bits, layer.width.max(1), layer.height.max(1));
        match self.rng.below(10) {
            0 | 1 => self.fill_buffer(FILL_TABLES),
            2..=4 => self.store_words(kind, g, &bytes),
            5 | 6 => {
                self.select(kind, g);
                self.put_bytes(kind, &bytes);
            }
            _ => {
                for _ in 0..self.rng.range(1, 2) {
                    self.select(kind, g);
                    self.run_puts(&bytes);
                    self.run_puts(&bytes);
                }
            }
        }
    }

    /// Stores the front of a bank in the tables as their owner may, mostly of the active one; a
    /// list mostly with END behind it.
    fn store_words(&mut self, kind: Kind, g: usize, bytes: &[u8]) {
        let active = self.stage.display.active().bank(kind, g);
        let bank = Bank { g, kind, b: if self.rng.percent(80) { active } else { 1 - active } };
        let count = if kind == Kind::Instruction { 4 * self.rng.range(1, 5) } else { 16 } as usize;
        self.store_at(bank, 0, &bytes[..4 * count]);
        if kind == Kind::Instruction && self.rng.percent(80) {
            self.store_at(bank, 4 * count, &END);
        }
    }

    /// Stores whole words in a bank, so many bytes behind its first.
    fn store_at(&mut self, bank: Bank, place: usize, bytes: &[u8]) {
        let start = bank.start(self.stage.display.bits()) + place;
        for (at, word) in (start..).step_by(4).zip(bytes.chunks(4)) {
            let word = u32::from_le_bytes(word.try_into().expect("whole words"));
            self.call(TABLE_WORD, at as u32, word);
        }
    }

    /// A frame with one line of text on the largest layer that is drawn, stored in the banks that
    /// are shown, as their owner may: its instruction and END, two letters, their glyphs and the
    /// colours that they can have.
    fn paint_text(&mut self) {
        let (active, bits) = (self.stage.display.active().clone(), self.stage.display.bits());
        let drawn = active.order().into_iter().filter(|&n| active.layer(n).graphics);
        let Some(g) = drawn.max_by_key(|&n| active.layer(n).picture_len()) else { return };
        let shown = |kind| Bank { g, kind, b: active.bank(kind, g) };
        // The largest letters show little of themselves, and so come more often.
        let (any, scale) = (self.rng.below(COLOURS), self.rng.pick(&[0, 1, 2, 3, 3]));
        let colour = self.rng.pick(&[COLOURS - 2, COLOURS - 1, any]);
        let [x, y] = [self.rng.below(3), self.rng.below(3)].map(|start| start as u32);
        let words = [12 << 28 | x, 0, scale << 30 | y, (colour as u32) << 8];
        let list: Vec<u8> = words.into_iter().flat_map(u32::to_le_bytes).chain(END).collect();
        self.store_at(shown(Kind::Instruction), 0, &list);
        let letters = [self.rng.range(32, 127), self.rng.range(32, 127)].map(|c| c as u8);
        self.store_at(shown(Kind::Text), 0, &[letters, letters].concat());
        for letter in letters {
            let glyph = self.rng.bytes(bits.glyph_len());
            self.store_at(shown(Kind::Font), bits.glyph_len() * usize::from(letter - 32), &glyph);
        }
        for index in [colour, colour + 1, colour + 2].map(|index| index % COLOURS) {
            let bytes = [self.rng.byte(), self.rng.byte(), self.rng.byte(), 255];
            self.store_at(shown(Kind::Colour), 4 * index, &bytes);
        }
        self.lend_all();
        self.call(FRAME, 0, 0);
    }

    /// Selects a bank, mostly an idle one, or leaves what is selected; at times what is no bank.
    fn select(&mut self, kind: Kind, g: usize) {
        let active = self.stage.display.active().bank(kind, g);
        let bank = Bank { g, kind, b: if self.rng.percent(85) { 1 - active } else { active } };
        if !self.rng.percent(10) {
            let selection = bank.selection() + self.rng.pick(&[0, 0, 0, 0, 0, 0, 64, 0x1_0000]);
            self.call(SELECT, selection, 0);
        }
    }

    /// Puts some bytes, at times past the end of their kind.
    fn put_bytes(&mut self, kind: Kind, bytes: &[u8]) {
        let mut refused = 0;
        for &byte in bytes.iter().take(1 + self.rng.below(24)) {
            self.lend_tables(3);
            refused += u32::from(self.call(PUT, byte.into(), 0) != DONE);
            // A few more after a refusal show that it left the place; many would show no more.
            if refused > 2 {
                return;
            }
        }
        if self.rng.percent(40) {
            let end = kind.end(self.stage.display.bits()) as i64;
            let mut left = (end + self.rng.range(-30, 2)) as u32;
            let byte = u32::from(self.rng.byte());
            while left >= MOST_TIMES {
                self.call(PUT, byte, MOST_TIMES - 1);
                left -= MOST_TIMES;
            }
            self.call(PUT, byte, left);
            self.call(PUT, 1, 0);
        }
    }

    /// Puts a run, and at times an empty one, which is never refused, or a byte that shows its place.
    fn run_puts(&mut self, bytes: &[u8]) {
        self.lend_tables(10);
        let run = runs::puts(&mut self.rng, bytes, &self.stage.display);
        if self.rng.percent(30) {
            self.fill_buffer(FILL_PICTURES);
        }
        let stored = self.rng.pick(&[0, 4, 16]);
        self.run(PUT_RUN, &run, stored);
        match self.rng.below(4) {
            0 => drop(self.call(PUT_RUN, 0, 0)),
            1 => drop(self.call(PUT, 1, 0)),
            _ => {}
        }
    }

    /// Makes a run of so many bytes among the pictures, the first of which are stored there before;
    /// at times the pictures end before it does.
    fn run(&mut self, letter: u8, bytes: &[u8], stored: usize) {
        let end = self.stage.pictures.len() as u32;
        let any = self.rng.below(end as usize) as u32;
        let first =
            self.rng.pick(&[0, 0, any % 64, any % 64, any / 2, any / 2, end - any % 16, any]);
        let front = &bytes[..bytes.len().min(stored)];
        for (place, word) in (first..).step_by(4).zip(front.chunks(4)) {
            let mut whole = [0; 4];
            whole[..word.len()].copy_from_slice(word);
            self.call(PICTURE_WORD, place, u32::from_le_bytes(whole));
        }
        let length = bytes.len() as u32;
        let (first, length) = match self.rng.below(20) {
            0 => (self.rng.pick(&[end, end + 1, u32::MAX]), length),
            1 => (first, u32::MAX),
            _ => (first, length),
        };
        self.call(letter, first, length);
    }

    /// Writes the words of a scene and starts it; some of the words are faulty.
    fn set_up(&mut self) {
        let mut wish = wish(&mut self.rng, &self.stage.display);
        if self.rng.percent(20) {
            // Without a float buffer more can be wrong with a layer's kind.
            let floats = self.stage.display.floats();
            let first = if floats == Floats::Without { 4 } else { 7 };
            let fault = self.rng.range(first, 11).max(7) as u32;
            spoil(&mut self.rng, &mut wish, fault, floats);
        }
        if self.rng.percent(10) {
            wish.0[0] &= !0b100;
        }
        let by_run = self.rng.percent(30);
        if by_run {
            self.run_writes(&wish);
        }
        // What a run leaves out stays out at times, since writing it would hide where the run ended.
        if !by_run || self.rng.percent(50) {
            self.write_missing(&wish);
        }
        if self.rng.percent(10) {
            let register = self.rng.pick(&[52, 53, 255, 256, u32::MAX]);
            let value = self.rng.u32();
            self.call(WRITE, register, value);
        }
        for _ in 0..self.rng.range(1, 3) {
            self.call(START, 0, 0);
        }
    }

    /// Makes words the pending ones.
    fn write_missing(&mut self, wish: &Words) {
        for (register, value) in self.missing(wish) {
            self.call(WRITE, register.into(), value);
        }
    }

    /// The writes that make words the pending ones.
    fn missing(&self, wish: &Words) -> Vec<(u8, u32)> {
        let pending = self.stage.display.pending();
        let others = (0..WORDS).filter(|&i| pending.0[i] != wish.0[i]);
        others.map(|register| (register as u8, wish.0[register])).collect()
    }

    /// Writes none, some or all of the words by a run. In half of the runs an item names no register;
    /// behind the items come up to four bytes that are none.
    fn run_writes(&mut self, wish: &Words) {
        let mut items = self.missing(wish);
        items.truncate(self.rng.pick(&[0, 2, 4, 8, WORDS]));
        if self.rng.percent(50) {
            let at = self.rng.pick(&[0, items.len() / 2, items.len()]);
            items.insert(at, (self.rng.pick(&[52, 53, 64, 128, 255]), self.rng.u32()));
        }
        let over = self.rng.below(ITEM_LEN);
        let bytes = [runs::write_bytes(items), self.rng.bytes(over)].concat();
        self.run(WRITE_RUN, &bytes, bytes.len());
    }

    fn toggle(&mut self) {
        let bits = self.rng.pick(&[0, 1, 2, 0x11, 0x2222_2222, u32::MAX, 1 << 31]);
        let errors = self.stage.display.errors();
        let bits = if self.rng.percent(40) { errors } else { bits };
        self.call(TOGGLE, bits, 0);
    }

    /// A whole frame, or a fill and bands over it, or bands over whatever the output holds.
    fn paint(&mut self) {
        self.fill_pixels();
        self.lend_all();
        if self.rng.percent(40) {
            self.call(FRAME, 0, 0);
        } else {
            self.paint_bands();
        }
        if self.rng.percent(10) {
            let place = self.rng.below(64) as u32;
            self.call(VIEW, 4 * place, 0);
        }
    }

    /// At times other pictures, and other bytes in the output.
    fn fill_pixels(&mut self) {
        if self.rng.percent(40) {
            self.fill_buffer(FILL_PICTURES);
        }
        if self.stage.display.active().floats_len() > 0 {
            if self.rng.percent(40) {
                self.fill_buffer(FILL_FLOATS);
            }
            let count = self.rng.pick(&[0, 0, 1, 4]);
            self.store_floats(count);
        }
        if self.rng.percent(30) {
            self.fill_buffer(FILL_OUT);
        }
    }

    fn paint_bands(&mut self) {
        if self.rng.percent(50) {
            self.call(FILL, 0, 0);
        }
        let middle = self.rng.range(0, 8) as u32;
        for (low, high) in [(0, middle), (middle, 8), odd_band(&mut self.rng)] {
            self.call(BAND, low, high);
            self.lend_all();
        }
    }

    /// Lines one after another, as a rule each into its place in the frame; at times as much is
    /// lent as a frame needs, and at times no error bit is set before, so that lines set them.
    fn paint_lines(&mut self) {
        self.fill_pixels();
        if self.rng.percent(40) {
            let errors = self.stage.display.errors();
            self.call(TOGGLE, errors, 0);
        }
        let active = self.stage.display.active();
        let (height, line, frame) = (active.height(), active.line_len(), active.output_len());
        for _ in 0..self.rng.range(1, 6) {
            let out = if self.rng.percent(5) { frame } else { line };
            self.lend_for(out);
            let y = lines::line_number(&mut self.rng, height);
            let place = y.saturating_mul(line as u32);
            let any = self.rng.below(self.stage.out.len() + 1) as u32;
            let place = self.rng.pick(&[place, place, place, place, any]);
            self.call(LINE, y, place);
        }
    }

    fn lend_all(&mut self) {
        self.lend_for(self.stage.display.active().output_len());
    }

    /// Lends each buffer, so many bytes of the output being right.
    fn lend_for(&mut self, out: i64) {
        let active = self.stage.display.active();
        let (pictures, floats) = (active.pictures_len(), active.floats_len());
        // Both at once show which is asked first.
        let wrong = self.rng.pick(&[3, 3, 3, 3, 3, 3, 3, 3, 3, 3, 3, 60]);
        self.lend_tables(3);
        self.lend(PICTURES, pictures as usize, wrong);
        self.lend(FLOATS, floats as usize, wrong);
        self.lend(OUT, out as usize, 3);
    }

    // ---- changes of order

    /// Shows layers that lie over each other, on a display of either number of bits.
    fn show_order(&mut self) {
        let bits = self.rng.pick(&Bits::ALL);
        self.call(NEW, bits.number() as u32, 1);
        let mixed = 0x9E37_79B1;
        let fills = [(FILL_TABLES, 0x0601_0003), (FILL_PICTURES, mixed), (FILL_FLOATS, mixed)];
        for (letter, step) in fills {
            let first = self.rng.u32();
            self.call(letter, first, step);
        }
        let words = orders::scene(&mut self.rng);
        self.write_missing(&words);
        self.call(START, 0, 0);
    }

    /// Writes words that are arranged otherwise than the active ones, and as a rule starts; at times
    /// another call comes before, which has nothing to do with them.
    fn rearrange(&mut self) {
        match self.rng.below(12) {
            0 => self.toggle(),
            1 => self.load(),
            2 => self.paint_again(),
            _ => {}
        }
        let wish = orders::wish(&mut self.rng, self.stage.display.active());
        if self.rng.percent(20) {
            self.run_writes(&wish);
        }
        self.write_missing(&wish);
        if self.rng.percent(85) {
            self.call(START, 0, 0);
        }
    }

    /// Paints by a frame, by a band and by a line, in any order; at times by the pictures or the
    /// floats that the words before, or the pending ones, would ask for.
    fn paint_each_way(&mut self, old: &Words) {
        let active = self.stage.display.active().clone();
        let pending = self.stage.display.pending();
        let other = if self.rng.percent(50) { old } else { pending };
        let lengths = [
            (PICTURES, active.pictures_len(), other.pictures_len()),
            (FLOATS, active.floats_len(), other.floats_len()),
        ];
        self.store_floats(4);
        for painting in orders::paintings(&mut self.rng, active.height()) {
            let (letter, a, b, out) = match painting {
                Painting::Band(low, high) => (BAND, low, high, active.output_len()),
                Painting::Frame => (FRAME, 0, 0, active.output_len()),
                Painting::Line(y) => (LINE, y, 0, active.line_len()),
            };
            self.fill_buffer(FILL_OUT);
            self.lend_tables(0);
            let more = orders::too_many(&mut self.rng);
            for (buffer, right, other) in lengths {
                let length = if self.rng.percent(10) { other } else { right };
                self.lend(buffer, length as usize + more, 0);
            }
            self.lend(OUT, out as usize, 0);
            self.call(letter, a, b);
        }
    }
}

/// The words that a display shall have pending before its next start.
pub fn wish(rng: &mut Rng, display: &Display) -> Words {
    let (now, floats) = (display.frame_number().wrapping_add(1), display.floats());
    let room = |width, height| Room { width, height, frame_pixels: FRAME_PIXELS, now, floats };
    // After a refused start the pending words are left behind and the active ones gone on from.
    let words = [display.pending(), display.active()];
    match words.into_iter().find(|words| words.check(floats) == DONE) {
        Some(base) if rng.percent(92) => {
            let mut wish = nudge(rng, base, room(base.width(), base.height()));
            wish.0[0] = 0b100 | u32::from(rng.percent(87));
            wish.0[3] ^= 1 << rng.below(32);
            wish
        }
        _ => {
            let (width, height) = (rng.range(1, 40), rng.range(1, 24));
            scene(rng, room(width, height))
        }
    }
}

/// A number of bits to make a display by: in half of them 2, else 1 or what is refused. Some of
/// these have only their low bits right.
pub fn new_bits(rng: &mut Rng) -> u32 {
    let wrong = rng.pick(&[0, 0, 3, 3, 0x101, 0x102, 0x1_0001, 0x8000_0002, u32::MAX]);
    rng.pick(&[2, 2, 2, 1, wrong, wrong])
}

/// Whether a display has a float buffer, as a rule: any number but 0 says so.
fn new_floats(rng: &mut Rng) -> u32 {
    rng.pick(&[0, 0, 1, 1, 2, 1 << 31])
}

/// A band that is empty, refused, or any at all.
pub fn odd_band(rng: &mut Rng) -> (u32, u32) {
    let (low, high) = (rng.below(9) as u32, rng.below(9) as u32);
    let edges = [(8, 8), (9, 9), (0, 9), (8, 7), (9, 8), (0, u32::MAX)];
    if rng.percent(40) {
        (low, high)
    } else {
        rng.pick(&edges)
    }
}
