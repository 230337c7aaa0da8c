//! Rows of calls from C on one state, right ones and wrong ones, from states of every kind on.

use crate::answers::DONE;
use crate::cases::calls::{new_bits, odd_band, wish};
use crate::cases::floats::floats;
use crate::cases::scene::{controller, pictures, spoil};
use crate::cases::{banks, damage, hosts, lines, orders, runs};
use crate::display::{Display, Painting};
use crate::doors::*;
use crate::floats::{bytes_of, FLOAT_LEN};
use crate::rng::Rng;
use crate::state::{read_state, ACTIVE_AT, FRAME_AT, PLACE_AT, PROFILE_AT};
use crate::state::{SELECTED_AT, SELECTION_AT, STATE_LEN};
use crate::tables::{Bank, Kind};
use crate::words::{Words, WORDS};

/// The rows that the tests compare unless told otherwise, of the seeds from 0 on.
pub const ROWS: u64 = 600;

/// A row, a short one or a long one. It is made up of short parts, each going on from what the
/// calls before it left.
pub fn gen_row(seed: u64) -> Vec<Step> {
    // Kept apart from the other cases' seeds.
    let mut author = Author::new(seed ^ 0x646F_6F72);
    let most = if author.rng.percent(40) { author.rng.range(1, 8) } else { 130 };
    author.begin();
    while author.calls < most {
        match author.rng.below(50) {
            0..=6 => author.set_up(),
            7..=14 => author.load(),
            15..=30 => author.paint(),
            31..=34 => author.paint_lines(),
            35 | 36 => author.toggle(),
            37..=39 => author.read(),
            40..=42 => author.damage(),
            43 => author.make(),
            44 | 45 => author.run_any_puts(),
            46 | 47 => author.run_writes(),
            _ => author.lend_wrong_state(),
        }
    }
    author.steps
}

/// A row in which other words are given, by which the order of layers or the places of pictures are
/// others: they are copied, refused, not looked at, left pending, or stored as the active ones by the
/// host's own hand. After it layers are painted each way.
pub fn gen_order_row(seed: u64) -> Vec<Step> {
    let mut author = Author::new(seed ^ 0x6F72_6465);
    author.show_order();
    for _ in 0..orders::TURNS {
        let old = author.display().active().clone();
        author.rearrange();
        author.paint_each_way(&old);
    }
    author.steps
}

struct Author {
    rng: Rng,
    stage: Stage,
    steps: Vec<Step>,
    calls: i64,
    /// How many bytes the run has that was stored last.
    run: usize,
}

impl Author {
    fn new(seed: u64) -> Author {
        Author { rng: Rng::new(seed), stage: Stage::new(), steps: Vec::new(), calls: 0, run: 0 }
    }

    /// The state that the bytes stand for now.
    fn display(&self) -> Display {
        read_state(&self.stage.rooms[STATE][..STATE_LEN]).expect("it is whole")
    }

    // ---- steps

    fn store(&mut self, buffer: usize, bytes: Vec<u8>) {
        let step = Step::Store { buffer, bytes };
        self.stage.play(&step);
        self.steps.push(step);
    }

    /// A call, now and then on the same state by other bytes.
    fn call(&mut self, door: Door, a: u32, b: u32) -> u32 {
        if door != Door::Write && self.rng.percent(13) {
            self.spell_anew();
        }
        let lent = self.lent(door);
        self.call_with(door, a, b, lent)
    }

    fn call_with(&mut self, door: Door, a: u32, b: u32, lent: [Lent; BUFFERS]) -> u32 {
        let step = Step::Call { door, a, b, lent, null: self.rng.percent(50) };
        let told = self.stage.play(&step).expect("it is a call");
        self.steps.push(step);
        // A scene may have fifty writes.
        self.calls += i64::from(door != Door::Write);
        told.answer
    }

    /// What a call needs, or now and then another length near that; a state is whole.
    fn lent(&mut self, door: Door) -> [Lent; BUFFERS] {
        let mut lent = [Lent::default(); BUFFERS];
        let share = match door {
            // Several wrong lengths at once show the order of the refusals.
            Door::Line => self.rng.pick(&[0, 0, 0, 40]),
            // Runs come less often than other calls, and many of them have bytes.
            Door::PutRun | Door::WriteRun => 10,
            _ => 7,
        };
        for buffer in (0..BUFFERS).filter(|&buffer| door.takes(buffer)) {
            let right = self.right(door, buffer);
            let is_wrong = buffer != STATE && buffer != COUNT && self.rng.percent(share);
            let near = self.near(buffer, right);
            let length = if is_wrong { self.rng.pick(&near) } else { right };
            lent[buffer] = Lent { length: length.min(ROOM), past: self.rng.pick(&places(buffer)) };
        }
        if door.takes(FLOATS) && self.rng.percent(3) {
            self.lend_wrong_pictures(&mut lent);
        }
        lent
    }

    /// Bytes and floats of wrong lengths at once.
    fn lend_wrong_pictures(&mut self, lent: &mut [Lent; BUFFERS]) {
        for buffer in [PICTURES, FLOATS] {
            let right = self.right(Door::Frame, buffer);
            let near = self.near(buffer, right).into_iter().filter(|&near| near != right);
            let wrong: Vec<usize> = near.collect();
            lent[buffer].length = self.rng.pick(&wrong).min(ROOM);
        }
    }

    /// How many bytes of a buffer a call needs.
    fn right(&self, door: Door, buffer: usize) -> usize {
        let display = self.display();
        let active = display.active();
        match buffer {
            STATE => STATE_LEN,
            TABLES => display.bits().tables_len(),
            PICTURES => length(active.pictures_len()),
            FLOATS => length(FLOAT_LEN as i64 * active.floats_len()),
            OUTPUT if door == Door::Line => length(active.line_len()),
            OUTPUT => length(active.output_len()),
            RUN => self.run,
            _ => COUNT_LEN,
        }
    }

    /// Lengths that are near the right one, or right for other calls and states.
    fn near(&self, buffer: usize, right: usize) -> Vec<usize> {
        let one = unit(buffer);
        let mut near = vec![0, right.saturating_sub(4 * one), right.saturating_sub(one)];
        near.extend([right + one, right + 4 * one]);
        match buffer {
            // A number for each byte, and one for each pixel.
            FLOATS => near.extend([FLOAT_LEN * right, right / 4]),
            TABLES => near.extend([self.display().bits().other().tables_len(); 2]),
            OUTPUT => near.extend([Door::Line, Door::Frame].map(|door| self.right(door, OUTPUT))),
            _ => {}
        }
        near
    }

    /// The same state by other bytes: where something is selected, any number but 0 says so, and of
    /// the profile bits 0 and 1 alone count.
    fn spell_anew(&mut self) {
        let mut state = self.stage.rooms[STATE][..STATE_LEN].to_vec();
        let others: [u32; 5] = [2, 7, 256, 1 << 31, u32::MAX];
        let selected = &mut state[SELECTED_AT..SELECTION_AT];
        if selected.iter().any(|&byte| byte != 0) {
            selected.copy_from_slice(&self.rng.pick(&others).to_le_bytes());
        }
        if self.rng.percent(50) {
            let profile = self.rng.pick(&others) & !3 | u32::from(state[PROFILE_AT] & 3);
            state[PROFILE_AT..].copy_from_slice(&profile.to_le_bytes());
        }
        self.store(STATE, state);
    }

    /// Any call at all on a state of a wrong length, with what would be right beside it.
    fn lend_wrong_state(&mut self) {
        let door = self.rng.pick(&Door::ALL);
        let (a, b) = (self.rng.u32(), self.rng.u32());
        let few = self.rng.percent(50);
        let (a, b) = if few { (a % 9, b % 9) } else { (a, b) };
        // No run, two writes, or the last one again.
        self.run = self.rng.pick(&[0, 10, self.run]);
        let mut lent = self.lent(door);
        lent[STATE].length = self.rng.pick(&[0, 0, 4, 208, 416, 436, 436, 439, 441, 444, 880]);
        self.call_with(door, a, b, lent);
    }

    // ---- parts

    /// A fresh state by zeros or by a call, or a damaged one.
    fn begin(&mut self) {
        match self.rng.below(10) {
            0 | 1 => {}
            2..=4 => {
                let bytes = self.rng.bytes(STATE_LEN);
                self.store(STATE, bytes);
                self.make();
            }
            _ => self.damage(),
        }
        if self.rng.percent(20) {
            self.keep_floats_out();
        }
        if self.rng.percent(60) {
            self.store_tables();
        }
    }

    /// From now on no float layer is let in, until a state is made anew.
    fn keep_floats_out(&mut self) {
        let mut state = self.stage.rooms[STATE][..STATE_LEN].to_vec();
        state[PROFILE_AT] |= 2;
        self.store(STATE, state);
    }

    fn make(&mut self) {
        let bits = new_bits(&mut self.rng);
        self.call(Door::New, bits, 0);
    }

    /// A damaged state, and as a rule any call on it at once: the first call puts some of it right.
    fn damage(&mut self) {
        let bytes = damage::state(&mut self.rng);
        self.store(STATE, bytes);
        if self.rng.percent(80) {
            self.any_call();
        }
    }

    /// Any call that writes, with numbers at their edges.
    fn any_call(&mut self) {
        let rng = &mut self.rng;
        let any = rng.u32();
        let (door, a, b) = match rng.below(14) {
            0 => (Door::Write, rng.pick(&[0, 1, 3, 51, 52, u32::MAX]), any),
            1 => (Door::Select, rng.pick(&[0, 1, 63, 64, u32::MAX]), 0),
            2 => (Door::Toggle, any, 0),
            3 => (Door::Start, 0, 0),
            4 => (Door::Put, any % 256, 0),
            5 => (Door::Fill, 0, 0),
            6 | 7 => {
                let (low, high) = if rng.percent(70) { (0, 8) } else { odd_band(rng) };
                (Door::Paint, low, high)
            }
            8 => (Door::Frame, 0, 0),
            9 | 10 => return self.run_any_puts(),
            11 => return self.make(),
            12 => return self.paint_lines(),
            _ => return self.run_writes(),
        };
        self.call(door, a, b);
    }

    fn store_tables(&mut self) {
        let display = self.display();
        let tables = hosts::tables(&mut self.rng, display.active(), display.bits());
        self.store(TABLES, tables);
    }

    /// Writes the words of a scene and starts it; some of the words are faulty.
    fn set_up(&mut self) {
        let display = self.display();
        let mut wish = wish(&mut self.rng, &display);
        if self.rng.percent(30) {
            let fault = self.rng.range(7, 11) as u32;
            spoil(&mut self.rng, &mut wish, fault, display.floats());
        }
        if self.rng.percent(10) {
            wish.0[0] &= !0b100;
        }
        self.write_words(&wish);
        if self.rng.percent(20) {
            let register = self.rng.pick(&[52, 53, 255, 256, u32::MAX]);
            let value = self.rng.u32();
            self.call(Door::Write, register, value);
        }
        for _ in 0..self.rng.range(1, 2) {
            self.call(Door::Start, 0, 0);
        }
    }

    /// Makes words the pending ones, by single writes or by a run.
    fn write_words(&mut self, wish: &Words) {
        let pending = self.display().pending().clone();
        let others = (0..WORDS).filter(|&i| pending.0[i] != wish.0[i]);
        let writes = others.map(|register| (register as u8, wish.0[register]));
        if self.rng.percent(30) {
            self.run(Door::WriteRun, runs::write_bytes(writes));
        } else {
            for (register, value) in writes {
                self.call(Door::Write, register.into(), value);
            }
        }
    }

    /// Stores all tables as their owner may, or puts some bytes.
    fn load(&mut self) {
        if self.rng.percent(30) {
            self.store_tables();
            return;
        }
        let display = self.display();
        let kind = self.rng.pick(&Kind::ALL);
        let g = controller(&mut self.rng, display.active());
        let layer = display.active().layer(g);
        let (width, height) = (layer.width.max(1), layer.height.max(1));
        let bytes = banks::bank(&mut self.rng, kind, display.bits(), width, height);
        self.select(kind, g);
        if self.rng.percent(40) {
            self.go_to_end(kind);
        }
        if self.rng.percent(50) {
            self.run_puts(&bytes);
            return;
        }
        let count = if kind == Kind::Colour { 70 } else { 16 };
        let mut refused = 0;
        for &byte in bytes.iter().cycle().take(1 + self.rng.below(count)) {
            refused += u32::from(self.call(Door::Put, byte.into(), 0) != DONE);
            // A few more after a refusal show that it left the place; many would show no more.
            if refused > 2 {
                return;
            }
        }
    }

    fn run_puts(&mut self, bytes: &[u8]) {
        let display = self.display();
        let run = runs::puts(&mut self.rng, bytes, &display);
        self.run(Door::PutRun, run);
    }

    /// Any bytes, wherever a put would go.
    fn run_any_puts(&mut self) {
        let bytes = self.rng.bytes(97);
        self.run_puts(&bytes);
    }

    fn run_writes(&mut self) {
        let bytes = runs::writes(&mut self.rng);
        self.run(Door::WriteRun, bytes);
    }

    fn run(&mut self, door: Door, bytes: Vec<u8>) {
        self.run = bytes.len();
        self.store(RUN, bytes);
        self.call(door, 0, 0);
    }

    /// Selects a bank, mostly an idle one, or leaves what is selected; at times what is no bank.
    fn select(&mut self, kind: Kind, g: usize) {
        let active = self.display().active().bank(kind, g);
        let bank = Bank { g, kind, b: if self.rng.percent(85) { 1 - active } else { active } };
        if !self.rng.percent(15) {
            let selection = bank.selection() + self.rng.pick(&[0, 0, 0, 0, 0, 0, 64, 0x1_0000]);
            self.call(Door::Select, selection, 0);
        }
    }

    /// Moves the place near the end of a kind, as many puts would.
    fn go_to_end(&mut self, kind: Kind) {
        let mut state = self.stage.rooms[STATE][..STATE_LEN].to_vec();
        let place = kind.end(self.display().bits()) as u32 - self.rng.below(4) as u32;
        state[PLACE_AT..PROFILE_AT].copy_from_slice(&place.to_le_bytes());
        self.store(STATE, state);
    }

    fn toggle(&mut self) {
        let errors = self.display().errors();
        let bits = self.rng.pick(&[errors, errors, 0, 1, 0x11, 0x2222_2222, u32::MAX, 1 << 31]);
        self.call(Door::Toggle, bits, 0);
    }

    fn read(&mut self) {
        for door in Door::ALL.into_iter().filter(|door| door.is_read()) {
            self.call(door, 0, 0);
        }
    }

    /// A whole frame, or a fill and bands over it, or bands over whatever the output holds.
    fn paint(&mut self) {
        self.store_pixels(Door::Frame);
        if self.rng.percent(40) {
            self.call(Door::Frame, 0, 0);
            return;
        }
        if self.rng.percent(50) {
            self.call(Door::Fill, 0, 0);
        }
        let middle = self.rng.range(0, 8) as u32;
        for (low, high) in [(0, middle), (middle, 8), odd_band(&mut self.rng)] {
            self.call(Door::Paint, low, high);
        }
    }

    /// Lines, of which some are none or come again, over whatever the output holds.
    fn paint_lines(&mut self) {
        let height = self.display().height();
        for _ in 0..self.rng.range(1, 4) {
            self.store_pixels(Door::Line);
            let y = lines::line_number(&mut self.rng, height);
            self.call(Door::Line, y, 0);
        }
    }

    /// At times other pictures, and other bytes in the output, as many as a call needs.
    fn store_pixels(&mut self, door: Door) {
        let [shown, numbers, out] =
            [PICTURES, FLOATS, OUTPUT].map(|buffer| self.right(door, buffer) / unit(buffer));
        if self.rng.percent(50) {
            let bytes = pictures(&mut self.rng, shown);
            self.store(PICTURES, bytes);
        }
        if self.rng.percent(50) {
            let numbers = floats(&mut self.rng, numbers);
            self.store(FLOATS, bytes_of(&numbers));
        }
        if self.rng.percent(40) {
            let bytes = self.rng.bytes(out);
            self.store(OUTPUT, bytes);
        }
    }

    // ---- changes of order

    /// Shows layers that lie over each other, on a display of either number of bits.
    fn show_order(&mut self) {
        self.make();
        let words = orders::scene(&mut self.rng);
        self.write_words(&words);
        self.call(Door::Start, 0, 0);
        self.store_tables();
        // As many as eight layers can need.
        const MOST: usize = 4 * 8 * 9 * 5;
        let bytes = pictures(&mut self.rng, MOST);
        self.store(PICTURES, bytes);
        let numbers = floats(&mut self.rng, MOST);
        self.store(FLOATS, bytes_of(&numbers));
    }

    /// Has words that are arranged otherwise stored as the active ones, or written and as a rule
    /// started.
    fn rearrange(&mut self) {
        let display = self.display();
        if self.rng.percent(25) {
            let words = orders::by_hand(&mut self.rng, display.active());
            let mut state = self.stage.rooms[STATE][..STATE_LEN].to_vec();
            let bytes: Vec<u8> = words.0.into_iter().flat_map(u32::to_le_bytes).collect();
            state[ACTIVE_AT..FRAME_AT].copy_from_slice(&bytes);
            self.store(STATE, state);
            return;
        }
        let wish = orders::wish(&mut self.rng, display.active());
        self.write_words(&wish);
        if self.rng.percent(85) {
            self.call(Door::Start, 0, 0);
        }
    }

    /// Paints by a frame, by a band and by a line, in any order; at times by the pictures or the
    /// floats that the words before, or the pending ones, would ask for.
    fn paint_each_way(&mut self, old: &Words) {
        let display = self.display();
        let other = if self.rng.percent(50) { old } else { display.pending() };
        let totals = [other.pictures_len(), FLOAT_LEN as i64 * other.floats_len()];
        for painting in orders::paintings(&mut self.rng, display.height()) {
            let (door, a, b) = match painting {
                Painting::Band(low, high) => (Door::Paint, low, high),
                Painting::Frame => (Door::Frame, 0, 0),
                Painting::Line(y) => (Door::Line, y, 0),
            };
            let bytes = self.rng.bytes(self.right(door, OUTPUT));
            self.store(OUTPUT, bytes);
            let mut lent = self.lent(door);
            let more = orders::too_many(&mut self.rng);
            for (buffer, total) in [PICTURES, FLOATS].into_iter().zip(totals) {
                if self.rng.percent(10) {
                    lent[buffer].length = length(total);
                }
                lent[buffer].length += unit(buffer) * more;
            }
            self.call_with(door, a, b, lent);
        }
    }
}

/// What is lent for a right length: that, or something short where it is more than there is room
/// for.
fn length(right: i64) -> usize {
    if right > ROOM as i64 {
        64
    } else {
        right as usize
    }
}
