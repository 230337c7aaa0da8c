//! Displays that are known to be wrong, for the tests to see: each paints layers in an order that
//! is not the one "worked out afresh from the active words" (02 K5), or by pictures that are not,
//! or takes float pictures otherwise than 02 K7 says.

use crate::answers::*;
use crate::display::{Display, Painting};
use crate::doors::{self, Door, Step, Told, FLOATS, OUTPUT, PICTURES, STATE, TABLES};
use crate::floats::{byte_of, numbers_of};
use crate::paint::Pictures;
use crate::script::{Call, Stage, NEW, START};
use crate::state::{read_state, state_bytes, STATE_LEN};
use crate::words::{layer_word, Words, DEPTH_BITS, FLOAT_BIT, LAYERS};
use std::cmp::Reverse;
use std::iter;

#[derive(Clone, Copy, Debug, PartialEq, Eq)]
pub enum Fault {
    /// The right one. It has to go unseen, so that the others are seen for their faults.
    None,
    /// A copying start leaves the order, the places of pictures or their total as they were, or
    /// those of float pictures.
    OldOrder,
    OldPlaces,
    OldTotal,
    OldFloatPlaces,
    OldFloatTotal,
    /// The order is that of the pending words.
    PendingOrder,
    /// The order is one layer short.
    OneShort,
    /// A start that refuses the pending words, or does not look at them, takes their order.
    RefusedOrder,
    IdleOrder,
    /// The order is that of the last start, whatever the host has stored since.
    BelievedOrder,
    /// Layers of one depth go by falling number.
    FallingNumbers,
    /// A float layer's picture is taken from the bytes.
    FloatsFromBytes,
    /// Byte pictures do not skip float layers, by where they begin or by their total.
    UnskippedPlaces,
    UnskippedTotal,
    /// A half goes down.
    HalfDown,
    /// What is not a number becomes 255.
    NoneToMost,
    /// 18 is asked before 14.
    FloatsFirst,
}

impl Fault {
    /// Those of a display that is kept by calls alone.
    pub const KEPT: [Fault; 9] = [
        Fault::OldOrder,
        Fault::OldPlaces,
        Fault::OldTotal,
        Fault::OldFloatPlaces,
        Fault::OldFloatTotal,
        Fault::PendingOrder,
        Fault::OneShort,
        Fault::RefusedOrder,
        Fault::IdleOrder,
    ];
    /// And those that show only where a host stores the words by hand.
    pub const LENT: [Fault; 2] = [Fault::BelievedOrder, Fault::FallingNumbers];
    /// Those of float layers, which need no change of the words.
    pub const FLOATS: [Fault; 6] = [
        Fault::FloatsFromBytes,
        Fault::UnskippedPlaces,
        Fault::UnskippedTotal,
        Fault::HalfDown,
        Fault::NoneToMost,
        Fault::FloatsFirst,
    ];
}

pub struct Impostor {
    fault: Fault,
    /// The words that what is wrong was worked out from.
    held: Words,
}

impl Impostor {
    pub fn new(fault: Fault) -> Impostor {
        Impostor { fault, held: Words::fresh() }
    }

    /// A start was made of that state, and has answered so.
    fn started(&mut self, before: &Display, answer: u32) {
        let (is_looked_at, is_done) = (before.pending.update_enabled(), answer == DONE);
        let (words, is_taken) = match self.fault {
            Fault::OldOrder
            | Fault::OldPlaces
            | Fault::OldTotal
            | Fault::OldFloatPlaces
            | Fault::OldFloatTotal => (&before.active, is_looked_at && is_done),
            Fault::RefusedOrder => (&before.pending, is_looked_at),
            Fault::IdleOrder => (&before.pending, is_done),
            _ => (&before.pending, is_looked_at && is_done),
        };
        if is_taken {
            self.held = words.clone();
        }
    }

    fn order(&self, display: &Display) -> Vec<usize> {
        let Display { active, pending, .. } = display;
        let mut order = match self.fault {
            Fault::OldOrder | Fault::RefusedOrder | Fault::IdleOrder | Fault::BelievedOrder => {
                self.held.order()
            }
            Fault::PendingOrder => pending.order(),
            _ => active.order(),
        };
        match self.fault {
            Fault::OneShort => drop(order.pop()),
            Fault::FallingNumbers => order.sort_by_key(|&n| (active.layer(n).depth, Reverse(n))),
            _ => {}
        }
        order
    }

    /// The active words, unless this is the fault.
    fn unless<'a>(&'a self, fault: Fault, active: &'a Words) -> &'a Words {
        if self.fault == fault {
            &self.held
        } else {
            active
        }
    }

    fn paint(
        &self,
        display: &mut Display,
        painting: Painting,
        tables: &[u8],
        pictures: Pictures,
        out: &mut [u8],
    ) -> u32 {
        let answer = self.refusal(display, painting, tables, pictures, out);
        if answer != DONE {
            return answer;
        }
        let active = display.active.clone();
        let mut order = self.order(display);
        if let Painting::Band(low, high) = painting {
            order.retain(|&n| (low..high).contains(&active.layer(n).depth));
        }
        let words = ordered(&active, &order);
        let bytes = self.pieces(&words, &active, pictures);
        let mut seen = Display { active: by_bytes(&words), ..display.clone() };
        let whole = if let Painting::Band(..) = painting { Painting::Band(0, 8) } else { painting };
        let answer = whole.make(&mut seen, tables, Pictures::of_bytes(&bytes), out);
        display.errors = seen.errors;
        answer
    }

    /// The refusals that do not go by layers, and then those that do.
    fn refusal(
        &self,
        display: &Display,
        painting: Painting,
        tables: &[u8],
        pictures: Pictures,
        out: &[u8],
    ) -> u32 {
        let active = &display.active;
        let mut bare = Display { active: ordered(active, &[]), ..display.clone() };
        let none = Pictures::of_bytes(&[]);
        let answer = painting.make(&mut bare, tables, none, &mut out.to_vec());
        if answer != DONE {
            return answer;
        }
        let is_unskipped = self.fault == Fault::UnskippedTotal;
        let total = self.unless(Fault::OldTotal, active).pictures_len()
            + if is_unskipped { active.floats_len() } else { 0 };
        let float_total = self.unless(Fault::OldFloatTotal, active).floats_len();
        let mut asked = [
            (pictures.bytes.len() as i64 == total, WRONG_PICTURES),
            (pictures.floats.len() as i64 == float_total, WRONG_FLOATS),
        ];
        if self.fault == Fault::FloatsFirst {
            asked.reverse();
        }
        let wrong = asked.into_iter().find(|(is_right, _)| !is_right);
        wrong.map_or(DONE, |(_, answer)| answer)
    }

    /// The pictures that those words paint, all of them as bytes, taken from where the active words
    /// say that they begin.
    fn pieces(&self, words: &Words, active: &Words, pictures: Pictures) -> Vec<u8> {
        let shown = (0..LAYERS).filter(|&n| words.layer(n).enabled && !words.layer(n).graphics);
        let piece = |n: usize| {
            let layer = words.layer(n);
            if layer.float && self.fault != Fault::FloatsFromBytes {
                let start = self.unless(Fault::OldFloatPlaces, active).float_start(n);
                let floats = part(pictures.floats, start, layer.picture_len());
                return floats.into_iter().map(|bits| self.byte_of(bits)).collect();
            }
            let is_unskipped = self.fault == Fault::UnskippedPlaces;
            let start = self.unless(Fault::OldPlaces, active).picture_start(n)
                + if is_unskipped { active.float_start(n) } else { 0 };
            part(pictures.bytes, start, layer.picture_len())
        };
        shown.flat_map(piece).collect()
    }

    fn byte_of(&self, bits: u32) -> u8 {
        // What lies halfway between two bytes is an odd number over 510, and only this is an f32.
        const HALF: u32 = 0x3F00_0000;
        const INFINITE: u32 = 0x7F80_0000;
        match self.fault {
            Fault::HalfDown if bits == HALF => 127,
            Fault::NoneToMost if bits & !(1 << 31) > INFINITE => 255,
            _ => byte_of(bits),
        }
    }

    // ---- by records and by calls from C

    /// Does what a record asks, as `Stage::play` does.
    pub fn play(&mut self, stage: &mut Stage, call: Call) -> (u32, usize) {
        let Some(painting) = call.painting() else { return self.play_beside(stage, call) };
        let Stage { display, tables, pictures, floats, out, lent, more } = stage;
        let tables = &tables[..lent.tables];
        let pictures =
            Pictures { bytes: &pictures[..lent.pictures], floats: &floats[..lent.floats] };
        let out = &mut out[call.lent_out(lent.out)];
        let paintings = (0..=*more).map(|_| self.paint(display, painting, tables, pictures, out));
        (paintings.last().expect("one at least"), 0)
    }

    /// A record that paints no layer.
    fn play_beside(&mut self, stage: &mut Stage, call: Call) -> (u32, usize) {
        let before = stage.display.clone();
        let told = stage.play(call);
        match call.letter {
            NEW => self.held = Words::fresh(),
            START => self.started(&before, told.0),
            _ => {}
        }
        told
    }

    /// What it tells of a row of calls from C.
    pub fn row(&mut self, steps: &[Step]) -> Vec<Told> {
        let mut stage = doors::Stage::new();
        steps.iter().filter_map(|step| self.step(&mut stage, step)).collect()
    }

    fn step(&mut self, stage: &mut doors::Stage, step: &Step) -> Option<Told> {
        let (Some(painting), Step::Call { lent, .. }) = (step.painting(), step) else {
            return self.step_beside(stage, step);
        };
        let lengths = lent.map(|lent| lent.length);
        if lengths[STATE] != STATE_LEN {
            return self.step_beside(stage, step);
        }
        let [state, tables, pictures, floats, out, ..] = &mut stage.rooms;
        let state = &mut state[..STATE_LEN];
        let out = &mut out[..lengths[OUTPUT]];
        let mut display = read_state(state).expect("it is whole");
        let floats = numbers_of(&floats[..lengths[FLOATS]]);
        let pictures = Pictures { bytes: &pictures[..lengths[PICTURES]], floats: &floats };
        let tables = &tables[..lengths[TABLES]];
        let answer = self.paint(&mut display, painting, tables, pictures, out);
        state.copy_from_slice(&state_bytes(&display));
        let (state, out) = (state.to_vec(), out.to_vec());
        let (changes, count) = (Vec::new(), Vec::new());
        Some(Told { answer, is_touched: false, state, changes, out, count })
    }

    /// A step that paints no layer, or is lent no whole state.
    fn step_beside(&mut self, stage: &mut doors::Stage, step: &Step) -> Option<Told> {
        let state = |stage: &doors::Stage| {
            read_state(&stage.rooms[STATE][..STATE_LEN]).expect("it is whole")
        };
        let before = state(stage);
        let told = stage.play(step);
        match step {
            Step::Call { door: Door::Start, .. } => {
                self.started(&before, told.as_ref().expect("it is a call").answer)
            }
            Step::Store { buffer: STATE, .. } if self.fault != Fault::BelievedOrder => {
                self.held = state(stage).active
            }
            _ => {}
        }
        told
    }
}

/// Words by which just these layers are painted, in this order.
fn ordered(words: &Words, order: &[usize]) -> Words {
    let mut words = words.clone();
    (0..LAYERS).for_each(|n| words.0[layer_word(n)] &= !1);
    for (depth, &n) in (0..).zip(order) {
        let word = &mut words.0[layer_word(n)];
        *word = *word & !DEPTH_BITS | 1 | depth << 8;
    }
    words
}

/// Words whose float layers are frame layers of bytes.
fn by_bytes(words: &Words) -> Words {
    let mut words = words.clone();
    (0..LAYERS).for_each(|n| words.0[layer_word(n)] &= !FLOAT_BIT);
    words
}

/// So many items from a place on; zeros where there are none.
fn part<T: Copy + Default>(all: &[T], start: i64, length: i64) -> Vec<T> {
    let rest = all.iter().skip(start as usize).copied();
    rest.chain(iter::repeat(T::default())).take(length as usize).collect()
}
