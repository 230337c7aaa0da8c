//! Inputs of a frame that meet what a law of painting asks, and beside them the inputs that the law
//! speaks of too. Next to each other, under, clear all over: as docs/DECISIONS.md reads them, "Laws
//! of painting".

use crate::answers::DONE;
use crate::cases::floats::{extreme, floats};
use crate::cases::hosts::{fill_banks, frame_number, image_bytes, tables, HostCase};
use crate::cases::letters::with_lines;
use crate::cases::scene::{alpha_word, frame_kind, pair, pictures, place, scene, span};
use crate::cases::scene::{write_fade, Room};
use crate::display::Display;
use crate::doors::{Door, Step, FLOATS, OUTPUT, PICTURES, STATE, TABLES};
use crate::floats::{byte_of, bytes_of, Floats};
use crate::paint::{band, fill, shown, Pictures, Shown};
use crate::rng::Rng;
use crate::state::{state_bytes, STATE_LEN};
use crate::tables::{Bank, Bits, Kind, Tables, COLOURS, INSTRUCTIONS, INSTRUCTION_LEN};
use crate::words::{layer_word, Layer, Words, LAYERS};
use crate::words::{DEPTH_BITS, FLOAT_BIT, GRAPHICS_BIT};

/// All that a frame is painted from, accepted and of the right lengths, with the display on.
#[derive(Clone)]
pub struct Inputs {
    pub words: Words,
    pub frame: u32,
    pub bits: Bits,
    pub tables: Vec<u8>,
    /// By layer; what is no enabled frame layer with a picture of bytes has none.
    pub pictures: [Vec<u8>; LAYERS],
    /// And what is no enabled float layer has no floats.
    pub floats: [Vec<u32>; LAYERS],
}

/// Two inputs of which a law speaks together, the layer that it is about, and by what names the
/// case is counted.
pub struct Pair {
    pub one: Inputs,
    pub other: Inputs,
    pub layer: usize,
    pub kinds: Vec<String>,
}

impl Inputs {
    /// Of a seed, with so many layers at least.
    pub fn gen(seed: u64, layers: usize, floats: Floats) -> Inputs {
        Inputs::new(&mut Rng::new(seed ^ 0x6C61_7773), layers, floats)
    }

    /// With tables of either number of bits.
    fn new(rng: &mut Rng, layers: usize, floats: Floats) -> Inputs {
        let room = room(rng, floats);
        loop {
            let mut words = scene(rng, room);
            words.0[0] |= 1;
            if words.order().len() >= layers {
                let bits = rng.pick(&Bits::ALL);
                return Inputs::of(rng, words, room.now, bits);
            }
        }
    }

    /// Tables, pictures and a frame number for words.
    fn of(rng: &mut Rng, words: Words, now: u32, bits: Bits) -> Inputs {
        let tables = tables(rng, &words, bits);
        let frame = frame_number(rng, &words, now);
        let (pictures, floats) = (Default::default(), Default::default());
        let mut inputs = Inputs { words, frame, bits, tables, pictures, floats };
        (0..LAYERS).for_each(|n| inputs.renew_picture(rng, n));
        inputs
    }

    fn renew_picture(&mut self, rng: &mut Rng, n: usize) {
        let layer = self.words.layer(n);
        let length = |is_so: bool| if layer.enabled && is_so { layer.picture_len() } else { 0 };
        let bytes = length(!layer.graphics && !layer.float);
        self.pictures[n] = pictures(rng, bytes as usize);
        self.floats[n] = floats(rng, length(layer.float) as usize);
    }

    /// The call of the host entry, with an output that holds something else.
    pub fn call(&self) -> HostCase {
        assert_eq!(self.words.check(Floats::Without), DONE, "the words pass");
        HostCase {
            image: image_bytes(&self.words),
            frame: self.frame,
            tables: self.tables.clone(),
            pictures: self.pictures.concat(),
            output: vec![0xA5; self.words.output_len() as usize],
        }
    }

    /// The same by a frame call from C on a display whose active words they are.
    pub fn row(&self) -> Vec<Step> {
        assert_eq!(self.words.check(Floats::With), DONE, "the words pass");
        let (active, frame) = (self.words.clone(), self.frame);
        let display = Display { active, frame, ..Display::fresh(self.bits, Floats::With) };
        let stored = [
            (STATE, state_bytes(&display).to_vec()),
            (TABLES, self.tables.clone()),
            (PICTURES, self.pictures.concat()),
            (FLOATS, bytes_of(&self.floats.concat())),
            (OUTPUT, vec![0xA5; self.words.output_len() as usize]),
        ];
        let [_, tables, pictures, floats, out] = stored.each_ref().map(|(_, bytes)| bytes.len());
        let lent = Door::Frame.lent([STATE_LEN, tables, pictures, floats, out, 0, 0]);
        let call = Step::Call { door: Door::Frame, a: 0, b: 0, lent, null: false };
        let stores = stored.map(|(buffer, bytes)| Step::Store { buffer, bytes });
        stores.into_iter().chain([call]).collect()
    }

    pub fn lent_tables(&self) -> Tables<'_> {
        Tables { bits: self.bits, bytes: &self.tables }
    }

    /// What a layer shows at each of its pixels.
    pub fn shown(&self, n: usize) -> Vec<Shown> {
        let (bytes, floats) = (self.pictures.concat(), self.floats.concat());
        let pictures = Pictures { bytes: &bytes, floats: &floats };
        let lines = 0..self.words.height();
        shown(&self.words, n, lines, self.frame, self.lent_tables(), pictures)
    }

    /// What the background and the layers under a depth leave.
    pub fn under(&self, depth: u32) -> Vec<u8> {
        let (bytes, floats) = (self.pictures.concat(), self.floats.concat());
        let pictures = Pictures { bytes: &bytes, floats: &floats };
        let mut out = vec![0; self.words.output_len() as usize];
        fill(&self.words, &mut out);
        band(&self.words, self.frame, 0, depth, self.lent_tables(), pictures, &mut out);
        out
    }
}

/// "word 3: .. text colour 15:8", in an instruction's bytes.
const TEXT_COLOUR_AT: usize = 13;

/// Small screens, most of them wider than a block of sixteen pixels.
fn room(rng: &mut Rng, floats: Floats) -> Room {
    let width = rng.pick(&[2, 7, 16, 17, 20, 33, 40]);
    let height = rng.range(2, 9);
    let now = rng.pick(&[0, 1, 77, i32::MAX as u32, 1 << 31, u32::MAX]);
    Room { width, height, frame_pixels: 8 * width * height, now, floats }
}

fn kind_name(layer: &Layer) -> &'static str {
    match (layer.graphics, layer.float) {
        (true, _) => "list",
        (_, true) => "floats",
        _ => "picture",
    }
}

/// "two layers next to each other in depth that share no pixel may exchange depths": either side of
/// a line across the screen, touching it or not. `layer` is the lower one.
pub fn gen_exchange(seed: u64, floats: Floats) -> Pair {
    let rng = &mut Rng::new(seed ^ 0x6578_6368);
    let Inputs { mut words, frame, bits, .. } = Inputs::new(rng, 2, floats);
    let order = words.order();
    let lower = rng.below(order.len() - 1);
    let (i, j) = (order[lower], order[lower + 1]);
    let upright = rng.percent(50);
    let touching = part(rng, &mut words, i, j, upright);
    let one = Inputs::of(rng, words, frame, bits);
    let mut other = one.clone();
    let changed = (one.words.0[layer_word(i)] ^ one.words.0[layer_word(j)]) & DEPTH_BITS;
    other.words.0[layer_word(i)] ^= changed;
    other.words.0[layer_word(j)] ^= changed;
    let (low, high) = (one.words.layer(i), one.words.layer(j));
    let kinds = vec![
        if high.depth == low.depth + 1 { "depths in a row" } else { "a gap between the depths" }
            .into(),
        if i < j { "numbers as depths" } else { "numbers against depths" }.into(),
        if touching { "touching" } else { "apart" }.into(),
        if upright { "side by side" } else { "one above the other" }.into(),
        format!("{} under {}", kind_name(&low), kind_name(&high)),
        if lower > 0 { "something under both" } else { "nothing under them" }.into(),
        if lower + 2 < order.len() { "something over both" } else { "nothing over them" }.into(),
    ];
    Pair { one, other, layer: i, kinds }
}

/// Puts two layers either side of an upright or level line, and answers whether both reach it and
/// are of one span along it, so that they touch all along.
fn part(rng: &mut Rng, words: &mut Words, i: usize, j: usize, upright: bool) -> bool {
    let (width, height) = (words.width(), words.height());
    let (across, along) = if upright { (width, height) } else { (height, width) };
    let line = rng.range(1, across - 1);
    let touching = rng.percent(60);
    let (near, far) = (span(rng, line), span(rng, across - line));
    let near = if touching { (near.0, line - near.0) } else { near };
    let far = if touching { (line, far.1) } else { (line + far.0, far.1) };
    let spans = [span(rng, along), span(rng, along)];
    let spans = if touching { [spans[0], spans[0]] } else { spans };
    let sides = if rng.percent(50) { [i, j] } else { [j, i] };
    for ((n, (start, length)), (begin, extent)) in sides.into_iter().zip([near, far]).zip(spans) {
        let (corner, size) = ((start, begin), (length, extent));
        let turned = |(a, b)| if upright { pair(a, b) } else { pair(b, a) };
        words.0[layer_word(n) + 2] = turned(corner);
        words.0[layer_word(n) + 3] = turned(size);
    }
    touching
}

/// "where a layer's alpha comes to 255, neither the background nor the pixels and alphas of layers
/// under it count": in the other inputs the background and all layers under it are others.
pub fn gen_opaque(seed: u64, floats: Floats) -> Pair {
    let rng = &mut Rng::new(seed ^ 0x6F70_6171);
    let mut one = Inputs::new(rng, 1, floats);
    let order = one.words.order();
    let place = order.len() - 1 - rng.below(order.len().min(3));
    let layer = order[place];
    let by = if !one.words.layer(layer).graphics && rng.percent(30) {
        some_opaque(rng, &mut one, layer)
    } else {
        at_one_alpha(rng, &mut one, layer, 255)
    };
    let mut other = one.clone();
    other.words.0[2] ^= rng.range(1, 0x00FF_FFFF) as u32;
    let depth = one.words.layer(layer).depth;
    for m in (0..LAYERS).filter(|&m| m != layer && one.words.layer(m).depth < depth) {
        if one.words.layer(m).enabled || free(&other.words, m) && rng.percent(30) {
            renew(rng, &mut other, m, floats);
        }
    }
    let under = if place > 0 { "over layers" } else { "over the background alone" };
    Pair { one, other, layer, kinds: vec![by, under.into()] }
}

/// Whether no enabled layer has the depth of a layer that is off.
fn free(words: &Words, m: usize) -> bool {
    words.order().into_iter().all(|n| words.layer(n).depth != words.layer(m).depth)
}

/// Another layer of the same number and depth: its kind, place, alpha, tables and picture.
fn renew(rng: &mut Rng, inputs: &mut Inputs, m: usize, floats: Floats) {
    let words = &mut inputs.words;
    let (width, height) = (words.width(), words.height());
    let room = Room { width, height, frame_pixels: 0, now: inputs.frame, floats };
    let depth = words.0[layer_word(m)] & DEPTH_BITS;
    let (on, graphics) = (rng.percent(85), rng.percent(50));
    let kind = if graphics { GRAPHICS_BIT } else { frame_kind(rng, floats) };
    words.0[layer_word(m)] = depth | kind | u32::from(on);
    words.0[layer_word(m) + 1] = alpha_word(rng);
    place(rng, words, m, room);
    write_fade(rng, words, m, inputs.frame);
    words.0[3] ^= rng.u32() & 0x0101_0101 << m;
    fill_banks(rng, words, m, inputs.bits, &mut inputs.tables);
    inputs.renew_picture(rng, m);
}

/// "a layer whose alpha is 0 all over may be switched off, its picture withdrawn with it", from the
/// buffer that it is in.
pub fn gen_invisible(seed: u64, floats: Floats) -> Pair {
    let rng = &mut Rng::new(seed ^ 0x696E_7669);
    let mut one = Inputs::new(rng, 1, floats);
    let layer = rng.pick(&one.words.order());
    let by = at_one_alpha(rng, &mut one, layer, 0);
    let mut other = one.clone();
    other.words.0[layer_word(layer)] &= !1;
    other.pictures[layer].clear();
    other.floats[layer].clear();
    let kinds = vec![by, withdrawal_name(&one, layer).into()];
    Pair { one, other, layer, kinds }
}

/// What becomes of the pictures after a layer's own when that is withdrawn.
fn withdrawal_name(inputs: &Inputs, layer: usize) -> &'static str {
    let Layer { graphics, float, .. } = inputs.words.layer(layer);
    let is_there = |n: usize| match float {
        true => !inputs.floats[n].is_empty(),
        false => !inputs.pictures[n].is_empty(),
    };
    match (float, (layer + 1..LAYERS).any(is_there)) {
        _ if graphics => "no picture of its own",
        (false, true) => "pictures move up",
        (false, false) => "no picture after its own",
        (true, true) => "floats move up",
        (true, false) => "no floats after its own",
    }
}

/// 02 K7: "Demands 2 and 3 read a float layer by these bytes": in the other inputs one float layer,
/// or each of them, has its picture among the bytes.
pub fn gen_as_bytes(seed: u64) -> Pair {
    let rng = &mut Rng::new(seed ^ 0x6279_7465);
    let (one, of_floats) = loop {
        let inputs = Inputs::new(rng, 1, Floats::With);
        let is_float = |n: &usize| inputs.words.layer(*n).float;
        let of_floats: Vec<usize> = inputs.words.order().into_iter().filter(is_float).collect();
        if !of_floats.is_empty() {
            break (inputs, of_floats);
        }
    };
    let layer = rng.pick(&of_floats);
    let all = rng.percent(50);
    let mut other = one.clone();
    for n in of_floats.iter().copied().filter(|&n| all || n == layer) {
        other.words.0[layer_word(n)] &= !FLOAT_BIT;
        other.pictures[n] = one.floats[n].iter().map(|&number| byte_of(number)).collect();
        other.floats[n].clear();
    }
    let global = one.words.layer(layer).global_alpha;
    let kinds = vec![
        if of_floats.len() > 1 { "several of floats" } else { "one of floats" }.into(),
        if all { "all as bytes" } else { "one as bytes" }.into(),
        if global { "at global alpha" } else { "at its own alpha" }.into(),
        format!("layer {layer}"),
    ];
    Pair { one, other, layer, kinds }
}

/// "1 to 3 give text colour plus value minus one, modulo 16": glyphs of two bits that have only 0
/// and one other value, and glyphs of one bit with a 1 there, in text colours that are raised so.
/// Answers both, and that value.
pub fn gen_one_value(seed: u64) -> (Inputs, Inputs, u8) {
    let rng = &mut Rng::new(seed ^ 0x7661_6C75);
    let Inputs { words, frame, .. } = Inputs::new(rng, 1, Floats::Without);
    let mut one_bit = Inputs::of(rng, words, frame, Bits::One);
    let value = rng.range(1, 3) as u8;
    let valued = |line: [u8; 8]| line.map(|pixel| pixel * value);
    let tables = with_lines(one_bit.lent_tables(), Bits::Two, valued);
    let two_bits = Inputs { bits: Bits::Two, tables, ..one_bit.clone() };
    for bank in Bank::all(Kind::Instruction) {
        let start = bank.start(Bits::One) + TEXT_COLOUR_AT;
        for at in (start..).step_by(INSTRUCTION_LEN).take(INSTRUCTIONS) {
            one_bit.tables[at] = one_bit.tables[at].wrapping_add(value - 1);
        }
    }
    (one_bit, two_bits, value)
}

/// Some pixels of a picture opaque, the rest as they are.
fn some_opaque(rng: &mut Rng, inputs: &mut Inputs, n: usize) -> String {
    inputs.words.0[layer_word(n) + 1] &= !(1 << 31);
    for alpha in inputs.pictures[n].iter_mut().skip(3).step_by(4) {
        *alpha = if rng.percent(40) { 255 } else { *alpha };
    }
    for alpha in inputs.floats[n].iter_mut().skip(3).step_by(4) {
        *alpha = if rng.percent(40) { extreme(rng, true) } else { *alpha };
    }
    let float = inputs.words.layer(n).float;
    if float { "by some of its floats" } else { "by some of its bytes" }.into()
}

/// Gives a layer one alpha all over, in one of the ways that there are, and names it.
fn at_one_alpha(rng: &mut Rng, inputs: &mut Inputs, n: usize, alpha: u8) -> String {
    let global = rng.percent(60);
    let word = &mut inputs.words.0[layer_word(n) + 1];
    *word = *word & 0xFF | u32::from(global) << 31;
    if global {
        by_fade(rng, inputs, n, alpha)
    } else if inputs.words.layer(n).graphics {
        by_colours(rng, inputs, n, alpha)
    } else if inputs.words.layer(n).float {
        let alphas = inputs.floats[n].iter_mut().skip(3).step_by(4);
        alphas.for_each(|number| *number = extreme(rng, alpha == 255));
        "by its floats".into()
    } else {
        inputs.pictures[n].iter_mut().skip(3).step_by(4).for_each(|byte| *byte = alpha);
        "by its bytes".into()
    }
}

/// The whole colour table, or only the colours that are drawn.
fn by_colours(rng: &mut Rng, inputs: &mut Inputs, n: usize, alpha: u8) -> String {
    let b = inputs.words.bank(Kind::Colour, n);
    let start = Bank { g: n, kind: Kind::Colour, b }.start(inputs.bits);
    // Each colour by its own number, to see which are drawn.
    let mut numbered = inputs.clone();
    for i in 0..COLOURS {
        numbered.tables[start + 4 * i] = i as u8;
    }
    let drawn: Vec<u8> = numbered.shown(n).iter().map(|pixel| pixel.channels[0]).collect();
    let all = rng.percent(50);
    for i in 0..COLOURS {
        let counts = all || drawn.contains(&(i as u8));
        inputs.tables[start + 4 * i + 3] = if counts { alpha } else { 255 - alpha };
    }
    if all { "by its colour table" } else { "by the colours drawn" }.into()
}

/// The ways of "Fade (house)" to an alpha of 0 or 255, whatever the pixels' own.
fn by_fade(rng: &mut Rng, inputs: &mut Inputs, n: usize, alpha: u8) -> String {
    // From an alpha to its opposite in 65,535 frames: the first 128 still round to it.
    let slow = (alpha, 255 - alpha, 65_535, rng.range(1, 128));
    let (length, other) = (rng.range(1, 65_535), rng.byte());
    let (way, (value, target, length, e)) = match rng.below(5) {
        0 => ("by global alpha", (alpha, other, 0, rng.range(-9, 9))),
        1 => ("by a fade not begun", (alpha, other, length, -rng.range(1, 1 << 31))),
        2 => ("by a fade at its end", (other, alpha, length, length)),
        3 => ("by a fade past its end", (other, alpha, length, rng.range(length, i32::MAX.into()))),
        _ => ("by a fade on its way", slow),
    };
    let first = layer_word(n);
    inputs.words.0[first + 1] = 1 << 31 | u32::from(value);
    inputs.words.0[first + 4] = inputs.frame.wrapping_sub(e as u32);
    inputs.words.0[first + 5] = length as u32 | u32::from(target) << 16;
    way.into()
}
