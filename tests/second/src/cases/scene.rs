//! Register words (01 "Registers"): scenes that pass every check of a start, small changes of them,
//! and faults in them.

use crate::answers::*;
use crate::floats::Floats;
use crate::rng::Rng;
use crate::words::{layer_word, named_bits, Words, LAYERS, WORDS};
use crate::words::{DEPTH_BITS, FLOAT_BIT, GRAPHICS_BIT, KIND_BITS};

/// What a scene has to fit into: its screen, the pixels that frame layers may bring together, the
/// frame number near which fades begin, and whether there may be float layers.
#[derive(Clone, Copy)]
pub struct Room {
    pub width: i64,
    pub height: i64,
    pub frame_pixels: i64,
    pub now: u32,
    pub floats: Floats,
}

/// Two twelve bit numbers at 11:0 and 27:16.
pub fn pair(low: i64, high: i64) -> u32 {
    low as u32 | (high as u32) << 16
}

pub fn scene(rng: &mut Rng, room: Room) -> Words {
    let mut words = Words::fresh();
    let display_on = rng.percent(93);
    words.0[0] = 0b100 | u32::from(display_on);
    words.0[1] = pair(room.width, room.height);
    words.0[2] = u32::from_le_bytes([rng.byte(), rng.byte(), rng.byte(), 0]);
    words.0[3] = rng.u32();
    let mut depths = [0, 1, 2, 3, 4, 5, 6, 7];
    rng.shuffle(&mut depths);
    let enabled_share = rng.pick(&[20, 50, 70, 100]);
    let mut pixels_left = room.frame_pixels;
    for (n, depth) in depths.into_iter().enumerate() {
        if !rng.percent(enabled_share) {
            disable(rng, &mut words, n, room.floats);
            continue;
        }
        let pixels = place(rng, &mut words, n, room);
        let is_frame = pixels <= pixels_left && rng.percent(45);
        if is_frame {
            pixels_left -= pixels;
        }
        let kind = if is_frame { frame_kind(rng, room.floats) } else { GRAPHICS_BIT };
        words.0[layer_word(n)] = 1 | kind | depth << 8;
        words.0[layer_word(n) + 1] = alpha_word(rng);
        write_fade(rng, &mut words, n, room.now);
    }
    words
}

/// What says that a frame layer's picture is bytes, or floats, where it may.
pub fn frame_kind(rng: &mut Rng, floats: Floats) -> u32 {
    match floats {
        Floats::With => rng.pick(&[0, FLOAT_BIT]),
        Floats::Without => 0,
    }
}

/// The kinds that a layer may have.
fn kinds(floats: Floats) -> &'static [u32] {
    match floats {
        Floats::With => &[0, GRAPHICS_BIT, FLOAT_BIT],
        Floats::Without => &[0, GRAPHICS_BIT],
    }
}

/// Another kind for a layer's first word.
pub fn other_kind(rng: &mut Rng, word: u32, floats: Floats) -> u32 {
    let others: Vec<u32> =
        kinds(floats).iter().copied().filter(|&kind| kind != word & KIND_BITS).collect();
    word & !KIND_BITS | rng.pick(&others)
}

/// A disabled layer is looked at for its reserved bits and its kind only, so all its other bits are
/// anything.
fn disable(rng: &mut Rng, words: &mut Words, n: usize, floats: Floats) {
    let first = layer_word(n);
    for register in first..layer_word(n + 1) {
        words.0[register] = rng.u32() & named_bits(register);
    }
    words.0[first] = words.0[first] & !(KIND_BITS | 1) | rng.pick(kinds(floats));
}

/// Puts a layer somewhere on the screen and answers how many pixels it has.
pub fn place(rng: &mut Rng, words: &mut Words, n: usize, room: Room) -> i64 {
    let (x, width) = span(rng, room.width);
    let (y, height) = span(rng, room.height);
    words.0[layer_word(n) + 2] = pair(x, y);
    words.0[layer_word(n) + 3] = pair(width, height);
    width * height
}

/// A start and a length that stay within the size; the whole of it, its far end and single lines
/// come often.
pub fn span(rng: &mut Rng, size: i64) -> (i64, i64) {
    match rng.below(8) {
        0 | 1 => (0, size),
        2 => (rng.range(0, size - 1), 1),
        3 => {
            let start = rng.range(0, size - 1);
            (start, size - start)
        }
        _ => {
            let start = rng.range(0, size - 1);
            (start, rng.range(1, size - start))
        }
    }
}

/// Picture bytes of any length. Runs of clear and of opaque pixels come often, some longer than a
/// block that is painted at once.
pub fn pictures(rng: &mut Rng, length: usize) -> Vec<u8> {
    let mut bytes = rng.bytes(length);
    alpha_runs(rng, &mut bytes, [0x00, 0xFF]);
    bytes
}

/// Gives runs of pixels the one or the other alpha, or leaves them their own.
pub fn alpha_runs<T: Copy>(rng: &mut Rng, values: &mut [T], [clear, opaque]: [T; 2]) {
    let mut pixels = values.chunks_exact_mut(4);
    while pixels.len() > 0 {
        let run = rng.pick(&[1, 5, 15, 16, 17, 31, 50, 64]);
        let alpha = rng.pick(&[None, Some(clear), Some(opaque)]);
        for pixel in pixels.by_ref().take(run) {
            pixel[3] = alpha.unwrap_or(pixel[3]);
        }
    }
}

pub fn alpha_word(rng: &mut Rng) -> u32 {
    let global = rng.percent(45);
    let value = if rng.percent(10) { 0 } else { rng.byte() };
    u32::from(value) | u32::from(global) << 31
}

/// A fade that is running now more often than not; the others sit where the signed difference turns
/// over.
pub fn write_fade(rng: &mut Rng, words: &mut Words, n: usize, now: u32) {
    let start = match rng.below(10) {
        0..=3 => now.wrapping_add(rng.range(-5, 2) as u32),
        4 => now.wrapping_add(rng.range(-400, 400) as u32),
        5 => now.wrapping_add(1 << 31).wrapping_add(rng.range(-3, 3) as u32),
        6 => rng.pick(&[0, 1, u32::MAX, now, i32::MAX as u32, 1 << 31]),
        7 => 0_u32.wrapping_sub(rng.range(0, 200) as u32),
        _ => rng.u32(),
    };
    let length = match rng.below(10) {
        0 => 0,
        1 => 1,
        2..=6 => rng.range(2, 12),
        7 => rng.range(13, 900),
        8 => 65_535,
        _ => rng.range(0, 65_535),
    };
    words.0[layer_word(n) + 4] = start;
    words.0[layer_word(n) + 5] = length as u32 | u32::from(rng.byte()) << 16;
}

/// A few changes of words that pass; the outcome passes too and keeps within the room's picture.
pub fn nudge(rng: &mut Rng, words: &Words, room: Room) -> Words {
    const TRIES: usize = 20;
    for _ in 0..TRIES {
        let mut next = words.clone();
        for _ in 0..rng.range(1, 4) {
            change(rng, &mut next, room);
        }
        let pixels = (next.pictures_len() + next.floats_len()) / 4;
        if next.check(room.floats) == DONE && pixels <= room.frame_pixels {
            return next;
        }
    }
    words.clone()
}

fn change(rng: &mut Rng, words: &mut Words, room: Room) {
    let n = rng.below(LAYERS);
    let first = layer_word(n);
    match rng.below(10) {
        0 => words.0[2] = u32::from_le_bytes([rng.byte(), rng.byte(), rng.byte(), 0]),
        1 => words.0[first + 1] = alpha_word(rng),
        2 | 3 => write_fade(rng, words, n, room.now),
        4 | 5 => {
            place(rng, words, n, room);
        }
        6 => words.0[first] ^= 1,
        7 => words.0[first] = other_kind(rng, words.0[first], room.floats),
        8 => words.0[first] = words.0[first] & !DEPTH_BITS | (rng.below(8) as u32) << 8,
        _ => {
            let other = layer_word(rng.below(LAYERS));
            let depths = [words.0[first] & DEPTH_BITS, words.0[other] & DEPTH_BITS];
            words.0[first] = words.0[first] & !DEPTH_BITS | depths[1];
            words.0[other] = words.0[other] & !DEPTH_BITS | depths[0];
        }
    }
}

/// A controller that serves an enabled graphics layer as a rule, if there is one.
pub fn controller(rng: &mut Rng, words: &Words) -> usize {
    let drawn = |&n: &usize| words.layer(n).enabled && words.layer(n).graphics;
    let serving: Vec<usize> = (0..LAYERS).filter(drawn).collect();
    if serving.is_empty() || rng.percent(5) {
        rng.below(LAYERS)
    } else {
        rng.pick(&serving)
    }
}

/// Gives the words one fault that a start refuses with that number, unless another fault comes
/// first.
pub fn spoil(rng: &mut Rng, words: &mut Words, answer: u32, floats: Floats) {
    let n = rng.below(LAYERS);
    let first = layer_word(n);
    match answer {
        RESERVED_BIT => match rng.below(8) {
            0 | 1 => words.0[first] |= KIND_BITS,
            2..=4 if floats == Floats::Without => {
                words.0[first] = words.0[first] & !KIND_BITS | FLOAT_BIT;
            }
            _ => set_reserved_bit(rng, words),
        },
        NO_OUTPUT => words.0[1] &= rng.pick(&[0x0FFF_0000, 0x0000_0FFF, 0]),
        EMPTY_LAYER => {
            words.0[first] |= 1;
            words.0[first + 3] &= rng.pick(&[0x0FFF_0000, 0x0000_0FFF, 0]);
        }
        LAYER_OUTSIDE => stick_out(rng, words, n),
        SAME_DEPTH => share_depth(rng, words),
        _ => unreachable!("no fault of the words gives {answer}"),
    }
}

fn set_reserved_bit(rng: &mut Rng, words: &mut Words) {
    let faulty: Vec<usize> =
        (0..WORDS).filter(|&register| named_bits(register) != u32::MAX).collect();
    let register = rng.pick(&faulty);
    let reserved: Vec<u32> = (0..32).filter(|bit| named_bits(register) >> bit & 1 == 0).collect();
    words.0[register] |= 1 << rng.pick(&reserved);
}

/// Moves or widens a layer past one edge of the screen, by one pixel as a rule.
fn stick_out(rng: &mut Rng, words: &mut Words, n: usize) {
    let (screen_width, screen_height) = (words.width(), words.height());
    let layer = words.layer(n);
    let (mut x, mut y, mut width, mut height) =
        (layer.x, layer.y, layer.width.max(1), layer.height.max(1));
    let past = if rng.percent(70) { 1 } else { rng.range(1, 4_095) };
    match rng.below(4) {
        0 => x = screen_width - width + past,
        1 => y = screen_height - height + past,
        2 => width = screen_width - x + past,
        _ => height = screen_height - y + past,
    }
    let first = layer_word(n);
    words.0[first] |= 1;
    words.0[first + 2] = pair(x.clamp(0, 4_095), y.clamp(0, 4_095));
    words.0[first + 3] = pair(width.clamp(1, 4_095), height.clamp(1, 4_095));
}

/// Gives two enabled layers one depth; with fewer than two enabled a layer becomes the other's
/// twin.
fn share_depth(rng: &mut Rng, words: &mut Words) {
    let mut enabled: Vec<usize> = (0..LAYERS).filter(|&n| words.layer(n).enabled).collect();
    rng.shuffle(&mut enabled);
    if let [first, second, ..] = enabled[..] {
        let depth = words.0[layer_word(first)] & DEPTH_BITS;
        let word = &mut words.0[layer_word(second)];
        *word = *word & !DEPTH_BITS | depth;
        return;
    }
    let from = enabled.first().copied().unwrap_or(rng.below(LAYERS));
    let to = (from + rng.range(1, 7) as usize) % LAYERS;
    words.0[layer_word(from)] |= 1;
    words.0.copy_within(layer_word(from)..layer_word(from + 1), layer_word(to));
}
