//! States for the calls from C as no call may have left them: any bytes, and words that no start
//! lets in but that can be painted.

use crate::answers::*;
use crate::cases::hosts::frame_number;
use crate::cases::scene::{scene, spoil, Room};
use crate::doors::ROOM;
use crate::floats::{Floats, FLOAT_LEN};
use crate::rng::Rng;
use crate::state::*;
use crate::tables::{Bits, Kind};
use crate::words::{layer_word, named_bits, Words, GRAPHICS_BIT, KIND_BITS, LAYERS, WORDS};

pub fn state(rng: &mut Rng) -> Vec<u8> {
    match rng.below(10) {
        0 => rng.bytes(STATE_LEN),
        1 => (0..STATE_LEN / 4).flat_map(|_| any_word(rng).to_le_bytes()).collect(),
        _ => paintable(rng),
    }
}

fn any_word(rng: &mut Rng) -> u32 {
    let any = rng.u32();
    rng.pick(&[any, any, 0, 1, u32::MAX, 1 << 31, 0xFFFF, 0x0FFF_0FFF, 0x0001_0001])
}

/// A small screen with layers of all kinds, and any numbers beside the words.
fn paintable(rng: &mut Rng) -> Vec<u8> {
    let now = rng.pick(&[0, 1, 77, u32::MAX]);
    let (width, height) = (rng.range(1, 40), rng.range(1, 24));
    let room = Room { width, height, frame_pixels: 2 * width * height, now, floats: Floats::With };
    let mut active = scene(rng, room);
    let mut pending = if rng.percent(50) { active.clone() } else { scene(rng, room) };
    if rng.percent(85) {
        damage(rng, &mut active);
    }
    if rng.percent(40) {
        damage(rng, &mut pending);
    }
    let kind = rng.pick(&Kind::ALL);
    let selection = rng.below(64) as u32 & !0b110 | kind.number() << 1;
    let (bits, profile) = profile(rng);
    let [end, other] = [bits, bits.other()].map(|bits| kind.end(bits) as u32);
    let places = [0, 1, end - 2, end - 1, end, end + 1, other - 1, other, 4_096, 1 << 31, u32::MAX];
    let numbers = [
        (FRAME_AT, frame_number(rng, &active, now)),
        (ERRORS_AT, any_word(rng)),
        (SELECTED_AT, rng.pick(&[0, 1, 1, 7, 256, 1 << 31, u32::MAX])),
        (SELECTION_AT, selection | rng.pick(&[0, 0, 0, 64, 0x1_0000, 0xFFFF_FFC0])),
        (PLACE_AT, rng.pick(&places)),
        (PROFILE_AT, profile),
    ];
    let words = pending.0.into_iter().chain(active.0);
    let mut bytes: Vec<u8> = words.flat_map(u32::to_le_bytes).collect();
    bytes.resize(STATE_LEN, 0);
    for (at, word) in numbers {
        bytes[at..at + 4].copy_from_slice(&word.to_le_bytes());
    }
    bytes
}

/// A number of bits and a profile that says so, and whether float layers are let in; in half of them
/// bits are set that do not count.
fn profile(rng: &mut Rng) -> (Bits, u32) {
    let bits = rng.pick(&Bits::ALL);
    let others = rng.pick(&[0, 0, 0, 0, 4, 0x100, 1 << 31, !3]);
    let closed = rng.pick(&[0, 0, 0, 2]);
    (bits, others | closed | u32::from(bits == Bits::Two))
}

/// Gives the words faults that a start would refuse, and mostly keeps their pictures short enough
/// to lend.
fn damage(rng: &mut Rng, words: &mut Words) {
    let faults = [EMPTY_LAYER, LAYER_OUTSIDE, LAYER_OUTSIDE, SAME_DEPTH, SAME_DEPTH, SAME_DEPTH];
    for _ in 0..rng.range(1, 3) {
        let fault = rng.pick(&faults);
        spoil(rng, words, fault, Floats::With);
    }
    if rng.percent(30) {
        words.0[layer_word(rng.below(LAYERS))] |= KIND_BITS;
    }
    if rng.percent(30) {
        stretch(rng, words);
    }
    if rng.percent(30) {
        set_reserved(rng, words);
    }
    if rng.percent(10) {
        spoil(rng, words, NO_OUTPUT, Floats::With);
    }
    // Now and then one that no host could lend remains.
    for n in (0..LAYERS).filter(|_| rng.percent(98)) {
        if FLOAT_LEN as i64 * words.layer(n).picture_len() > (ROOM / LAYERS) as i64 {
            words.0[layer_word(n)] |= GRAPHICS_BIT;
        }
    }
}

/// Makes a layer as large as its word can say, or puts it as far away.
fn stretch(rng: &mut Rng, words: &mut Words) {
    let first = layer_word(rng.below(LAYERS));
    let corner = rng.pick(&[0, 1, 0x0001_0000, 0x0FFF_0FFF, u32::MAX, 0xFFFF]);
    let size = rng.pick(&[0x0FFF_0FFF, u32::MAX, 0xFFFF, 0x0FFF_0001, 0x0001_0FFF]);
    words.0[first] |= 1;
    words.0[first + 2] = corner;
    words.0[first + 3] = size;
}

fn set_reserved(rng: &mut Rng, words: &mut Words) {
    for register in 0..WORDS {
        words.0[register] |= rng.u32() & !named_bits(register);
    }
}
