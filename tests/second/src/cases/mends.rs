//! Register images to mend (02 K4): any words, images that pass or nearly do, and small screens
//! with layers of every size and place; images of a wrong length and without a screen.

use crate::cases::hosts::image_bytes;
use crate::cases::scene::{self, pair, scene, Room};
use crate::floats::Floats;
use crate::mend::{Lent, LIST_LEN};
use crate::rng::Rng;
use crate::words::{layer_word, named_bits, Words, LAYERS, WORDS};
use crate::words::{DEPTH_BITS, FLOAT_BIT, GRAPHICS_BIT, KIND_BITS};

/// The calls that the tests compare unless told otherwise, of the seeds from 0 on.
pub const MENDS: u64 = 6_000;

/// The greatest number of twelve bits.
const MOST: i64 = 4_095;

/// All that one call lends, and how.
#[derive(Clone, Debug)]
pub struct MendCase {
    pub lent: Lent,
    /// How far past an address that sixteen divides image, list and count begin.
    pub past: [usize; 3],
    /// Whether an image of no bytes is passed as NULL.
    pub null: bool,
}

impl MendCase {
    /// A call with that image, and with a list and a count that show where they are written.
    pub fn of_image(image: Vec<u8>) -> MendCase {
        let lent = Lent { image, list: vec![0xA5A5_A5A5; LIST_LEN], count: u64::MAX };
        MendCase { lent, past: [0; 3], null: false }
    }
}

pub fn gen_mend(seed: u64) -> MendCase {
    // Kept apart from the other cases' seeds.
    let rng = &mut Rng::new(seed ^ 0x6D65_6E64);
    let mut image = image_bytes(&words(rng));
    if rng.percent(8) {
        let length = rng.pick(&[0, 0, 1, 4, 204, 207, 209, 212, 416]);
        image.resize(length, rng.byte());
    }
    let list = (0..LIST_LEN).map(|_| rng.u32()).collect();
    let lent = Lent { image, list, count: rng.u64() };
    let past = [rng.below(16), 4 * rng.below(4), 8 * rng.below(2)];
    MendCase { lent, past, null: rng.percent(50) }
}

/// The words of an image, one in ten without a screen.
pub fn words(rng: &mut Rng) -> Words {
    let mut words = match rng.below(100) {
        0..=9 => any_words(rng),
        10..=19 => passing(rng),
        20..=34 => with_a_bit_flipped(rng),
        35..=49 => crowded(rng),
        _ => scattered(rng),
    };
    if rng.percent(10) {
        take_screen(rng, &mut words);
    }
    words
}

/// Any 32 bits in each word; none and all of them come often.
fn any_words(rng: &mut Rng) -> Words {
    Words([(); WORDS].map(|()| match rng.below(8) {
        0 => 0,
        1 => u32::MAX,
        _ => rng.u32(),
    }))
}

/// Words that pass every check of a start.
fn passing(rng: &mut Rng) -> Words {
    let (width, height) = screen(rng);
    let (frame_pixels, now) = (i64::MAX, rng.u32());
    let room = Room { width, height, frame_pixels, now, floats: Floats::With };
    let mut words = scene(rng, room);
    words.0[0] = rng.u32() & named_bits(0);
    words
}

fn with_a_bit_flipped(rng: &mut Rng) -> Words {
    let mut words = passing(rng);
    words.0[rng.below(WORDS)] ^= 1 << rng.below(32);
    words
}

/// Layers that lie well, all of them enabled as a rule, and of one depth or of a few.
fn crowded(rng: &mut Rng) -> Words {
    let mut words = passing(rng);
    let depths: Vec<u32> = (0..rng.range(1, 4)).map(|_| rng.below(8) as u32).collect();
    let enabled_share = rng.pick(&[100, 100, 70]);
    let (width, height) = (words.width(), words.height());
    let room = Room { width, height, frame_pixels: 0, now: 0, floats: Floats::With };
    for n in 0..LAYERS {
        scene::place(rng, &mut words, n, room);
        words.0[layer_word(n)] = kind(rng, enabled_share) | rng.pick(&depths) << 8;
    }
    words
}

/// A layer on or off, of any kind; both bits of it are one too many.
fn kind(rng: &mut Rng, enabled_share: i64) -> u32 {
    let list = rng.pick(&[GRAPHICS_BIT, GRAPHICS_BIT, KIND_BITS]);
    rng.pick(&[list, 0, FLOAT_BIT]) | u32::from(rng.percent(enabled_share))
}

/// A screen with layers that fit, stick out, are too large or have no size, each axis by itself.
fn scattered(rng: &mut Rng) -> Words {
    let mut words = passing(rng);
    let enabled_share = rng.pick(&[100, 100, 70, 30]);
    let any_depth = rng.percent(50);
    let is_largest = rng.percent(10);
    for n in 0..LAYERS {
        let sizes = [words.width(), words.height()];
        let [across, down] =
            sizes.map(|size| if is_largest { (MOST, MOST) } else { span(rng, size) });
        let first = layer_word(n);
        let depth = if any_depth { rng.u32() & DEPTH_BITS } else { (n as u32) << 8 };
        words.0[first] = kind(rng, enabled_share) | depth;
        words.0[first + 2] = pair(across.0, down.0);
        words.0[first + 3] = pair(across.1, down.1);
    }
    if rng.percent(30) {
        set_reserved_bits(rng, &mut words);
    }
    words
}

/// A screen of one pixel or a few, more seldom of many.
fn screen(rng: &mut Rng) -> (i64, i64) {
    match rng.below(20) {
        0..=2 => (1, 1),
        3 => (MOST, MOST),
        4 => (rng.range(1, MOST), rng.range(1, MOST)),
        _ => (rng.range(1, 8), rng.range(1, 8)),
    }
}

/// A start and a length along an axis of a screen of that size.
fn span(rng: &mut Rng, size: i64) -> (i64, i64) {
    let length = rng.range(1, size);
    let (start, length) = match rng.below(18) {
        0..=6 => scene::span(rng, size),
        7 => (size - length, length),
        8 | 9 => (size - length + 1, length),
        10 => (size - length + rng.range(2, MOST), length),
        11 => (rng.range(0, 2), size + 1),
        12 => (rng.range(0, MOST), size + rng.range(1, MOST)),
        13 => (MOST, MOST),
        14..=16 => (rng.range(0, size + 1), 0),
        _ => (rng.range(0, MOST), size),
    };
    (start.min(MOST), length.min(MOST))
}

/// Reserved bits in a few words or in all.
fn set_reserved_bits(rng: &mut Rng, words: &mut Words) {
    let share = rng.pick(&[3, 3, 30, 100]);
    for register in 0..WORDS {
        if rng.percent(share) {
            words.0[register] |= rng.u32() & !named_bits(register);
        }
    }
}

/// No width, no height or neither; often with reserved bits in that word, which are no size.
fn take_screen(rng: &mut Rng, words: &mut Words) {
    words.0[1] &= rng.pick(&[0xFFFF_F000, 0xF000_FFFF, 0xF000_F000]);
    words.0[1] |= rng.pick(&[0, 0, 1 << 12, 1 << 28, 0xF000_F000]);
}

// ---- sweeps

/// A screen of one to three pixels or of the most, and on it a layer of each kind with every start
/// and length near the screen's edges, across and down.
pub fn axis_images() -> Vec<Vec<u8>> {
    let kinds = [0, GRAPHICS_BIT, FLOAT_BIT, KIND_BITS].map(|kind| 1 | kind);
    let axes = [0, 16].into_iter().flat_map(|low| kinds.map(|kind| (low, kind)));
    let spans = axes.flat_map(|axis| near_spans().into_iter().map(move |span| (axis, span)));
    spans.map(|((low, kind), span)| image_bytes(&axis_words(low, kind, span))).collect()
}

/// Sizes of a screen, with starts and lengths of a layer.
fn near_spans() -> Vec<[u32; 3]> {
    let near =
        |size: u32| (0..4_096_u32).filter(move |n| [0, 1].contains(n) || n.abs_diff(size) <= 2);
    let lengths = |size, start| near(size).map(move |length| [size, start, length]);
    let spans = |size| near(size).flat_map(move |start| lengths(size, start));
    [1, 2, 3, 4_095].into_iter().flat_map(spans).collect()
}

/// One such layer, which has one pixel of one the other way.
fn axis_words(low: u32, kind: u32, [size, start, length]: [u32; 3]) -> Words {
    let one = 1 << (16 - low);
    let mut words = Words::fresh();
    words.0[1] = size << low | one;
    words.0[layer_word(7)] = kind;
    words.0[layer_word(7) + 2] = start << low;
    words.0[layer_word(7) + 3] = length << low | one;
    words
}

/// Three layers with every depth of each, all of them on or one off.
pub fn depth_images() -> Vec<Vec<u8>> {
    let depths = |all: u32| [0, 3, 6].map(|low| all >> low & 7);
    let ways = (0..4).flat_map(|off| (0..512).map(move |all| (off, depths(all))));
    ways.map(|(off, depths)| image_bytes(&depth_words(off, depths))).collect()
}

fn depth_words(off: usize, depths: [u32; 3]) -> Words {
    const ONE_BY_ONE: u32 = 1 << 16 | 1;
    let mut words = Words::fresh();
    words.0[1] = ONE_BY_ONE;
    for (i, n) in [2, 4, 5].into_iter().enumerate() {
        words.0[layer_word(n)] = u32::from(i != off) | depths[i] << 8;
        words.0[layer_word(n) + 3] = ONE_BY_ONE;
    }
    words
}
