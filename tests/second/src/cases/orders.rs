//! Words whose order of layers, and whose places of pictures, change from one to the next (02 K5).

use crate::answers::*;
use crate::cases::scene::{frame_kind, other_kind, pair, spoil};
use crate::display::Painting;
use crate::floats::Floats;
use crate::rng::Rng;
use crate::words::{layer_word, Words, DEPTH_BITS, GRAPHICS_BIT, LAYERS};

/// The scripts that the tests compare, and as many rows of calls from C, of the seeds from 0 on.
pub const ORDERS: u64 = 20;
/// How often the words of each change.
pub const TURNS: usize = 60;

/// The displays have float buffers.
const FLOATS: Floats = Floats::With;

/// What is worked out of words before layers are painted: the enabled layers in rising depth, where
/// each layer's picture and its floats begin, and behind them all their total lengths.
pub fn arrangement(words: &Words) -> (Vec<usize>, [Vec<i64>; 2]) {
    let starts = [Words::picture_start, Words::float_start];
    (words.order(), starts.map(|start| (0..=LAYERS).map(|n| start(words, n)).collect()))
}

/// A small screen, shown, whose layers all lie over its middle and are seen through, so that another
/// order of any two shows there.
pub fn scene(rng: &mut Rng) -> Words {
    let mut words = Words::fresh();
    words.0[0] = 0b101;
    words.0[1] = pair(rng.range(2, 9), rng.range(2, 5));
    words.0[2] = rng.u32() & 0x00FF_FFFF;
    words.0[3] = rng.u32();
    let mut depths = [0, 1, 2, 3, 4, 5, 6, 7];
    rng.shuffle(&mut depths);
    for (n, depth) in depths.into_iter().enumerate() {
        let [is_enabled, is_graphics] = [70, 30].map(|share| rng.percent(share));
        let kind = if is_graphics { GRAPHICS_BIT } else { frame_kind(rng, FLOATS) };
        words.0[layer_word(n)] = u32::from(is_enabled) | kind | depth << 8;
        words.0[layer_word(n) + 1] = u32::from(rng.percent(70)) << 31 | rng.range(60, 200) as u32;
        cover_middle(rng, &mut words, n);
    }
    words
}

/// Puts a layer over the middle of the screen.
fn cover_middle(rng: &mut Rng, words: &mut Words, n: usize) {
    let mut span = |size: i64| {
        let start = rng.range(0, size / 2);
        (start, rng.range(size / 2 + 1, size) - start)
    };
    let [(x, width), (y, height)] = [words.width(), words.height()].map(&mut span);
    words.0[layer_word(n) + 2] = pair(x, y);
    words.0[layer_word(n) + 3] = pair(width, height);
}

/// A few changes of words that pass; the outcome passes too, and is arranged otherwise.
fn change(rng: &mut Rng, words: &Words) -> Words {
    loop {
        let mut next = words.clone();
        for _ in 0..rng.range(1, 3) {
            change_one(rng, &mut next);
        }
        if next.check(FLOATS) == DONE && arrangement(&next) != arrangement(words) {
            return next;
        }
    }
}

fn change_one(rng: &mut Rng, words: &mut Words) {
    let n = rng.below(LAYERS);
    let first = layer_word(n);
    match rng.below(6) {
        0 => words.0[first] ^= 1,
        1 => words.0[first] = other_kind(rng, words.0[first], FLOATS),
        2 => cover_middle(rng, words, n),
        3 => words.0[first] = words.0[first] & !DEPTH_BITS | (rng.below(8) as u32) << 8,
        _ => {
            let other = layer_word(rng.below(LAYERS));
            let unlike = (words.0[first] ^ words.0[other]) & DEPTH_BITS;
            words.0[first] ^= unlike;
            words.0[other] ^= unlike;
        }
    }
}

/// The words to write before a start, arranged otherwise than the active ones: as a rule they are
/// copied, and else not looked at or refused.
pub fn wish(rng: &mut Rng, active: &Words) -> Words {
    let mut wish = if active.check(FLOATS) == DONE { change(rng, active) } else { scene(rng) };
    match rng.below(20) {
        0..=2 => wish.0[0] &= !0b100,
        3..=7 => {
            let fault = rng.range(RESERVED_BIT.into(), SAME_DEPTH.into());
            spoil(rng, &mut wish, fault as u32, FLOATS);
        }
        _ => {}
    }
    wish
}

/// Active words as a host may store them: arranged otherwise, in half of them with layers of one
/// depth, which no start lets in.
pub fn by_hand(rng: &mut Rng, active: &Words) -> Words {
    let mut words = if active.check(FLOATS) == DONE { change(rng, active) } else { scene(rng) };
    if rng.percent(50) {
        spoil(rng, &mut words, SAME_DEPTH, FLOATS);
    }
    words
}

/// How many bytes and how many floats are lent that nobody asks for: at times some, which shows
/// what of them is asked first.
pub fn too_many(rng: &mut Rng) -> usize {
    rng.pick(&[0, 0, 0, 0, 0, 0, 0, 0, 0, 4])
}

/// Each painting of layers, in any order.
pub fn paintings(rng: &mut Rng, height: i64) -> [Painting; 3] {
    let (low, high) = rng.pick(&[(0, 8), (0, 8), (0, 4), (4, 8), (2, 6)]);
    let line = rng.pick(&[height / 2, 0, height - 1]) as u32;
    let mut paintings = [Painting::Frame, Painting::Band(low, high), Painting::Line(line)];
    rng.shuffle(&mut paintings);
    paintings
}
