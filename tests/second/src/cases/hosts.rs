//! Calls of the host entry (01 "Sheet program and host entry"): images and buffers, right ones and
//! wrong ones.

use crate::answers::*;
use crate::cases::banks;
use crate::cases::scene::{pictures, scene, spoil, Room};
use crate::floats::Floats;
use crate::host::IMAGE_LEN;
use crate::rng::Rng;
use crate::tables::{Bank, Bits, Kind};
use crate::words::{Words, LAYERS};

/// The calls that the tests compare unless told otherwise, of the seeds from 0 on.
pub const HOST_CALLS: u64 = 4_000;

/// The entry has no float buffer.
const FLOATS: Floats = Floats::Without;

/// All that one call lends.
#[derive(Clone, Debug)]
pub struct HostCase {
    pub image: Vec<u8>,
    pub frame: u32,
    pub tables: Vec<u8>,
    pub pictures: Vec<u8>,
    pub output: Vec<u8>,
}

pub fn gen_host(seed: u64) -> HostCase {
    // Kept apart from the sheets' seeds.
    let rng = &mut Rng::new(seed ^ 0x686F_7374);
    let (width, height) = screen(rng);
    let now = rng.pick(&[0, 1, 77, i32::MAX as u32, 1 << 31, u32::MAX]);
    let frame_pixels = 3 * width * height;
    let mut words = scene(rng, Room { width, height, frame_pixels, now, floats: FLOATS });
    if rng.percent(50) {
        words.0[0] &= !0b100;
    }
    let faults = faults(rng);
    let right_output = words.output_len() as usize;
    let right_pictures = words.pictures_len() as usize;
    let bits = rng.pick(&Bits::ALL);
    let tables = tables(rng, &words, bits);
    let frame = frame_number(rng, &words, now);
    for &fault in faults.iter().filter(|fault| (RESERVED_BIT..=SAME_DEPTH).contains(fault)) {
        spoil(rng, &mut words, fault, FLOATS);
    }
    let wrong_images = [0, 4, IMAGE_LEN - 4, IMAGE_LEN - 1, IMAGE_LEN + 1, IMAGE_LEN + 4, 416];
    let image_len = if faults.contains(&WRONG_IMAGE) { rng.pick(&wrong_images) } else { IMAGE_LEN };
    let lent = |rng: &mut Rng, answer, right| {
        if faults.contains(&answer) {
            wrong_len(rng, right)
        } else {
            right
        }
    };
    let tables_len = lent(rng, WRONG_TABLES, bits.tables_len());
    let pictures_len = lent(rng, WRONG_PICTURES, right_pictures);
    let output_len = lent(rng, WRONG_OUTPUT, right_output);
    HostCase {
        image: resized(image_bytes(&words), image_len),
        frame,
        tables: resized(tables, tables_len),
        pictures: pictures(rng, pictures_len),
        output: rng.bytes(output_len),
    }
}

/// The register image of words.
pub fn image_bytes(words: &Words) -> Vec<u8> {
    words.0.into_iter().flat_map(u32::to_le_bytes).collect()
}

/// None as a rule, otherwise one to four refusals, so that their order shows.
fn faults(rng: &mut Rng) -> Vec<u32> {
    const FAULTS: [u32; 9] = [
        WRONG_IMAGE,
        RESERVED_BIT,
        NO_OUTPUT,
        EMPTY_LAYER,
        LAYER_OUTSIDE,
        SAME_DEPTH,
        WRONG_OUTPUT,
        WRONG_TABLES,
        WRONG_PICTURES,
    ];
    let count = match rng.below(100) {
        0..=24 => 1,
        25..=39 => 2,
        40..=47 => rng.range(3, 4),
        _ => 0,
    };
    (0..count).map(|_| rng.pick(&FAULTS)).collect()
}

fn screen(rng: &mut Rng) -> (i64, i64) {
    match rng.below(40) {
        0 => (4_095, 1),
        1 => (1, 4_095),
        2..=6 => (rng.range(40, 70), rng.range(20, 40)),
        7 => (70, 40),
        8..=14 => (rng.range(1, 6), rng.range(1, 6)),
        15 => (1, 1),
        _ => (rng.range(4, 40), rng.range(4, 24)),
    }
}

/// Both banks of every controller, fitted to its layer.
pub fn tables(rng: &mut Rng, words: &Words, bits: Bits) -> Vec<u8> {
    let mut tables = vec![0; bits.tables_len()];
    for g in 0..LAYERS {
        fill_banks(rng, words, g, bits, &mut tables);
    }
    tables
}

/// Both banks of one controller.
pub fn fill_banks(rng: &mut Rng, words: &Words, g: usize, bits: Bits, tables: &mut [u8]) {
    let layer = words.layer(g);
    for kind in Kind::ALL {
        for b in 0..2 {
            let bytes = banks::bank(rng, kind, bits, layer.width, layer.height);
            let start = Bank { g, kind, b }.start(bits);
            tables[start..start + bytes.len()].copy_from_slice(&bytes);
        }
    }
}

/// A frame number where some layer's fade begins, ends or turns over, or one at an edge of its own.
pub fn frame_number(rng: &mut Rng, words: &Words, now: u32) -> u32 {
    let fade = words.layer(rng.below(LAYERS)).fade;
    let off = rng.range(-1, 1) as u32;
    match rng.below(8) {
        0 => rng.pick(&[0, 1, i32::MAX as u32, 1 << 31, u32::MAX]),
        1 => fade.start.wrapping_add(off),
        2 => fade.start.wrapping_add(fade.length).wrapping_add(off),
        3 => fade.start.wrapping_sub(fade.length).wrapping_add(off),
        4 => fade.start.wrapping_add(1 << 31).wrapping_add(off),
        5 => fade.start.wrapping_add(fade.length / 2),
        6 => rng.u32(),
        _ => now,
    }
}

/// A length other than the right one, near it as a rule.
pub fn wrong_len(rng: &mut Rng, right: usize) -> usize {
    let by = rng.pick(&[1, 4, 16]);
    match rng.below(4) {
        0 if right > 0 => 0,
        1 | 2 if right >= by => right - by,
        _ => right + by,
    }
}

fn resized(mut bytes: Vec<u8>, length: usize) -> Vec<u8> {
    bytes.resize(length, 0);
    bytes
}
