//! The byte that a float becomes (02 K7), by the calls from C: a C program has floats painted as
//! the colours and the alphas of a layer, and tells the byte of each, which has to be this
//! display's.
//!
//!   SPOONWING_FLOATS   the C program, ../../tools/c-floats unless set (built by `tools/c-floats
//!                      build`)

use second::beside::{FloatBytes, Place};
use second::cases::{all_series, border, Series};
use second::doors::Door;
use second::floats::byte_of;
use std::sync::atomic::{AtomicU64, Ordering};
use std::thread;

const PLACES: [Place; 2] = [Place::Channels, Place::Alpha];
const PAINTINGS: [Door; 3] = [Door::Paint, Door::Frame, Door::Line];

/// Whether the floats of a series have become our bytes.
fn compare(series: Series, bytes: &[u8]) -> Result<(), String> {
    let mut told = series.bits().zip(bytes);
    match told.find(|&(bits, &byte)| byte != byte_of(bits)) {
        Some((bits, byte)) => Err(format!("{bits:08X} is {byte}, and {} with us", byte_of(bits))),
        None => Ok(()),
    }
}

fn compare_painted(program: &mut FloatBytes, door: Door, place: Place, series: Series) {
    let bytes = program.bytes(door, place, series);
    bytes
        .map_err(|error| format!("the program ends: {error}"))
        .and_then(|bytes| compare(series, &bytes))
        .unwrap_or_else(|told| panic!("{door:?}, {place:?}, {series:X?}: {told}"));
}

#[test]
fn the_calls_paint_our_bytes() {
    let mut program = FloatBytes::start();
    for (door, place) in PAINTINGS.into_iter().flat_map(|door| PLACES.map(|place| (door, place))) {
        for series in all_series() {
            compare_painted(&mut program, door, place, series);
        }
    }
}

/// All 2^32, by whole frames of the largest width, on each processor that there is. An odd step has
/// them all, and those of one pixel far apart.
#[test]
#[ignore = "it takes a minute or two"]
fn the_calls_paint_our_byte_of_every_float() {
    const A_FRAME: u64 = 3 * 4_095 * 256;
    const STEP: u32 = 0x9E37_79B1;
    let next = AtomicU64::new(0);
    let paint_all = || {
        let mut program = FloatBytes::start();
        loop {
            let done = next.fetch_add(A_FRAME, Ordering::Relaxed);
            let count = A_FRAME.min((1_u64 << 32).saturating_sub(done)) as u32;
            if count == 0 {
                return;
            }
            let series = Series { first: (done as u32).wrapping_mul(STEP), step: STEP, count };
            compare_painted(&mut program, Door::Frame, Place::Channels, series);
        }
    };
    let threads = thread::available_parallelism().map_or(1, usize::from);
    thread::scope(|scope| {
        (0..threads).for_each(|_| drop(scope.spawn(paint_all)));
    });
}

// ---- the series themselves

/// Each border lies between two floats next to each other that are both among them, and so are all
/// exponents, with and without a sign.
#[test]
fn the_series_have_every_border_and_exponent() {
    let mut all: Vec<u32> = all_series().into_iter().flat_map(Series::bits).collect();
    all.sort();
    all.dedup();
    println!("{} floats", all.len());
    let is_there = |bits: u32| all.binary_search(&bits).is_ok();
    for k in 0..255 {
        let mut near = border(k) - 2..=border(k) + 2;
        let upper = near.find(|&bits| u32::from(byte_of(bits)) == k + 1).expect("it is near");
        assert_eq!(u32::from(byte_of(upper - 1)), k, "border {k}");
        assert!((upper - 3..upper + 3).all(is_there), "border {k}");
    }
    for top in 0..512 {
        let several = all.iter().filter(|&&bits| bits >> 23 == top).count();
        assert!(several >= 9, "only {several} floats of {top:03X}");
    }
}

/// A way to turn bits into a byte.
type Way = fn(u32) -> u8;

/// Ways that are known to be wrong: a half goes down, what is not a number becomes 255, what is
/// below 0 counts without its sign, 256 shades instead of 255, whatever is left over is dropped,
/// and two that a host may have, in f32 itself.
const WAYS: [(&str, Way); 7] = [
    ("half down", |bits| if bits == 0x3F00_0000 { 127 } else { byte_of(bits) }),
    ("none to 255", |bits| if f32::from_bits(bits).is_nan() { 255 } else { byte_of(bits) }),
    ("no sign", |bits| byte_of(bits & !(1 << 31))),
    ("by 256", |bits| (f64::from(f32::from_bits(bits)) * 256.0) as u8),
    ("rounded down", |bits| (f64::from(f32::from_bits(bits)) * 255.0) as u8),
    ("in f32", |bits| (f32::from_bits(bits) * 255.0 + 0.5) as u8),
    ("rounded in f32", |bits| (f32::from_bits(bits) * 255.0).round() as u8),
];

#[test]
fn wrong_ways_are_seen() {
    for (name, way) in WAYS {
        let told = all_series().into_iter().find_map(|series| {
            let bytes: Vec<u8> = series.bits().map(way).collect();
            compare(series, &bytes).err()
        });
        println!("{name}: {}", told.unwrap_or_else(|| panic!("{name} goes unseen")));
    }
}
