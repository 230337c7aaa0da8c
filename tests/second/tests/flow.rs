//! The shader's river (02 K7) beside this display: `examples/flow.c` lends the floats of each frame
//! as they are. The same river is computed here, to the same bits, and its frames have to be ours.
//!
//!   SPOONWING_FLOW   the folder that `tools/flow` leaves, ../../target/flow unless set

use second::answers::DONE;
use second::beside::{picture, program};
use second::display::Display;
use second::floats::{byte_of, numbers_of, Floats};
use second::host::image_words;
use second::paint::Pictures;
use second::state::state_bytes;
use second::tables::Bits;
use std::fs;

const WIDTH: usize = 112;
const HEIGHT: usize = 48;
/// As many as the waves take to come back, and so many of them side by side.
const FRAMES: usize = 12;
const ACROSS: usize = 4;

/// The bytes of a file that `tools/flow` leaves.
fn left(name: &str) -> Vec<u8> {
    let path = program("SPOONWING_FLOW", "../../target/flow").join(name);
    fs::read(&path).unwrap_or_else(|error| panic!("{} is not read: {error}", path.display()))
}

// ---- the river, as `examples/shader.c` has it: the same steps in the same order

fn wave(turns: f32) -> f32 {
    let part = turns - turns.trunc();
    let half = if part < 0.5 { part } else { part - 0.5 };
    let height = 16.0 * half * (0.5 - half);
    if part < 0.5 {
        height
    } else {
        -height
    }
}

fn depth_at(along: f32, across: f32) -> f32 {
    let bend = 0.125 * wave(0.75 * along + 0.125);
    let away = (across - 0.5 - bend) / 0.3125;
    1.0 - away * away
}

fn tilt_at(along: f32, across: f32, turns: f32, depth: f32) -> f32 {
    let slow = wave(2.0 * along + 0.5 * depth + 8.0 - turns);
    let quick = wave(2.0 * (2.0 * along + across + 4.0 - turns));
    0.625 * slow + 0.375 * quick
}

/// A pixel's red, green, blue and alpha.
fn shade(along: f32, across: f32, turns: f32) -> [f32; 4] {
    let depth = depth_at(along, across);
    let tilt = tilt_at(along, across, turns, depth);
    let crest = tilt - 0.8125;
    let glint = if crest > 0.0 { 8.0 * crest } else { 0.0 };
    let mist = 0.4375 * along;
    let channel = |shallow: f32, loss: f32| {
        (1.0 - mist) * (shallow - loss * depth + 0.25 * tilt) + 0.75 * mist + glint
    };
    [channel(0.25, 0.375), channel(0.5, 0.1875), channel(0.5625, 0.0625), 5.0 * depth]
}

/// The picture of a frame number.
fn river(time: usize) -> Vec<f32> {
    let turns = (time % FRAMES) as f32 / FRAMES as f32;
    let pixel = |i: usize| {
        let [x, y] = [i % WIDTH, i / WIDTH].map(|place| place as f32);
        shade(x / WIDTH as f32, y / HEIGHT as f32, turns)
    };
    (0..WIDTH * HEIGHT).flat_map(pixel).collect()
}

/// The bits of each frame's picture; the first start makes the frame number 1.
fn rivers() -> Vec<Vec<u32>> {
    (1..=FRAMES).map(|time| river(time).into_iter().map(f32::to_bits).collect()).collect()
}

// ---- what is compared

/// The frames of the same calls with our river, and the display that they leave.
fn made_here() -> (Display, Vec<Vec<u8>>) {
    let (words, tables) = (image_words(&left("image.bin")), left("tables.bin"));
    let mut display = Display::fresh(Bits::One, Floats::With);
    for (register, word) in (0..).zip(words.expect("it is whole").0) {
        assert_eq!(display.write(register, word), DONE);
    }
    let mut frame = |floats: Vec<u32>| {
        assert_eq!(display.start(), DONE);
        // What the output held does not count, so ours does not begin as the example's zeros do.
        let mut out = vec![0xA5; 4 * WIDTH * HEIGHT];
        let pictures = Pictures { bytes: &[], floats: &floats };
        assert_eq!(display.frame(&tables, pictures, &mut out), DONE);
        out
    };
    let frames = rivers().into_iter().map(&mut frame).collect();
    (display, frames)
}

#[test]
fn the_floats_are_our_river() {
    let (theirs, ours) = (numbers_of(&left("floats.bin")), rivers().concat());
    assert_eq!(theirs.len(), ours.len());
    if let Some(at) = (0..ours.len()).find(|&at| theirs[at] != ours[at]) {
        panic!("number {at} is {:08X}, and {:08X} with us", theirs[at], ours[at]);
    }
}

#[test]
fn the_frames_are_ours() {
    let (display, frames) = made_here();
    assert!(state_bytes(&display)[..] == left("state.bin"), "the example leaves another state");
    assert_eq!(display.errors(), 0);
    let (theirs, ours) = (left("output.bin"), frames.concat());
    assert_eq!(theirs.len(), ours.len());
    if let Some(at) = (0..ours.len()).find(|&at| theirs[at] != ours[at]) {
        panic!("byte {at} is {}, and {} with us", theirs[at], ours[at]);
    }
}

/// Numbers on both sides of what a byte can hold, and grey steps that rounding down would lose.
#[test]
fn the_river_asks_for_floats() {
    let river: Vec<f32> = (1..=FRAMES).flat_map(river).collect();
    let count = |is: fn(f32) -> bool| river.iter().filter(|&&number| is(number)).count();
    let below = count(|number| number < 0.0);
    let above = count(|number| number > 1.0);
    let lost = count(|number| byte_of(number.to_bits()) > (255.0 * number) as u8);
    println!("{below} below 0, {above} above 1, {lost} a step higher than by rounding down");
    assert!(below > 1000 && above > 1000 && lost > 1000);
}

/// Side by side, from left to right and then down.
#[test]
fn the_picture_is_our_frames() {
    let (_, frames) = made_here();
    let mut strip =
        format!("P6\n{} {}\n255\n", ACROSS * WIDTH, FRAMES / ACROSS * HEIGHT).into_bytes();
    for row in frames.chunks(ACROSS) {
        for y in 0..HEIGHT {
            let lines = row.iter().flat_map(|frame| &frame[4 * WIDTH * y..][..4 * WIDTH]);
            let bytes: Vec<u8> = lines.copied().collect();
            strip.extend(bytes.chunks(4).flat_map(|pixel| &pixel[..3]));
        }
    }
    assert!(left("flow.ppm") == strip, "the frames that are shown are another picture");
    let is_same = picture("flow.png") == strip;
    assert!(is_same, "`tools/flow PREFIX examples/flow.png` makes another picture");
}
