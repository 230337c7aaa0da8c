//! The children's hall (02 K3) beside this display: `examples/hall.c` has its lines painted one by
//! one, and they have to be the whole frame that is painted here of the same inputs.
//!
//!   SPOONWING_HALL   the folder that `tools/hall` leaves, ../../target/hall unless set

use second::answers::DONE;
use second::beside::{picture, program};
use second::display::Display;
use second::floats::Floats;
use second::host::image_words;
use second::paint::Pictures;
use second::state::{read_state, state_bytes};
use std::fs;

/// The bytes of a file that `tools/hall` leaves.
fn left(name: &str) -> Vec<u8> {
    let path = program("SPOONWING_HALL", "../../target/hall").join(name);
    fs::read(&path).unwrap_or_else(|error| panic!("{} is not read: {error}", path.display()))
}

/// The whole frame after the same writes and as many starts, and the display that it leaves.
fn made_here() -> (Display, Vec<u8>) {
    let theirs = read_state(&left("state.bin")).expect("it is whole");
    let words = image_words(&left("image.bin")).expect("it is whole");
    let mut display = Display::fresh(theirs.bits(), Floats::With);
    for (register, word) in (0..).zip(words.0) {
        assert_eq!(display.write(register, word), DONE);
    }
    for _ in 0..theirs.frame_number() {
        assert_eq!(display.start(), DONE);
    }
    // What the output held does not count, so ours does not begin as the example's zeros do.
    let mut out = vec![0xA5; words.output_len() as usize];
    let pictures = left("pictures.bin");
    let pictures = Pictures::of_bytes(&pictures);
    assert_eq!(display.frame(&left("tables.bin"), pictures, &mut out), DONE);
    (display, out)
}

#[test]
fn the_lines_are_our_frame() {
    let (display, ours) = made_here();
    assert!(state_bytes(&display)[..] == left("state.bin"), "the lines leave another state");
    let (theirs, a_line) = (left("output.bin"), 4 * display.width() as usize);
    assert_eq!(theirs.len(), ours.len());
    for (y, (theirs, ours)) in theirs.chunks(a_line).zip(ours.chunks(a_line)).enumerate() {
        assert!(theirs == ours, "line {y} is not that of our frame");
    }
}

#[test]
fn the_picture_is_our_frame() {
    let (display, ours) = made_here();
    let mut painted = format!("P6\n{} {}\n255\n", display.width(), display.height()).into_bytes();
    painted.extend(ours.chunks(4).flat_map(|pixel| &pixel[..3]));
    assert!(left("hall.ppm") == painted, "the lines that are sent are another picture");
    let is_same = picture("hall.png") == painted;
    assert!(is_same, "`tools/hall PREFIX examples/hall.png` makes another picture");
}
