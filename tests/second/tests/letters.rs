//! The example of softer letters (02 K2) beside this display: the calls of `examples/letters.c` are
//! made here too, and `examples/letters.png` has to show its two frames.
//!
//!   SPOONWING_LETTERS   the folder that `tools/letters` leaves, ../../target/letters unless set

use second::answers::DONE;
use second::beside::{picture, program};
use second::cases::write_bytes;
use second::display::Display;
use second::draw::{Letters, List};
use second::floats::Floats;
use second::host::image_words;
use second::paint::Pictures;
use second::state::state_bytes;
use second::tables::{Bank, Bits, Kind, Tables};
use second::words::{Words, WORDS};
use std::collections::BTreeSet;
use std::fs;

/// The bytes of a file that `tools/letters` leaves of the display with so many bits.
fn left(name: &str, bits: Bits) -> Vec<u8> {
    let name = format!("{name}-{}.bin", bits.number());
    let path = program("SPOONWING_LETTERS", "../../target/letters").join(name);
    fs::read(&path).unwrap_or_else(|error| panic!("{} is not read: {error}", path.display()))
}

fn image(bits: Bits) -> Words {
    image_words(&left("image", bits)).expect("it is whole")
}

/// The same calls, with the same tables and registers: the tables, the display and the frame.
fn made_here(bits: Bits) -> (Vec<u8>, Display, Vec<u8>) {
    let (answer, mut display) = Display::new(bits.number() as u32, Floats::With);
    assert_eq!(answer, DONE);
    let given = left("tables", bits);
    let given = Tables { bits, bytes: &given };
    let mut tables = vec![0; bits.tables_len()];
    for bank in Kind::ALL.map(|kind| Bank { g: 0, kind, b: 1 }) {
        assert_eq!(display.select(bank.selection()), DONE);
        assert_eq!(display.put_run(&mut tables, given.bank(bank)), (DONE, bank.kind.end(bits)));
    }
    let run = write_bytes((0..).zip(image(bits).0));
    assert_eq!(display.write_run(&run), (DONE, WORDS));
    assert_eq!(display.start(), DONE);
    // What the output held does not count, so ours does not begin as the example's zeros do.
    let mut out = vec![0xA5; image(bits).output_len() as usize];
    assert_eq!(display.frame(&tables, Pictures::of_bytes(&[]), &mut out), DONE);
    (tables, display, out)
}

#[test]
fn the_letters_are_ours() {
    for bits in Bits::ALL {
        let (tables, display, ours) = made_here(bits);
        assert!(tables == left("tables", bits), "{bits:?}: it loads other tables");
        assert!(
            state_bytes(&display)[..] == left("state", bits),
            "{bits:?}: it leaves another state"
        );
        let theirs = left("output", bits);
        assert_eq!(theirs.len(), ours.len());
        if let Some(at) = (0..ours.len()).find(|&at| theirs[at] != ours[at]) {
            panic!("{bits:?}: byte {at} is {}, and {} with us", theirs[at], ours[at]);
        }
    }
}

/// The colours of a frame where a glyph of layer 0 lies.
fn text_colours(bits: Bits) -> BTreeSet<[u8; 3]> {
    let (words, tables, frame) = (image(bits), left("tables", bits), left("output", bits));
    let tables = Tables { bits, bytes: &tables };
    let list = List::read(tables.active(&words, Kind::Instruction, 0));
    let letters = Letters::active(&words, 0, tables);
    let layer = words.layer(0);
    let is_text = |&(u, v): &(i64, i64)| {
        let texts = list.instructions.iter().filter(|instruction| instruction.has_text());
        texts.map(|text| text.text_value(&letters, u, v)).any(|value| value.is_some())
    };
    let colour = |(u, v): (i64, i64)| {
        let at = 4 * (words.width() * (layer.y + v) + layer.x + u) as usize;
        [frame[at], frame[at + 1], frame[at + 2]]
    };
    let pixels = (0..layer.height).flat_map(|v| (0..layer.width).map(move |u| (u, v)));
    pixels.filter(is_text).map(colour).collect()
}

/// Two bits show more than one does: what lies under the letters, and three colours.
#[test]
fn two_bits_are_softer() {
    assert!(left("output", Bits::One) != left("output", Bits::Two));
    let [one, two] = Bits::ALL.map(|bits| text_colours(bits).len());
    assert!(two > 3 && two > one, "{one} colours with one bit, {two} with two");
}

/// One bit stands left of two.
#[test]
fn the_picture_is_both_frames() {
    let [one, two] = Bits::ALL.map(image);
    assert_eq!(one.height(), two.height());
    let mut both =
        format!("P6\n{} {}\n255\n", one.width() + two.width(), one.height()).into_bytes();
    let frames = Bits::ALL.map(|bits| left("output", bits));
    for y in 0..one.height() as usize {
        for (words, frame) in [&one, &two].into_iter().zip(&frames) {
            let line = frame.chunks(4 * words.width() as usize).nth(y).expect("it has the height");
            both.extend(line.chunks(4).flat_map(|pixel| &pixel[..3]));
        }
    }
    let is_same = picture("letters.png") == both;
    assert!(is_same, "`tools/letters PREFIX examples/letters.png` makes another picture");
}
