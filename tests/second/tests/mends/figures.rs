//! Figures of mending that are worked out by hand from the request, on this display, on the call
//! from C and on the program. Each has its reason beside it.

use crate::{our_call, Call};
use second::answers::DONE;
use second::beside::{mended, Mends};
use second::cases::MendCase;
use second::mend::print_mended;
use second::words::{LAYERS, WORDS};

/// A register with its value before and after.
type Word = (usize, u32, u32);

/// A name, and the words that are not 0.
type Figure = (&'static str, Vec<Word>);

/// All eight have depth 3. Layer 0 has no lower one and keeps it. No layer had 0, 1, 2, 4, 5, 6 or
/// 7, so layers 1 to 7 get these in rising order.
fn one_depth() -> Figure {
    let depths = [3, 0, 1, 2, 4, 5, 6, 7];
    let layer =
        |n: usize| [(4 + 6 * n, 0x303, depths[n] << 8 | 3), (7 + 6 * n, 0x1_0001, 0x1_0001)];
    let screen = [(1, 0x4_0008, 0x4_0008)].into_iter();
    ("eight layers of depth 3", screen.chain((0..LAYERS).flat_map(layer)).collect())
}

/// Width and height stay 4,095, the most that twelve bits hold, so no layer is larger than the
/// screen; at 4,095 each sticks out, and with the whole screen's size it only fits at 0. All have
/// bit 1 and lose bit 2, so they are graphics layers, and depth 7: layer 0 keeps it, and 1 to 7 get
/// 0 to 6. Words 3 and 8 + 6n have no reserved bits.
fn all_bits() -> Figure {
    const ALL: u32 = u32::MAX;
    let layer = |n: usize| {
        let depth = [7, 0, 1, 2, 3, 4, 5, 6][n];
        let news = [depth << 8 | 3, 0x8000_00FF, 0, 0x0FFF_0FFF, ALL, 0x00FF_FFFF];
        (4 + 6 * n..).zip(news).map(|(register, new)| (register, ALL, new))
    };
    let front = [(0, ALL, 0b101), (1, ALL, 0x0FFF_0FFF), (2, ALL, 0x00FF_FFFF), (3, ALL, ALL)];
    ("all bits", front.into_iter().chain((0..LAYERS).flat_map(layer)).collect())
}

/// On a screen of 8 columns and 4 lines. Layer 0 has the words from 4 on, layer 1 from 10, layer 2
/// from 16, layer 3 from 22; y and height are in the upper half of their words.
const ON_EIGHT_BY_FOUR: [(&str, &[Word]); 13] = [
    // Layer 1 has layer 0's depth 0. 1 is layer 2's, so 2 is the smallest that none had.
    (
        "depths 0, 0 and 1",
        &[
            (4, 0x003, 0x003),
            (7, 0x1_0001, 0x1_0001),
            (10, 0x003, 0x203),
            (13, 0x1_0001, 0x1_0001),
            (16, 0x103, 0x103),
            (19, 0x1_0001, 0x1_0001),
        ],
    ),
    // Larger than the screen both ways: put at 0 and cut, across to 8 and down to 4.
    (
        "the largest list in the farthest corner",
        &[(4, 0x003, 0x003), (6, 0x0FFF_0FFF, 0), (7, 0x0FFF_0FFF, 0x4_0008)],
    ),
    // A picture is not cut. Its depth, place and size stay as they are.
    (
        "the largest picture in the farthest corner",
        &[(4, 0x501, 0x500), (6, 0x0FFF_0FFF, 0x0FFF_0FFF), (7, 0x0FFF_0FFF, 0x0FFF_0FFF)],
    ),
    // It is switched off before layers are moved, so it stays at 9, which is past the screen.
    ("no width at x 9", &[(4, 0x003, 0x002), (6, 0x9, 0x9), (7, 0x2_0000, 0x2_0000)]),
    // 6 + 3 is one more than 8, so x becomes 5. 2 + 2 is 4, so y stays.
    (
        "past the edge by one",
        &[(4, 0x001, 0x001), (6, 0x2_0006, 0x2_0005), (7, 0x2_0003, 0x2_0003)],
    ),
    // Across it is as large as the screen and moved by 1; down it is larger, by one, and cut.
    ("moved across and cut down", &[(4, 0x003, 0x003), (6, 0x3_0001, 0), (7, 0x5_0008, 0x4_0008)]),
    // A picture of the screen's size is not larger than the screen: it is moved.
    (
        "a picture of the screen's size",
        &[(4, 0x001, 0x001), (6, 0x1_0001, 0), (7, 0x4_0008, 0x4_0008)],
    ),
    // Layer 0 has no height and is off when depths are asked, so 0 is free. Layer 2 has layer 1's
    // depth 6 and gets the 0. Layer 3 is off, and its 6 is nobody's matter.
    (
        "the depth of a layer that is switched off",
        &[
            (4, 0x003, 0x002),
            (7, 0x1, 0x1),
            (10, 0x603, 0x603),
            (13, 0x1_0001, 0x1_0001),
            (16, 0x601, 0x001),
            (19, 0x1_0001, 0x1_0001),
            (22, 0x600, 0x600),
        ],
    ),
    // Bits 3 and 11 of a layer's first word, bit 12 of its width and bit 31 of its height are
    // reserved: without them it is a picture of depth 7 that has 8 by 4 pixels.
    ("reserved bits alone", &[(4, 0xF09, 0x701), (7, 0x8004_1008, 0x4_0008)]),
    // Bit 2 alone says that a picture is floats, and stays.
    ("a picture of floats", &[(4, 0x705, 0x705), (7, 0x4_0008, 0x4_0008), (10, 0x004, 0x004)]),
    // Beside bit 1 it goes, on and off. Layer 0 is a list then, and cut where a picture would go.
    (
        "bits 1 and 2",
        &[(4, 0x007, 0x003), (7, 0x5_0009, 0x4_0008), (10, 0x006, 0x002), (16, 0x406, 0x402)],
    ),
    // A float layer is a frame layer: too large, and it is switched off, with bit 2 kept; as large
    // as the screen, and it is moved.
    (
        "floats too wide, too high and at 1, 1",
        &[
            (4, 0x105, 0x104),
            (7, 0x4_0009, 0x4_0009),
            (10, 0x205, 0x204),
            (13, 0x5_0008, 0x5_0008),
            (16, 0x305, 0x305),
            (18, 0x1_0001, 0),
            (19, 0x4_0008, 0x4_0008),
        ],
    ),
    // Their depths are parted like others'.
    (
        "floats of depth 2, twice",
        &[(4, 0x205, 0x205), (7, 0x1_0001, 0x1_0001), (10, 0x205, 0x005), (13, 0x1_0001, 0x1_0001)],
    ),
];

fn figures() -> Vec<Figure> {
    let screen = [(1, 0x4_0008, 0x4_0008)];
    let others = ON_EIGHT_BY_FOUR.map(|(name, words)| (name, [&screen, words].concat()));
    [one_depth(), all_bits()].into_iter().chain(others).collect()
}

/// The image of the words, by their old values or by their new ones.
fn image(words: &[Word], value: fn(&Word) -> u32) -> Vec<u8> {
    let mut image = [0; WORDS];
    words.iter().for_each(|word| image[word.0] = value(word));
    image.into_iter().flat_map(u32::to_le_bytes).collect()
}

fn changed(words: &[Word]) -> impl Iterator<Item = &Word> {
    words.iter().filter(|(_, old, new)| old != new)
}

fn assert_call(call: Call) {
    for (name, words) in figures() {
        let case = MendCase::of_image(image(&words, |word| word.1));
        let (answer, is_touched, left) = call(&case).expect("the program goes on");
        let list: Vec<u32> = changed(&words).flat_map(|w| [w.0 as u32, w.1, w.2]).collect();
        assert_eq!((answer, is_touched), (DONE, false), "{name}");
        assert_eq!(left.image, image(&words, |word| word.2), "{name}");
        assert_eq!(left.count, list.len() as u64 / 3, "{name}");
        assert_eq!(left.list[..list.len()], list, "{name}");
        assert_eq!(left.list[list.len()..], case.lent.list[list.len()..], "{name}");
    }
}

fn assert_program(program: &dyn Fn(&[u8]) -> Vec<u8>) {
    let digits =
        |bytes: Vec<u8>| bytes.iter().map(|byte| format!("{byte:02X}")).collect::<String>();
    for (name, words) in figures() {
        let list: String =
            changed(&words).map(|w| format!("{:02X}{:08X}{:08X}", w.0, w.1, w.2)).collect();
        let printed = program(digits(image(&words, |word| word.1)).as_bytes());
        let expected = format!("00{}{list}\n", digits(image(&words, |word| word.2)));
        assert_eq!(String::from_utf8_lossy(&printed), expected, "{name}");
    }
}

#[test]
fn this_display_has_the_figures() {
    assert_call(&mut |case| Some(our_call(case)));
    assert_program(&print_mended);
}

#[test]
fn the_call_has_the_figures() {
    let mut mends = Mends::start();
    assert_call(&mut |case| mends.call(case));
}

#[test]
fn the_program_has_the_figures() {
    assert_program(&mended);
}
