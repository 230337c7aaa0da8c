//! 01 "Bench figures", starred and unstarred, the worked sheet line, 01 "Errors we have met in such
//! displays", and the numbers of 02 K2 and K7.

use second::answers::*;
use second::display::Display;
use second::draw::{Letters, List};
use second::fade::Fade;
use second::floats::{byte_of, Floats};
use second::host::host_frame;
use second::paint::{blend, Pictures};
use second::sheet::print_sheet;
use second::state::{read_state, state_bytes, PROFILE_AT};
use second::tables::{Bank, Bits, Kind};
use second::words::{layer_word, FLOAT_BIT, GRAPHICS_BIT, KIND_BITS, LAYERS};

/// "Blend (a, over, under)"
#[test]
fn blend_figures() {
    let figures = [
        (128, 255, 0, 128),
        (127, 255, 0, 127),
        (128, 1, 0, 1),
        (127, 1, 0, 0),
        (85, 200, 100, 133),
        (1, 0, 255, 254),
        (0, 9, 77, 77),
        (255, 9, 77, 9),
    ];
    for (a, over, under, blended) in figures {
        assert_eq!(blend(a, over, under), blended, "({a},{over},{under})");
    }
}

/// "Fade 0 to 255, start 100, length 4", "Start 4294967294, frame 0: 128", "255 to 0, length 3, e
/// 1: 170", and e at 2^31.
#[test]
fn fade_figures() {
    let up = Fade { value: 0, target: 255, start: 100, length: 4 };
    for (frame, value) in [(99, 0), (101, 64), (102, 128), (103, 191), (104, 255)] {
        assert_eq!(up.at(frame), value, "frame {frame}");
    }
    assert_eq!(Fade { start: 4_294_967_294, ..up }.at(0), 128);
    let down = Fade { value: 255, target: 0, start: 0, length: 3 };
    assert_eq!(down.at(1), 170);
    assert_eq!(up.at(100 + 2_147_483_647), 255, "e 2147483647 gives the target");
    assert_eq!(up.at(100 + 2_147_483_648), 0, "e 2147483648 the word's value");
}

/// "Box 2..5 by 1..3, weight 1: (3,2) left, (2,2) drawn, (6,3) left. Weight 2: (3,2) drawn."
#[test]
fn box_figures() {
    for (weight, u, v, drawn) in
        [(1, 3, 2, false), (1, 2, 2, true), (1, 6, 3, false), (2, 3, 2, true)]
    {
        let words: [u32; 4] = [10 << 28 | 5 << 12 | 2, 0, weight << 24 | 3 << 12 | 1, 7];
        let mut bank: Vec<u8> = words.into_iter().flat_map(u32::to_le_bytes).collect();
        bank.resize(768, 0);
        let letters = Letters { strings: &[0; 256], font: &[0; 768], bits: Bits::One };
        let index = List::read(&bank).index_at(&letters, u, v);
        assert_eq!(index, if drawn { 7 } else { 0 }, "weight {weight} at ({u},{v})");
    }
}

/// A display with a screen of that size whose update bit and display bit are pending.
fn display(width: u32, height: u32) -> Display {
    let mut display = Display::fresh(Bits::One, Floats::With);
    display.write(0, 0b101);
    display.write(1, width | height << 16);
    display
}

/// A frame layer with a picture of bytes.
const PICTURE: u32 = 0;

static TABLES: [u8; Bits::One.tables_len()] = [0; Bits::One.tables_len()];

/// Makes an enabled layer pending.
fn write_layer(
    display: &mut Display,
    n: usize,
    kind: u32,
    depth: u32,
    at: (u32, u32),
    size: (u32, u32),
) {
    let first = layer_word(n) as u32;
    display.write(first, 1 | kind | depth << 8);
    display.write(first + 2, at.0 | at.1 << 16);
    display.write(first + 3, size.0 | size.1 << 16);
}

/// "Output width 1920: x 1900 with width 20 passes, 21 answers 10."
#[test]
fn edge_figures() {
    for (width, answer) in [(20, DONE), (21, LAYER_OUTSIDE)] {
        let mut display = display(1920, 1080);
        write_layer(&mut display, 0, GRAPHICS_BIT, 0, (1900, 0), (width, 1));
        assert_eq!(display.start(), answer, "width {width}");
    }
}

/// "Frame layers 3×2 and 1×1: 28 picture bytes; 27 and 29 answer 14."
#[test]
fn picture_figures() {
    for (length, answer) in [(28, DONE), (27, WRONG_PICTURES), (29, WRONG_PICTURES)] {
        let mut display = display(4, 4);
        write_layer(&mut display, 2, PICTURE, 0, (0, 0), (3, 2));
        write_layer(&mut display, 5, PICTURE, 1, (3, 3), (1, 1));
        assert_eq!(display.start(), DONE);
        let pictures = vec![0; length];
        let pictures = Pictures::of_bytes(&pictures);
        assert_eq!(display.frame(&TABLES, pictures, &mut [0; 64]), answer, "{length} bytes");
    }
}

/// "Error word 11 hex, toggle 10 hex: 01; again: 11." It also tells a toggle from "and not", an
/// error met before.
#[test]
fn toggle_figures() {
    let mut display = Display::fresh(Bits::One, Floats::With);
    display.toggle(0x11);
    display.toggle(0x10);
    assert_eq!(display.errors(), 0x01);
    display.toggle(0x10);
    assert_eq!(display.errors(), 0x11);
}

/// "Input `00030000000005010001000202003020100000` prints `000000000000020001102030FF102030FF`."
#[test]
fn worked_line() {
    let input = b"00030000000005010001000202003020100000";
    assert_eq!(print_sheet(input), b"000000000000020001102030FF102030FF\n");
}

/// "Dividing by 256: white at alpha 255 then comes out as 254."
#[test]
fn white_stays_white() {
    assert_eq!(blend(255, 255, 0), 255);
}

/// "Stopping the frame number on a refused start."
#[test]
fn refused_start_steps() {
    let mut display = display(0, 1);
    assert_eq!(display.start(), NO_OUTPUT);
    assert_eq!(display.frame_number(), 1);
}

/// "Taking layer number for depth." and "Blending all layers' colours first and the background
/// last.": the lower layer number lies on top, and half of a half over a background is rounded at
/// each layer.
#[test]
fn depth_and_order() {
    let mut display = display(1, 1);
    display.write(2, 200);
    write_layer(&mut display, 0, PICTURE, 7, (0, 0), (1, 1));
    write_layer(&mut display, 1, PICTURE, 0, (0, 0), (1, 1));
    assert_eq!(display.start(), DONE);
    let mut out = [0; 4];
    // Layer 0 is 9, half seen; layer 1 is 101, half seen.
    let pictures = Pictures::of_bytes(&[9, 0, 0, 128, 101, 0, 0, 128]);
    assert_eq!(display.frame(&TABLES, pictures, &mut out), DONE);
    let lower = (128 * 101 + 127 * 200 + 127) / 255;
    assert_eq!(out, [((128 * 9 + 127 * lower + 127) / 255) as u8, 0, 0, 255]);
}

// ---- 02 K2

/// "A font bank grows to 1,536 bytes, a bank to 2,624, the tables to 41,984." Each is all that it
/// is made of, with one bit too, and no kind but the font has another end.
#[test]
fn lengths_of_the_tables() {
    let lengths = [(Bits::One, 768, 1_856, 29_696), (Bits::Two, 1_536, 2_624, 41_984)];
    for (bits, font, bank, tables) in lengths {
        assert_eq!(Kind::ALL.map(|kind| kind.end(bits)), [768, 64, 256, font]);
        assert_eq!(Kind::ALL.map(|kind| kind.end(bits)).iter().sum::<usize>(), bank);
        assert_eq!(16 * bank, tables);
        assert_eq!(bits.tables_len(), tables);
        let mut starts: Vec<(usize, usize)> = Kind::ALL
            .into_iter()
            .flat_map(Bank::all)
            .map(|bank| (bank.start(bits), bank.kind.end(bits)))
            .collect();
        starts.sort();
        for pair in starts.windows(2) {
            assert_eq!(pair[0].0 + pair[0].1, pair[1].0, "they lie without gaps");
        }
    }
}

/// "0 leaves the pixel, 1 to 3 give text colour plus value minus one, modulo 16. A glyph line is
/// two bytes, leftmost pixel in the top two bits of the first."
#[test]
fn values_of_a_glyph() {
    // Line 3 of glyph 65: 0, 1, 2, 3, 3, 0, 1, 2.
    let mut font = [0; 1_536];
    font[16 * (65 - 32) + 2 * 3..][..2].copy_from_slice(&[0b00_01_10_11, 0b11_00_01_10]);
    let mut strings = [0; 256];
    strings[0] = 65;
    let letters = Letters { strings: &strings, font: &font, bits: Bits::Two };
    // A box in colour 9 under the text, so that a 0 is seen to leave it.
    let indexes = [
        (2, [9, 2, 3, 4, 4, 9, 2, 3]),
        (14, [9, 14, 15, 0, 0, 9, 14, 15]),
        (15, [9, 15, 0, 1, 1, 9, 15, 0]),
        (0xFE, [9, 14, 15, 0, 0, 9, 14, 15]),
    ];
    for (colour, line) in indexes {
        for (number, scale) in [(0, 1), (1, 2), (2, 4), (3, 8)] {
            let end = 63;
            let words = [14 << 28 | end << 12, 0, number << 30 | end << 12, colour << 8 | 9];
            let mut bank: Vec<u8> = words.into_iter().flat_map(u32::to_le_bytes).collect();
            bank.resize(768, 0);
            let list = List::read(&bank);
            let at = |u: i64| list.index_at(&letters, u, 3 * scale + scale - 1);
            let drawn: Vec<usize> = (0..8 * scale).map(at).collect();
            let wide = line.into_iter().flat_map(|index| vec![index; scale as usize]);
            assert_eq!(drawn, wide.collect::<Vec<usize>>(), "colour {colour} at scale {scale}");
        }
    }
}

/// "17 for a bit number other than 1 or 2 when making a state, handing back a fresh one-bit state".
#[test]
fn bits_of_a_state() {
    for floats in [Floats::With, Floats::Without] {
        for bits in Bits::ALL {
            let fresh = Display::fresh(bits, floats);
            assert_eq!((fresh.bits(), fresh.floats()), (bits, floats));
            assert_eq!(Display::new(bits.number() as u32, floats), (DONE, fresh));
        }
        for wrong in [0, 3, 4, 0x101, 0x102, 1 << 31, u32::MAX] {
            let fresh = Display::fresh(Bits::One, floats);
            assert_eq!(Display::new(wrong, floats), (WRONG_BITS, fresh));
        }
    }
}

// ---- 02 K7

/// "A value that is not a number, or is at most 0, becomes 0; at least 1 becomes 255; any other
/// becomes the whole number nearest to 255 times its exact value, halves upward, so 0.5 gives 128."
#[test]
fn bytes_of_floats() {
    let figures = [
        (0.5, 128),
        (0.0, 0),
        (-0.0, 0),
        (-0.5, 0),
        (-1.0, 0),
        (f32::NEG_INFINITY, 0),
        (f32::MIN_POSITIVE, 0),
        // 255 times these: 63.75, 191.25, 0.498.., 0.996.., 254.003.., 254.498.., 254.999..
        (0.25, 64),
        (0.75, 191),
        (1.0 / 512.0, 0),
        (1.0 / 256.0, 1),
        (255.0 / 256.0, 254),
        (511.0 / 512.0, 255),
        (0.999_999_94, 255),
        (1.0, 255),
        (1.5, 255),
        (f32::MAX, 255),
        (f32::INFINITY, 255),
    ];
    for (value, byte) in figures {
        assert_eq!(byte_of(f32::to_bits(value)), byte, "{value:?}");
    }
    for none in [0x7F80_0001, 0x7FC0_0000, 0x7FFF_FFFF, 0xFF80_0001, 0xFFC0_0000, u32::MAX] {
        assert_eq!(byte_of(none), 0, "{none:08X}");
    }
}

/// `include/spoonwing.h`, "storing a state": bit 0 at 436 for two bits, bit 1 where float layers are
/// not let in, and no other counts.
#[test]
fn profile_of_a_state() {
    let profiles = [
        (Bits::One, Floats::With, 0),
        (Bits::Two, Floats::With, 1),
        (Bits::One, Floats::Without, 2),
        (Bits::Two, Floats::Without, 3),
    ];
    for (bits, floats, profile) in profiles {
        let display = Display::fresh(bits, floats);
        let mut bytes = state_bytes(&display);
        assert_eq!(bytes[PROFILE_AT..], [profile, 0, 0, 0]);
        bytes[PROFILE_AT..].copy_from_slice(&[0xFC | profile, 0xFF, 0xFF, 0xFF]);
        assert_eq!(read_state(&bytes), Some(display));
    }
}

/// A float layer of 3 by 2 pixels between pictures of 1 by 1 and of 1 by 2: 24 numbers and 12
/// bytes.
fn float_display() -> Display {
    let mut display = display(4, 4);
    write_layer(&mut display, 2, PICTURE, 0, (0, 0), (1, 1));
    write_layer(&mut display, 3, FLOAT_BIT, 5, (1, 1), (3, 2));
    write_layer(&mut display, 6, PICTURE, 3, (0, 2), (1, 2));
    assert_eq!(display.start(), DONE);
    display
}

/// "18 for a float buffer of the wrong total length, after 14", which counts numbers.
#[test]
fn lengths_of_floats() {
    let cases = [
        (12, 24, DONE),
        (12, 23, WRONG_FLOATS),
        (12, 25, WRONG_FLOATS),
        (12, 0, WRONG_FLOATS),
        (12, 96, WRONG_FLOATS),
        (12, 6, WRONG_FLOATS),
        (11, 23, WRONG_PICTURES),
        (36, 24, WRONG_PICTURES),
    ];
    for (bytes, floats, answer) in cases {
        let mut display = float_display();
        let (bytes, floats) = (vec![7; bytes], vec![0; floats]);
        let pictures = Pictures { bytes: &bytes, floats: &floats };
        let before = display.clone();
        let [mut frame, mut line] = [vec![9; 64], vec![9; 16]];
        assert_eq!(display.paint(3, 3, &TABLES, pictures, &mut frame), answer);
        assert_eq!(display.frame(&TABLES, pictures, &mut frame), answer);
        assert_eq!(display.line(2, &TABLES, pictures, &mut line), answer);
        if answer != DONE {
            assert!(frame == [9; 64] && line == [9; 16] && display == before, "all unchanged");
        }
    }
}

/// "four values, red, green, blue and alpha", and "Byte pictures skip such layers."
#[test]
fn a_float_layer_is_painted_by_its_bytes() {
    let mut display = float_display();
    let bytes = [10, 11, 12, 255, 20, 21, 22, 255, 30, 31, 32, 255];
    let mut values = [0.0_f32; 24];
    // The pixel at (3, 1) of the screen, opaque, and the one at (1, 2), half seen.
    values[8..12].copy_from_slice(&[0.25, 0.5, 0.75, 1.0]);
    values[12..16].copy_from_slice(&[1.0, 1.0, 0.0, 0.5]);
    let floats = values.map(f32::to_bits);
    let mut out = [0; 64];
    let pictures = Pictures { bytes: &bytes, floats: &floats };
    assert_eq!(display.frame(&TABLES, pictures, &mut out), DONE);
    let mut expected = [[0, 0, 0, 255]; 16];
    expected[0] = [10, 11, 12, 255];
    expected[4 + 3] = [64, 128, 191, 255];
    expected[8] = [20, 21, 22, 255];
    expected[8 + 1] = [128, 128, 0, 255];
    expected[12] = [30, 31, 32, 255];
    assert_eq!(out[..], expected.concat()[..]);
}

/// "7 now for bits 1 and 2 together but no longer for bit 2 alone, save in the host entry and the
/// sheet program", whether the layer is on or off.
#[test]
fn kinds_of_a_layer() {
    for (n, on) in (0..LAYERS).flat_map(|n| [(n, 0), (n, 1)]) {
        let answers = [
            (0, [DONE; 2]),
            (GRAPHICS_BIT, [DONE; 2]),
            (FLOAT_BIT, [DONE, RESERVED_BIT]),
            (KIND_BITS, [RESERVED_BIT; 2]),
        ];
        for (kind, answers) in answers {
            let mut display = display(1, 1);
            write_layer(&mut display, n, kind, 0, (0, 0), (1, 1));
            display.write(layer_word(n) as u32, kind | on);
            let words = display.pending().clone();
            assert_eq!([Floats::With, Floats::Without].map(|floats| words.check(floats)), answers);
            assert_eq!(display.start(), answers[0]);
            let image: Vec<u8> = words.0.into_iter().flat_map(u32::to_le_bytes).collect();
            let pictures = vec![0; words.pictures_len() as usize];
            assert_eq!(host_frame(&image, 0, &TABLES, &pictures, &mut [0; 4]), answers[1]);
        }
    }
    // The screen of one pixel, and layer 0 as a float layer that is off; then as one that is none.
    let sheet = b"00030000000005010001000104000000040000\n000104000000000000\n";
    assert_eq!(print_sheet(sheet), b"07\n000000000000010001000000FF\n");
}
