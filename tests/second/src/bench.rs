//! 01 "Bench figures", starred and unstarred, as the figures program prints them: a name, and the
//! number that this display makes of it.

use crate::display::Display;
use crate::fade::Fade;
use crate::floats::Floats;
use crate::paint::{blend, Pictures};
use crate::tables::{Bank, Bits, Kind};

/// Two numbers at 11:0 and 27:16.
fn pair(low: u32, high: u32) -> u32 {
    low | high << 16
}

/// A screen of that size, with its display on.
fn screen(width: u32, height: u32) -> Display {
    let mut display = Display::fresh(Bits::One, Floats::Without);
    display.write(0, 0b101);
    display.write(1, pair(width, height));
    display
}

/// Channel 0 at (u, v) of a layer of 8 by 4 pixels with "Box 2..5 by 1..3" of that weight, drawn in
/// colour 7, whose channel 0 is 7.
fn box_at(weight: u32, u: usize, v: usize) -> u32 {
    let mut tables = [0; Bits::One.tables_len()];
    let mut out = [0; 4 * 8 * 4];
    let mut display = screen(8, 4);
    let list = [10 << 28 | 5 << 12 | 2, 0, weight << 24 | 3 << 12 | 1, 7];
    let colours = [0, 0, 0, 0, 0, 0, 0, u32::from_le_bytes([7, 0, 0, 255])];
    for (kind, words) in [(Kind::Instruction, &list[..]), (Kind::Colour, &colours[..])] {
        display.select(Bank { g: 0, kind, b: 1 }.selection());
        for byte in words.iter().flat_map(|word| word.to_le_bytes()) {
            display.put(&mut tables, byte);
        }
    }
    for (register, value) in [(3, 0x0101), (4, 0b11), (7, pair(8, 4))] {
        display.write(register, value);
    }
    display.start();
    display.frame(&tables, Pictures::of_bytes(&[]), &mut out);
    u32::from(out[4 * (8 * v + u)])
}

/// "Output width 1920: x 1900" with a layer of that width.
fn start_with_width(width: u32) -> u32 {
    let mut display = screen(1920, 1080);
    for (register, value) in [(4, 1), (6, 1900), (7, pair(width, 1))] {
        display.write(register, value);
    }
    display.start()
}

/// "Frame layers 3×2 and 1×1", painted with that many picture bytes.
fn paint_with(length: usize) -> u32 {
    let mut display = screen(4, 4);
    for (register, value) in [(4, 1), (7, pair(3, 2)), (10, 0x0101), (13, pair(1, 1))] {
        display.write(register, value);
    }
    display.start();
    let (tables, pictures) = ([0; Bits::One.tables_len()], vec![0; length]);
    display.paint(0, 8, &tables, Pictures::of_bytes(&pictures), &mut [0; 64])
}

/// A name and a number.
type Figure = (String, u32);

/// "Blend (a, over, under)"
fn blends() -> Vec<Figure> {
    let inputs = [
        (128, 255, 0),
        (127, 255, 0),
        (128, 1, 0),
        (127, 1, 0),
        (85, 200, 100),
        (1, 0, 255),
        (0, 9, 77),
        (255, 9, 77),
    ];
    let figure = |(a, over, under)| (format!("blend {a} {over} {under}"), blend(a, over, under));
    inputs.map(figure).to_vec()
}

/// "Fade 0 to 255, start 100, length 4" and the fades after it.
fn fades() -> Vec<Figure> {
    let up = Fade { value: 0, target: 255, start: 100, length: 4 };
    let down = Fade { value: 255, target: 0, start: 0, length: 3 };
    let mut figures =
        [99, 101, 102, 103, 104].map(|frame| (format!("fade at {frame}"), up.at(frame))).to_vec();
    figures.push(("fade over the wrap".into(), Fade { start: 4_294_967_294, ..up }.at(0)));
    figures.push(("fade of 3, e 1".into(), down.at(1)));
    for e in [2_147_483_647, 2_147_483_648] {
        figures.push((format!("fade at e {e}"), Fade { start: 0, ..up }.at(e)));
    }
    figures
}

/// "Box 2..5 by 1..3" and the figures after it.
fn calls() -> Vec<Figure> {
    let mut figures = Vec::new();
    for (weight, u, v) in [(1, 3, 2), (1, 2, 2), (1, 6, 3), (2, 3, 2)] {
        figures.push((format!("box weight {weight} at {u} {v}"), box_at(weight, u, v)));
    }
    for width in [20, 21] {
        figures.push((format!("x 1900, width {width}"), start_with_width(width)));
    }
    for length in [28, 27, 29] {
        figures.push((format!("{length} picture bytes"), paint_with(length)));
    }
    let mut display = Display::fresh(Bits::One, Floats::Without);
    for (name, bits) in [("error word", 0x11), ("toggled by 16", 0x10), ("and again", 0x10)] {
        display.toggle(bits);
        figures.push((name.into(), display.errors()));
    }
    figures
}

pub fn print_bench() -> String {
    let figures = [blends(), fades(), calls()].concat();
    figures.iter().map(|(name, number)| format!("{name}: {number}\n")).collect()
}
