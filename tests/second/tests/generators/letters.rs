//! What the cases reach of glyphs of one bit a pixel and of two (02 K2): values that are painted,
//! tables of the other length, and displays by any number.

use second::draw::{Instruction, Letters, List};
use second::paint::pixels;
use second::tables::{Bits, Kind, Tables, COLOURS};
use second::words::Words;
use std::collections::BTreeSet;
use std::ops::Range;

pub fn bits_name(bits: Bits) -> &'static str {
    match bits {
        Bits::One => "one bit",
        Bits::Two => "two bits",
    }
}

/// What is seen on those lines of the glyphs of a graphics layer, by names: each value at each
/// scale, and where a sum of text colour and value passes 15.
pub fn text_kinds(
    words: &Words,
    n: usize,
    lines: &Range<i64>,
    frame: u32,
    tables: Tables,
) -> BTreeSet<String> {
    let layer = words.layer(n);
    let list = List::read(tables.active(words, Kind::Instruction, n));
    let letters = Letters::active(words, n, tables);
    let colours = tables.active(words, Kind::Colour, n);
    let alpha = |index: usize| match layer.global_alpha {
        true => layer.fade.at(frame),
        false => colours[4 * (index % COLOURS) + 3].into(),
    };
    let mut kinds = BTreeSet::new();
    for (u, v) in pixels(words, n, lines) {
        for (text, value) in values_at(&list, &letters, u, v) {
            let sum = (text.text_colour + value).saturating_sub(1);
            if value > 0 && alpha(sum) == 0 {
                continue;
            }
            kinds.insert(value_name(tables.bits, value, text.scale));
            kinds.extend((sum >= COLOURS).then(|| wrap_name(text.text_colour, value)));
        }
    }
    kinds
}

/// The values that count at a pixel, with their instructions: the last that is not 0, and every 0
/// that leaves what is there. A box takes them away.
fn values_at<'a>(
    list: &'a List,
    letters: &Letters,
    u: i64,
    v: i64,
) -> Vec<(&'a Instruction, usize)> {
    let mut values = Vec::new();
    for instruction in &list.instructions {
        if instruction.has_box() && instruction.box_draws(u, v) {
            values.clear();
        }
        if !instruction.has_text() {
            continue;
        }
        if let Some(value) = instruction.text_value(letters, u, v) {
            values.retain(|_| value == 0);
            values.push((instruction, value));
        }
    }
    values
}

fn value_name(bits: Bits, value: usize, scale: i64) -> String {
    format!("{}, value {value} at scale {scale}", bits_name(bits))
}

fn wrap_name(colour: usize, value: usize) -> String {
    format!("text colour {colour} and value {value} pass 15")
}

/// Every value at every scale.
pub fn value_names(bits: Bits) -> Vec<String> {
    let values = 0..1 << bits.number();
    values.flat_map(|value| [1, 2, 4, 8].map(|scale| value_name(bits, value, scale))).collect()
}

/// The same with either number of bits, and every sum that passes 15.
pub fn text_names() -> Vec<String> {
    let values = Bits::ALL.into_iter().flat_map(value_names);
    let wraps = [(14, 3), (15, 2), (15, 3)].map(|(colour, value)| wrap_name(colour, value));
    values.chain(wraps).collect()
}

/// A call with tables of the other number of bits than its state's.
pub fn others_name(call: &str, bits: Bits) -> String {
    format!("{call} answers 6, tables of {} on {}", bits_name(bits.other()), bits_name(bits))
}

pub fn others_names(calls: &[&str]) -> Vec<String> {
    calls.iter().flat_map(|call| Bits::ALL.map(|bits| others_name(call, bits))).collect()
}

/// A display that is made by a number where there was one of so many bits.
pub fn made_name(number: u32, before: Bits) -> String {
    let number = if number > 3 { "more".into() } else { number.to_string() };
    format!("made by {number} on {}", bits_name(before))
}

pub fn made_names() -> Vec<String> {
    (0..=4).flat_map(|number| Bits::ALL.map(|bits| made_name(number, bits))).collect()
}
