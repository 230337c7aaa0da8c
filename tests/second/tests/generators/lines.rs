//! What the line calls (02 K3) reach in the rows of calls from C and in the scripts.

use crate::floats::{self, float_kinds, Painted};
use crate::letters::{text_kinds, text_names};
use crate::{assert_came, fade_kinds, Counts, FADES};
use second::answers::*;
use second::display::Display;
use second::draw::List;
use second::tables::Kind;
use std::cmp::Ordering;

/// A line call: what it is lent, and what it leaves.
pub struct LineCall<'a> {
    pub before: &'a Display,
    pub y: u32,
    pub tables: &'a [u8],
    /// How many bytes.
    pub pictures: usize,
    pub floats: &'a [u32],
    pub old: &'a [u8],
    pub answer: u32,
    /// The error word.
    pub errors: u32,
}

/// What a line call does, by names behind that of the call.
pub fn line_kinds(name: &str, line: &LineCall) -> Vec<String> {
    let mut kinds = match line.answer {
        DONE => painted_kinds(line),
        _ => refused_kinds(line),
    };
    if line.before.active().output_len() > 0 {
        kinds.push(format!("at {}", place_name(line.y, line.before.height())));
    }
    kinds.into_iter().map(|kind| format!("{name} {kind}")).collect()
}

fn place_name(y: u32, height: i64) -> &'static str {
    match i64::from(y) - height {
        0 => "the height",
        1 => "the height and 1",
        past if past > 0 && y == u32::MAX => "2^32 - 1",
        past if past > 0 => "a number far past the height",
        _ if y == 0 => "the first line",
        -1 => "the last line",
        _ => "a line amid",
    }
}

/// What a line call can be refused with.
const REFUSALS: [u32; 6] =
    [WRONG_TABLES, NOTHING_ACTIVE, WRONG_OUTPUT, WRONG_PICTURES, WRONG_FLOATS, WRONG_BAND];

fn is_due(line: &LineCall, answer: u32) -> bool {
    let active = line.before.active();
    match answer {
        WRONG_TABLES => !line.before.tables(line.tables).are_whole(),
        NOTHING_ACTIVE => active.output_len() == 0,
        WRONG_OUTPUT => line.old.len() as i64 != active.line_len(),
        WRONG_PICTURES => line.pictures as i64 != active.pictures_len(),
        WRONG_FLOATS => line.floats.len() as i64 != active.floats_len(),
        _ => i64::from(line.y) >= active.height(),
    }
}

/// Every two refusals that are due at once, and how a length is wrong.
fn refused_kinds(line: &LineCall) -> Vec<String> {
    let active = line.before.active();
    let due: Vec<u32> = REFUSALS.into_iter().filter(|&answer| is_due(line, answer)).collect();
    let mut kinds = pair_names(&due);
    let [out, pictures] = [line.old.len() as i64, line.pictures as i64];
    match line.answer {
        WRONG_OUTPUT => kinds.push(length_name(out, active.line_len())),
        WRONG_PICTURES if pictures > active.pictures_len() => kinds.push(LONG_PICTURES.into()),
        WRONG_PICTURES => kinds.push(SHORT_PICTURES.into()),
        WRONG_FLOATS => {
            let right = active.floats_len() as usize;
            kinds.push(format!("with {}", floats::length_name(line.floats.len(), right)));
        }
        _ => {}
    }
    let is_frame = line.answer == WRONG_OUTPUT && out == active.output_len();
    kinds.extend(is_frame.then(|| FRAME_LENGTH.into()));
    kinds
}

fn pair_names(due: &[u32]) -> Vec<String> {
    let pairs = |i: usize| due[i + 1..].iter().map(move |other| (due[i], other));
    let name = |(one, other)| format!("where {one} and {other} are due");
    (0..due.len()).flat_map(pairs).map(name).collect()
}

fn length_name(length: i64, right: i64) -> String {
    let more = |bytes: i64| if bytes < 0 { "short" } else { "long" };
    match length - right {
        _ if length == 0 => "with no bytes".into(),
        bytes @ (-1 | 1) => format!("with a byte too {}", more(bytes)),
        bytes @ (-4 | 4) => format!("with a pixel too {}", more(bytes)),
        _ => "with another wrong length".into(),
    }
}

/// What a line lies over, what of it is seen, and the bits that it sets.
fn painted_kinds(line: &LineCall) -> Vec<String> {
    let (active, tables) = (line.before.active(), line.before.tables(line.tables));
    let is_drawn = |n: usize| active.layer(n).graphics;
    let has_end = |n: usize| List::read(tables.active(active, Kind::Instruction, n)).ended;
    let no_end = active.order().into_iter().any(|n| is_drawn(n) && !has_end(n));
    let (on, off): (Vec<usize>, Vec<usize>) =
        active.order().into_iter().partition(|&n| active.layer(n).is_on(line.y.into()));
    let set = line.errors & !line.before.errors();
    let sets = |layers: &[usize]| layers.iter().any(|n| set >> (4 * n) & 1 == 1);
    let is_dark = !active.display_on();
    let so = [
        ("with the display off", is_dark),
        ("with the display off and no END", is_dark && no_end),
        ("with no layer on it", !is_dark && on.is_empty() && !off.is_empty()),
        ("sets the bit of a layer on it", sets(&on)),
        ("sets the bit of a layer off it", sets(&off)),
        ("over a dirty buffer", line.old.chunks(4).any(|pixel| pixel[3] != 255)),
        ("of an odd width", active.width() % 2 == 1),
    ];
    let so = so.into_iter().filter(|(_, is_so)| *is_so).map(|(kind, _)| kind.into());
    let seen = on.into_iter().filter(|_| !is_dark).flat_map(|n| layer_kinds(line, n));
    let y = i64::from(line.y);
    let painted = Painted { words: active, floats: line.floats, band: 0..8, lines: y..y + 1 };
    seen.chain(so).chain(float_kinds(&painted)).collect()
}

/// What is seen of a layer on the line: its fade and its glyphs.
fn layer_kinds(line: &LineCall, n: usize) -> Vec<String> {
    let (active, frame) = (line.before.active(), line.before.frame_number());
    let (layer, y) = (active.layer(n), i64::from(line.y));
    let mut kinds = fade_kinds(&layer, frame);
    if layer.graphics {
        let tables = line.before.tables(line.tables);
        kinds.extend(text_kinds(active, n, &(y..y + 1), frame, tables));
    }
    kinds
}

/// Where lines lie, right and wrong ones.
const PLACES: [&str; 7] = [
    "at the first line",
    "at a line amid",
    "at the last line",
    "at the height",
    "at the height and 1",
    "at a number far past the height",
    "at 2^32 - 1",
];

/// What lines do that are painted.
const PAINTED: [&str; 7] = [
    "with the display off",
    "with the display off and no END",
    "with no layer on it",
    "sets the bit of a layer on it",
    "sets the bit of a layer off it",
    "over a dirty buffer",
    "of an odd width",
];

const FRAME_LENGTH: &str = "with as many bytes as a frame has";
const LONG_PICTURES: &str = "with pictures too long";
const SHORT_PICTURES: &str = "with pictures too short";
const LENGTHS: [&str; 8] = [
    "with no bytes",
    "with a byte too short",
    "with a byte too long",
    "with a pixel too short",
    "with a pixel too long",
    FRAME_LENGTH,
    LONG_PICTURES,
    SHORT_PICTURES,
];

/// Where a line lies by the one that was painted before it.
pub fn order_name(last: u32, y: u32) -> &'static str {
    match y.cmp(&last) {
        Ordering::Less => "above the last one",
        Ordering::Equal => "the same again",
        Ordering::Greater => "below the last one",
    }
}

/// Every answer, place and kind of a painted line, of the calls of that name.
pub fn line_names(name: &str) -> Vec<String> {
    let answers = REFUSALS.into_iter().chain([DONE]).map(|answer| format!("answers {answer}"));
    let kinds = PLACES.into_iter().chain(PAINTED).map(String::from).chain(answers);
    kinds.map(|kind| format!("{name} {kind}")).collect()
}

/// The lines of rows: all of that, every wrong length, every two refusals at once, any order, and
/// what else is seen.
pub fn assert_lines(counts: &Counts) {
    let orders = [(1, 0), (0, 0), (0, 1)].map(|(last, y)| order_name(last, y));
    let wrong = LENGTHS.into_iter().chain(orders).map(String::from).chain(pair_names(&REFUSALS));
    let seen = FADES.into_iter().map(String::from).chain(text_names());
    let seen = seen.chain(floats::float_names());
    assert_came(counts, line_names("Line"), 15);
    assert_came(counts, wrong.map(|kind| format!("Line {kind}")), 15);
    assert_came(counts, seen.map(|kind| format!("Line {kind}")), 5);
}
