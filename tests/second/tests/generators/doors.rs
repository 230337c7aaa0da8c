//! What the rows of calls from C reach.

use crate::floats::{self, assert_refused_kinds, float_fade_names, float_fades, float_kinds};
use crate::floats::{float_names, refused_kinds, Painted};
use crate::letters::{made_name, made_names, others_name, others_names, text_kinds, text_names};
use crate::lines::{assert_lines, line_kinds, order_name, LineCall};
use crate::runs::{assert_runs, run_kinds, Run};
use crate::{assert_came, count, show, Counts};
use second::answers::*;
use second::cases::{gen_row, ROWS};
use second::display::Display;
use second::doors::*;
use second::floats::{numbers_of, Floats};
use second::state::{read_state, PLACE_AT, PROFILE_AT, SELECTED_AT, SELECTION_AT, STATE_LEN};
use second::tables::Bank;
use second::words::{layer_word, Words, FLOAT_BIT, KIND_BITS, LAYERS};
use std::collections::BTreeSet;
use std::ops::Range;

/// Faults of active words, which no start lets in: that a layer is on with bits 1 and 2, and what
/// else there is.
fn damages(words: &Words) -> Vec<&'static str> {
    let mut others = words.clone();
    (0..LAYERS).filter(|&n| words.layer(n).graphics).for_each(|n| {
        others.0[layer_word(n)] &= !FLOAT_BIT;
    });
    let is_both =
        |n: usize| words.layer(n).enabled && words.0[layer_word(n)] & KIND_BITS == KIND_BITS;
    let both = (0..LAYERS).any(is_both).then_some("bits 1 and 2");
    let other = match others.check(Floats::With) {
        RESERVED_BIT => Some("reserved bits"),
        EMPTY_LAYER => Some("an empty layer"),
        LAYER_OUTSIDE => Some("a layer off the screen"),
        SAME_DEPTH => Some("layers of one depth"),
        _ => None,
    };
    both.into_iter().chain(other).collect()
}

/// What a call from C does, by names.
fn door_kinds(before: &[u8], step: &Step, told: &Told) -> Vec<String> {
    let Step::Call { door, a, lent, null, .. } = step else { return Vec::new() };
    let mut kinds = vec![format!("{door:?} answers {}", told.answer)];
    if door.is_read() {
        kinds = vec![format!("{door:?} of {}", if told.answer == 0 { "0" } else { "more" })];
    }
    for buffer in (0..BUFFERS).filter(|&buffer| door.takes(buffer)) {
        kinds.push(format!("{door:?} with buffer {buffer} past 16 by {}", lent[buffer].past));
        let is_null = *null && lent[buffer].length == 0;
        kinds.extend(is_null.then(|| format!("buffer {buffer} as NULL")));
    }
    if lent[STATE].length == STATE_LEN && !door.is_read() {
        let display = read_state(before).expect("it is whole");
        let bits = display.bits();
        kinds.extend(float_refusals(&display, *door, lent, told.answer));
        kinds.extend(state_kinds(&display, before, *door, told));
        kinds.extend((*door == Door::New).then(|| made_name(*a, bits)));
        let is_closed = display.floats() == Floats::Without;
        let is_let_in = is_closed && *door == Door::New;
        kinds.extend(is_let_in.then(|| "float layers let in again".into()));
        kinds.extend(is_closed.then(|| format!("closed, {door:?} answers {}", told.answer)));
        let others = bits.other().tables_len();
        let is_others = told.answer == WRONG_TABLES && lent[TABLES].length == others;
        kinds.extend(is_others.then(|| others_name(&format!("{door:?}"), bits)));
    }
    kinds
}

/// What a start refuses of the layers' kinds, and a band or a frame of floats.
fn float_refusals(
    display: &Display,
    door: Door,
    lent: &[Lent; BUFFERS],
    answer: u32,
) -> BTreeSet<String> {
    let [bytes, floats] = [PICTURES, FLOATS].map(|buffer| lent[buffer].length / unit(buffer));
    let words = display.active();
    let right = words.floats_len() as usize;
    let is_both = bytes as i64 != words.pictures_len() && floats != right;
    match answer {
        _ if door == Door::Line => BTreeSet::new(),
        RESERVED_BIT => refused_kinds(display.pending(), display.floats()),
        WRONG_FLOATS => [format!("{door:?} with {}", floats::length_name(floats, right))].into(),
        WRONG_PICTURES if is_both => [format!("{door:?} where 14 and 18 are due")].into(),
        _ => BTreeSet::new(),
    }
}

/// What a call that writes does on a state that no call may have left.
fn state_kinds(display: &Display, before: &[u8], door: Door, told: &Told) -> Vec<String> {
    let mut kinds = Vec::new();
    let is_done = told.answer == DONE;
    for damage in damages(display.active()) {
        kinds.extend((is_done && door.takes(OUTPUT)).then(|| format!("{door:?} over {damage}")));
        kinds.extend((!is_done).then(|| format!("damaged, {door:?} answers {}", told.answer)));
    }
    let [selected, selection, place, profile] = [SELECTED_AT, SELECTION_AT, PLACE_AT, PROFILE_AT]
        .map(|at| u32::from_le_bytes(before[at..at + 4].try_into().expect("a word")));
    let is_spelt_anew = [("selected above 1", selected > 1), ("profile above 3", profile > 3)];
    for (name, _) in is_spelt_anew.into_iter().filter(|(_, is_so)| *is_so) {
        kinds.push(format!("{name}, {door:?} answers {}", told.answer));
    }
    if matches!(door, Door::Put | Door::PutRun) {
        let end = Bank::of_selection(selection).kind.end(display.bits());
        let is_put = selection > 63 && !told.changes.is_empty();
        kinds.extend(is_put.then(|| format!("{door:?} by a selection above 63")));
        let is_past = place as usize > end;
        kinds.extend(is_past.then(|| format!("{door:?} past the end, {}", told.answer)));
    }
    kinds
}

/// The answers that each call from C can give.
const DOOR_ANSWERS: [(Door, &[u32]); 12] = [
    (Door::New, &[0, 17, 23]),
    (Door::Write, &[0, 1, 23]),
    (Door::Select, &[0, 2, 23]),
    (Door::Toggle, &[0, 23]),
    (Door::Start, &[0, 7, 8, 9, 10, 11, 23]),
    (Door::Put, &[0, 3, 4, 5, 6, 23]),
    (Door::Fill, &[0, 12, 13, 23]),
    (Door::Paint, &[0, 6, 12, 13, 14, 15, 18, 23]),
    (Door::Frame, &[0, 6, 12, 13, 14, 18, 23]),
    (Door::Line, &[0, 6, 12, 13, 14, 15, 18, 23]),
    (Door::PutRun, &[0, 3, 4, 5, 6, 23]),
    (Door::WriteRun, &[0, 1, 23]),
];

fn count_rows() -> Counts {
    let mut counts = Counts::new();
    (0..ROWS).map(gen_row).for_each(|row| count_row(row, &mut counts));
    counts
}

fn count_row(row: Vec<Step>, counts: &mut Counts) {
    let mut stage = Stage::new();
    // The line that the call before has painted.
    let mut last = None;
    for step in row {
        let Step::Call { door, a, lent, .. } = step else {
            stage.play(&step);
            continue;
        };
        let before = stage.rooms[STATE][..STATE_LEN].to_vec();
        let old = stage.rooms[OUTPUT][..lent[OUTPUT].length].to_vec();
        let told = stage.play(&step).expect("it is a call");
        count(counts, door_kinds(&before, &step, &told));
        let lent_bytes = |buffer: usize| &stage.rooms[buffer][..lent[buffer].length];
        let floats = &numbers_of(lent_bytes(FLOATS));
        count(counts, shown_kinds(&before, &step, &told, &stage.rooms[TABLES], floats));
        if door.takes(RUN) {
            let (state, tables, bytes) = (&before, lent[TABLES].length, lent_bytes(RUN));
            count(counts, run_kinds(&Run { door, state, tables, bytes }, &told));
        }
        if door == Door::Line && told.answer != WRONG_STATE {
            let line = LineCall {
                before: &read_state(&before).expect("it is whole"),
                y: a,
                tables: lent_bytes(TABLES),
                pictures: lent[PICTURES].length,
                floats,
                old: &old,
                answer: told.answer,
                errors: read_state(&told.state).expect("it is whole").errors(),
            };
            count(counts, line_kinds("Line", &line));
        }
        let painted = (door == Door::Line && told.answer == DONE).then_some(a);
        let order = last.zip(painted).map(|(last, y)| format!("Line {}", order_name(last, y)));
        count(counts, order);
        last = painted;
    }
}

/// The depths of a band or a frame that is painted.
fn painted_band(step: &Step, told: &Told) -> Option<(u32, u32)> {
    match *step {
        Step::Call { door: Door::Paint, a, b, .. } if told.answer == DONE => Some((a, b)),
        Step::Call { door: Door::Frame, .. } if told.answer == DONE => Some((0, 8)),
        _ => None,
    }
}

/// What a painting shows of the glyphs in its tables, by names, and of floats, by names behind that
/// of the call.
fn shown_kinds(
    before: &[u8],
    step: &Step,
    told: &Told,
    tables: &[u8],
    floats: &[u32],
) -> BTreeSet<String> {
    let Step::Call { door, .. } = step else { return BTreeSet::new() };
    let Some((low, high)) = painted_band(step, told) else { return BTreeSet::new() };
    let display = read_state(before).expect("it is whole");
    let words = display.active();
    let painted = Painted { words, floats, band: low..high, lines: 0..words.height() };
    let kinds = float_kinds(&painted).into_iter().map(|kind| format!("{door:?} {kind}"));
    let is_closed = display.floats() == Floats::Without;
    let kinds = kinds.flat_map(|kind| {
        let closed = is_closed.then(|| format!("closed, {kind}"));
        closed.into_iter().chain([kind])
    });
    let fades = float_fades(words, display.frame_number());
    kinds.chain(fades).chain(letter_kinds(&display, tables, low..high)).collect()
}

fn letter_kinds(display: &Display, tables: &[u8], band: Range<u32>) -> BTreeSet<String> {
    let active = display.active();
    let is_drawn = |n: &usize| {
        let layer = active.layer(*n);
        active.display_on() && layer.graphics && band.contains(&layer.depth)
    };
    let layers = active.order().into_iter().filter(is_drawn);
    let (frame, tables) = (display.frame_number(), display.tables(tables));
    let lines = 0..active.height();
    layers.flat_map(|n| text_kinds(active, n, &lines, frame, tables)).collect()
}

/// Every call with each of its answers, and what is lent to it anywhere modulo 16 and as NULL.
fn assert_calls(counts: &Counts) {
    for (door, answers) in DOOR_ANSWERS {
        assert_came(counts, answers.iter().map(|n| format!("{door:?} answers {n}")), 10);
    }
    for door in Door::ALL.into_iter().filter(|door| door.is_read()) {
        assert_came(counts, ["0", "more"].map(|read| format!("{door:?} of {read}")), 10);
    }
    for door in Door::ALL {
        let buffers = (0..BUFFERS).filter(|&buffer| door.takes(buffer));
        let ways = |buffer| places(buffer).into_iter().map(move |past| (buffer, past));
        let kind = |(buffer, past)| format!("{door:?} with buffer {buffer} past 16 by {past}");
        assert_came(counts, buffers.flat_map(ways).map(kind), 1);
    }
    assert_came(counts, (0..COUNT).map(|buffer| format!("buffer {buffer} as NULL")), 20);
}

/// States that no call may have left: painted, put to, refused, and spelt by other bytes than a call
/// writes, which it then puts right with each of its answers.
fn assert_damages(counts: &Counts) {
    let damages = [
        "bits 1 and 2",
        "reserved bits",
        "an empty layer",
        "a layer off the screen",
        "layers of one depth",
    ];
    for door in [Door::Fill, Door::Paint, Door::Frame, Door::Line] {
        assert_came(counts, damages.map(|damage| format!("{door:?} over {damage}")), 10);
    }
    let others = [
        "damaged, Paint answers 14",
        "damaged, Frame answers 14",
        "damaged, Line answers 14",
        "damaged, Paint answers 18",
        "damaged, Frame answers 18",
        "damaged, Line answers 18",
        "Put by a selection above 63",
        "Put past the end, 5",
        "PutRun by a selection above 63",
        "PutRun past the end, 0",
        "PutRun past the end, 5",
    ];
    assert_came(counts, others.map(String::from), 10);
    for (door, answers) in DOOR_ANSWERS {
        // 23 leaves such a state, and something is selected in the first.
        let answers = answers.iter().filter(|&&n| n != WRONG_STATE);
        let selected = answers.clone().filter(|&&n| n != NOTHING_SELECTED);
        assert_came(counts, selected.map(|n| format!("selected above 1, {door:?} answers {n}")), 5);
        assert_came(counts, answers.map(|n| format!("profile above 3, {door:?} answers {n}")), 5);
    }
}

/// Float layers of every kind, floats of wrong lengths, also where the pictures are wrong too, and
/// kinds of layers that are refused or painted as lists.
fn assert_floats(counts: &Counts) {
    assert_refused_kinds(counts, Floats::Without, 5);
    assert_closed(counts);
    assert_came(counts, float_fade_names(), 5);
    for door in ["Paint", "Frame"] {
        assert_came(counts, float_names().into_iter().map(|kind| format!("{door} {kind}")), 8);
    }
    for door in ["Paint", "Frame", "Line"] {
        assert_came(counts, floats::LENGTHS.map(|wrong| format!("{door} with {wrong}")), 3);
        assert_came(counts, [format!("{door} where 14 and 18 are due")], 10);
    }
}

/// States that let no float layer in: each call with each of its answers, float layers that are
/// painted though no start lets them in, and a state that is made anew.
fn assert_closed(counts: &Counts) {
    for (door, answers) in DOOR_ANSWERS {
        let answers = answers.iter().filter(|&&n| n != WRONG_STATE);
        assert_came(counts, answers.map(|n| format!("closed, {door:?} answers {n}")), 3);
    }
    let layers = ["Paint", "Frame"].map(|door| format!("closed, {door} one float layer"));
    assert_came(counts, layers.into_iter().chain(["float layers let in again".into()]), 5);
}

/// Glyphs of one bit and two, tables of the other number's length, and states made by any number.
fn assert_letters(counts: &Counts) {
    assert_came(counts, text_names(), 50);
    assert_came(counts, others_names(&["Put", "PutRun", "Paint", "Frame", "Line"]), 10);
    assert_came(counts, made_names(), 10);
}

#[test]
fn rows_reach_everything() {
    let counts = count_rows();
    show("calls from C by kind", &counts);
    assert_calls(&counts);
    assert_damages(&counts);
    assert_letters(&counts);
    assert_floats(&counts);
    assert_runs(&counts);
    assert_lines(&counts);
}
