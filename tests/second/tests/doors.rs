//! The calls from C beside this display: a C program that is linked with them makes the same calls
//! on the same bytes, each buffer between guard bytes and beginning anywhere, and tells the answer
//! and every byte that is lent.
//!
//!   SPOONWING_DISPLAY   the C program, ../../tools/c-display unless set (built by `tools/c-display
//!                       build`)
//!   SPOONWING_ROWS      how many generated rows of calls to compare, 600 unless set
//!   SPOONWING_SEED      compares the row of this one seed only, aloud

use second::answers::*;
use second::beside::{all_seeds, compare, fewer, seed, seeds, shown, with_fault, Calls, Doors};
use second::cases::{gen_host, gen_order_row, gen_row, HostCase, Inputs, ORDERS, ROWS};
use second::doors::*;
use second::floats::{bytes_of, Floats, FLOAT_LEN};
use second::host::{host_frame, image_words};
use second::stale::{Fault, Impostor};
use second::state::*;
use second::tables::{Bits, Tables};
use second::words::{layer_word, Words};
use std::cell::RefCell;
use std::collections::BTreeMap;

/// Compares a row; a difference is told with a smaller row that differs too.
fn compare_row(calls: Calls, name: &str, steps: Vec<Step>) -> Result<Vec<Told>, String> {
    compare(calls, &steps).map_err(|told| {
        let small = smaller(steps, &|steps| compare(calls, steps).is_err());
        let still = compare(calls, &small).expect_err("it differs");
        let steps: Vec<String> = small.iter().map(shown).collect();
        let count = small.len();
        format!(
            "{name}: {told}\na small row that differs, of {count} steps: {still}\n{}",
            steps.join("\n")
        )
    })
}

/// The row without the steps that it does not need in order to differ, and with zeros for the bytes
/// that it does not need.
fn smaller(steps: Vec<Step>, differs: &dyn Fn(&[Step]) -> bool) -> Vec<Step> {
    let mut steps = fewer(steps, differs);
    for i in 0..steps.len() {
        for run in [4_096, 1_024, 208, 64, 4] {
            zero_runs(&mut steps, i, run, differs);
        }
    }
    steps
}

/// Zeros in the runs of the bytes that a step stores, as long as the row still differs.
fn zero_runs(steps: &mut Vec<Step>, i: usize, run: usize, differs: &dyn Fn(&[Step]) -> bool) {
    let Step::Store { bytes, .. } = &steps[i] else { return };
    let length = bytes.len();
    for at in (0..length).step_by(run) {
        let mut lighter = steps.clone();
        let Step::Store { bytes, .. } = &mut lighter[i] else { return };
        let part = &mut bytes[at..length.min(at + run)];
        if part.iter().all(|&byte| byte == 0) {
            continue;
        }
        part.fill(0);
        if differs(&lighter) {
            *steps = lighter;
        }
    }
}

#[test]
fn the_calls_answer_the_generated_rows() {
    let doors = RefCell::new(Doors::start());
    if let Some(seed) = seed() {
        gen_row(seed).iter().for_each(|step| println!("{}", shown(step)));
    }
    let mut counts = BTreeMap::new();
    for seed in seeds("SPOONWING_ROWS", 1, ROWS) {
        let calls = |steps: &[Step]| doors.borrow_mut().row(steps);
        match compare_row(&calls, &format!("seed {seed}"), gen_row(seed)) {
            Ok(told) => *counts.entry(told.len() / 20 * 20).or_insert(0) += 1,
            Err(told) => panic!("{told}"),
        }
    }
    println!("rows by their calls, from so many on: {counts:?}");
}

// ---- the order of layers, 02 K5

#[test]
fn the_calls_answer_the_changes_of_order() {
    let doors = RefCell::new(Doors::start());
    let calls = |steps: &[Step]| doors.borrow_mut().row(steps);
    for seed in all_seeds(ORDERS) {
        compare_row(&calls, &format!("the row of orders of seed {seed}"), gen_order_row(seed))
            .unwrap_or_else(|told| panic!("{told}"));
    }
}

/// In most of those rows each way to paint tells calls that paint by what is not worked out of the
/// lent bytes, and calls that take float pictures otherwise (02 K7).
#[test]
fn an_order_that_is_not_kept_is_seen() {
    let rows: Vec<Vec<Step>> = (0..ORDERS).map(gen_order_row).collect();
    let seen = |fault: Fault, way: Door| {
        let is_seen = |row: &&Vec<Step>| {
            let doors = row.iter().filter_map(|step| match step {
                Step::Call { door, .. } => Some(*door),
                Step::Store { .. } => None,
            });
            let told = with_fault(|_, _, _| {})(row).into_iter().zip(Impostor::new(fault).row(row));
            let mut parted = doors.zip(told).filter(|(_, (ours, theirs))| {
                ours.answer != theirs.answer || ours.out != theirs.out
            });
            parted.any(|(door, _)| door == way)
        };
        rows.iter().filter(is_seen).count()
    };
    for way in [Door::Paint, Door::Frame, Door::Line] {
        assert_eq!(seen(Fault::None, way), 0, "the right calls are told from ours");
        for fault in Fault::KEPT.into_iter().chain(Fault::LENT).chain(Fault::FLOATS) {
            let seen = seen(fault, way);
            println!("{fault:?} is seen by {way:?} in {seen} rows");
            assert!(2 * seen > rows.len(), "{fault:?} is seen by {way:?} in {seen} rows");
        }
    }
}

// ---- alignments and NULL

/// A screen of one column and three lines, shown, with a picture of bytes and over it one of
/// floats, and with a bank selected that can be put to; and a run of bytes that are two writes.
/// Selected and profile are not as a call writes them.
fn one_column(bits: Bits) -> [Step; 4] {
    const COLUMN: u32 = 0x0003_0001;
    let (picture, floats) = (layer_word(2), layer_word(5));
    let layers = [(picture, 0x101), (picture + 3, COLUMN), (floats, 0x305), (floats + 3, COLUMN)];
    let mut state = vec![0; STATE_LEN];
    for (register, word) in [(0, 0b101), (1, COLUMN)].into_iter().chain(layers) {
        for at in [PENDING_AT, ACTIVE_AT] {
            state[at + 4 * register..][..4].copy_from_slice(&word.to_le_bytes());
        }
    }
    state[SELECTED_AT] = 7;
    state[SELECTION_AT] = 1;
    state[PROFILE_AT] = 4 | u8::from(bits == Bits::Two);
    let run = vec![2, 1, 2, 3, 4, 51, 5, 6, 7, 8];
    let values = [0.5, 0.25, 0.75, 0.5, 0.1, 0.2, 0.3, 1.0, 1.5, -1.0, f32::NAN, 0.9];
    let floats = bytes_of(&values.map(f32::to_bits));
    let stored = [(STATE, state), (PICTURES, (1..=12).collect()), (FLOATS, floats), (RUN, run)];
    stored.map(|(buffer, bytes)| Step::Store { buffer, bytes })
}

/// What a call on that state needs.
fn lent_to(door: Door, bits: Bits) -> [Lent; BUFFERS] {
    let out = if door == Door::Line { 4 } else { 12 };
    door.lent([STATE_LEN, bits.tables_len(), 12, 12 * FLOAT_LEN, out, 10, COUNT_LEN])
}

/// Every call on a state of either number of bits.
fn doors_and_bits() -> impl Iterator<Item = (Door, Bits)> {
    Door::ALL.into_iter().flat_map(|door| Bits::ALL.map(|bits| (door, bits)))
}

/// A host that has no bytes to lend may pass NULL: for any of the buffers of any call but a count's
/// place, where that is right and where it is refused. Whoever reads or writes there is ended by
/// the system.
#[test]
fn the_calls_take_null_for_no_bytes() {
    let doors = RefCell::new(Doors::start());
    let calls = |steps: &[Step]| doors.borrow_mut().row(steps);
    let mut counts = BTreeMap::new();
    let ways = |(door, bits)| (0..1 << COUNT).map(move |emptied| (door, bits, emptied));
    for (door, bits, emptied) in doors_and_bits().flat_map(ways) {
        let mut lent = lent_to(door, bits);
        for buffer in (0..COUNT).filter(|buffer| emptied >> buffer & 1 == 1) {
            lent[buffer].length = 0;
        }
        let mut steps = one_column(bits).to_vec();
        steps.push(Step::Call { door, a: 2, b: 8, lent, null: true });
        let told = compare_row(&calls, &format!("with NULL for {emptied:06b}"), steps);
        let told = told.unwrap_or_else(|told| panic!("{told}"));
        if !door.is_read() {
            *counts.entry(told[0].answer).or_insert(0) += 1;
        }
    }
    // For either number of bits half of the 12 times 64 have no state. Of the other half, no output
    // is refused in 16 fills of 32 and in 16 paintings of each of three kinds, then no tables in 8
    // of each kind, no pictures in 4 and no floats in 2; no tables in 16 puts and in the 8 of 16
    // runs of puts that have bytes.
    let refused = [(WRONG_TABLES, 96), (WRONG_OUTPUT, 128), (WRONG_PICTURES, 24)];
    let others = [(DONE, 508), (WRONG_FLOATS, 12), (WRONG_STATE, 768)];
    assert_eq!(counts, refused.into_iter().chain(others).collect());
}

/// Each buffer of each call begins at each place modulo 16 where it may begin.
#[test]
fn the_calls_take_every_alignment() {
    let doors = RefCell::new(Doors::start());
    let calls = |steps: &[Step]| doors.borrow_mut().row(steps);
    for (door, bits) in doors_and_bits() {
        let mut steps = Vec::new();
        let ways = |buffer| places(buffer).into_iter().map(move |past| (buffer, past));
        for (buffer, past) in (0..BUFFERS).flat_map(ways) {
            let mut lent = lent_to(door, bits);
            lent[buffer].past = past;
            steps.extend(one_column(bits));
            steps.push(Step::Call { door, a: 2, b: 5, lent, null: false });
        }
        let all = compare_row(&calls, "alignments", steps).unwrap_or_else(|told| panic!("{told}"));
        assert!(door.is_read() || all.iter().all(|told| told.answer == DONE), "{door:?}");
    }
}

// ---- a law of painting on damaged states

/// A whole frame of a host call's scene, by a row.
fn row_of(case: &HostCase) -> Vec<Step> {
    let mut state = [&[0; ACTIVE_AT], &case.image[..], &case.frame.to_le_bytes()].concat();
    state.resize(STATE_LEN, 0);
    state[PROFILE_AT] = u8::from(Tables::by_length(&case.tables).bits == Bits::Two);
    let (tables, pictures) = (case.tables.len(), case.pictures.len());
    let lent = Door::Frame.lent([STATE_LEN, tables, pictures, 0, case.output.len(), 0, 0]);
    let stored = [(STATE, &state), (TABLES, &case.tables), (PICTURES, &case.pictures)];
    let stores = stored.map(|(buffer, bytes)| Step::Store { buffer, bytes: bytes.clone() });
    let call = Step::Call { door: Door::Frame, a: 0, b: 0, lent, null: false };
    stores.into_iter().chain([call]).collect()
}

/// The error word and the output after the frame of a row, on a screen of that size, whatever size
/// the row was made for.
fn frame_of(calls: Calls, row: &[Step], (width, height): (i64, i64)) -> (Vec<u8>, Vec<u8>) {
    let mut steps = row.to_vec();
    for step in &mut steps {
        match step {
            Step::Store { buffer: STATE, bytes } => {
                let size = (width | height << 16) as u32;
                bytes[ACTIVE_AT + 4..ACTIVE_AT + 8].copy_from_slice(&size.to_le_bytes());
            }
            Step::Call { lent, .. } => lent[OUTPUT].length = 4 * (width * height) as usize,
            _ => {}
        }
    }
    let told = calls(&steps).pop().expect("it is a call");
    assert_eq!(told.answer, DONE, "{width} x {height}");
    (told.state[ERRORS_AT..SELECTED_AT].to_vec(), told.out)
}

/// Whether the frame of a row on a smaller screen is the part of its frame that lies there.
fn is_cut(calls: Calls, row: &[Step], words: &Words) -> bool {
    let (width, height) = (words.width(), words.height());
    let (columns, rows) = ((width + 1) / 2, (2 * height + 2) / 3);
    let (errors, whole) = frame_of(calls, row, (width, height));
    let (cut_errors, cut) = frame_of(calls, row, (columns, rows));
    let lines = whole.chunks(4 * width as usize).take(rows as usize);
    let part = lines.flat_map(|line| &line[..4 * columns as usize]).copied();
    cut == part.collect::<Vec<u8>>() && cut_errors == errors
}

/// A layer is painted where it lies on the screen, also where no start would let it stand: where
/// the screen is cut the frame is cut, and nothing else changes.
#[test]
fn a_cut_screen_has_a_cut_frame() {
    let doors = RefCell::new(Doors::start());
    let calls = |steps: &[Step]| doors.borrow_mut().row(steps);
    let mut frames = [0, 0];
    for seed in 0..600 {
        let case = gen_host(seed);
        let HostCase { image, frame, tables, pictures, output } = &case;
        if host_frame(image, *frame, tables, pictures, &mut output.clone()) != DONE {
            continue;
        }
        let words = image_words(image).expect("it is whole");
        assert!(is_cut(&calls, &row_of(&case), &words), "seed {seed}: it is no part of the frame");
        frames[Tables::by_length(tables).bits.number() - 1] += 1;
    }
    assert!(frames.iter().all(|&count| count > 100), "only {frames:?} frames are cut");
}

/// So it is where some of the layers have pictures of floats (02 K7).
#[test]
fn a_cut_screen_has_a_cut_frame_of_floats() {
    let doors = RefCell::new(Doors::start());
    let calls = |steps: &[Step]| doors.borrow_mut().row(steps);
    let mut frames = 0;
    for seed in 0..300 {
        let inputs = Inputs::gen(seed, 1, Floats::With);
        let is_there = is_cut(&calls, &inputs.row(), &inputs.words);
        assert!(is_there, "seed {seed}: it is no part of the frame");
        frames += u32::from(inputs.words.floats_len() > 0);
    }
    assert!(frames > 100, "only {frames} frames have floats");
}

/// The frame number stands still on a refused start.
fn stand_still(door: Door, stage: &mut Stage, told: &mut Told) {
    if door == Door::Start && (RESERVED_BIT..=SAME_DEPTH).contains(&told.answer) {
        let number = |bytes: &[u8]| u32::from_le_bytes(bytes.try_into().expect("four"));
        let back = number(&told.state[FRAME_AT..ERRORS_AT]).wrapping_sub(1).to_le_bytes();
        told.state[FRAME_AT..ERRORS_AT].copy_from_slice(&back);
        stage.rooms[STATE][FRAME_AT..ERRORS_AT].copy_from_slice(&back);
    }
}

/// A wrong number makes a state of two bits.
fn make_two_bits(door: Door, stage: &mut Stage, told: &mut Told) {
    if door == Door::New && told.answer == WRONG_BITS {
        told.state[PROFILE_AT] = 1;
        stage.rooms[STATE][PROFILE_AT] = 1;
    }
}

/// The comparison itself, on calls that are known to be wrong.
#[test]
fn impostors_are_caught_and_their_rows_made_small() {
    let (stops, soft) = (with_fault(stand_still), with_fault(make_two_bits));
    let spills = with_fault(|door, _, told| told.is_touched |= door == Door::Put);
    // A refused item counts as done.
    let late = with_fault(|door, _, told| {
        if door == Door::WriteRun && told.answer == NO_REGISTER {
            told.count[0] += 1;
        }
    });
    let ends = |steps: &[Step]| {
        let mut told = with_fault(|_, _, _| {})(steps);
        told.pop();
        told
    };
    let impostors: [(Calls, &str, usize); 5] = [
        (&stops, "byte 416 of the state", 4),
        (&spills, "beside a buffer, is touched", 1),
        (&late, "byte 0 of the count", 2),
        (&soft, "byte 436 of the state", 1),
        (&ends, "the program ends", 1),
    ];
    for (impostor, said, most) in impostors {
        let caught = (0..50).find_map(|seed| compare_row(impostor, "a row", gen_row(seed)).err());
        let told = caught.expect("the impostor goes unseen");
        let small = (1..=most).any(|n| told.contains(&format!("differs, of {n} steps")));
        assert!(told.contains(said) && small, "{told}");
    }
}

/// And on calls that take float pictures otherwise (02 K7): the rows tell each of them, and none
/// from the right ones.
#[test]
fn wrong_floats_are_caught_and_their_rows_made_small() {
    let row = |fault: Fault| move |steps: &[Step]| Impostor::new(fault).row(steps);
    for seed in 0..50 {
        compare_row(&row(Fault::None), &format!("seed {seed}"), gen_row(seed))
            .unwrap_or_else(|told| panic!("{told}"));
    }
    for fault in Fault::FLOATS {
        let calls = row(fault);
        let caught = (0..50).find_map(|seed| compare_row(&calls, "a row", gen_row(seed)).err());
        let told = caught.unwrap_or_else(|| panic!("{fault:?} goes unseen"));
        println!("{fault:?}: {told}");
        // A state or its writes, pictures and the painting.
        let small = (1..=12).any(|n| told.contains(&format!("differs, of {n} steps")));
        assert!(small, "{fault:?}: {told}");
    }
}
