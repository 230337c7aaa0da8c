//! Lines (02 K3) by the calls from C: they are the frame that the same program paints, each sets
//! the bits of all lists without END, and refusals come in the request's order. Lines and refusals
//! are compared with what this display tells of them too. A case that fails is told with its seed.
//!
//!   SPOONWING_DISPLAY   the C program, ../../tools/c-display unless set
//!   SPOONWING_SEED      tries the cases of this one seed only

use second::answers::*;
use second::beside::{all_seeds, compare, try_all, with_fault, Calls, Doors};
use second::cases::{drawing_lines, gen_faulty_line, gen_lines, FaultyLine, LinesCase, FAULT_SETS};
use second::display::Display;
use second::doors::*;
use second::floats::Floats;
use second::stale::{Fault, Impostor};
use second::state::{read_state, state_bytes, ERRORS_AT, SELECTED_AT, STATE_LEN};
use second::tables::{Bank, Bits, Kind, INSTRUCTIONS, INSTRUCTION_LEN};
use second::words::{layer_word, LAYERS};
use std::cell::RefCell;

const CASES: u64 = 400;
const FAULTY: u64 = 8 * FAULT_SETS;

// ---- lines are the frame

/// What a program tells of a case's frame, and of its lines.
fn frame_and_lines<'a>(
    case: &LinesCase,
    told: &'a [Told],
) -> Result<(&'a Told, &'a [Told]), String> {
    match told.split_first() {
        Some((frame, lines)) if lines.len() == case.lines.len() => Ok((frame, lines)),
        _ => Err("the program ends".into()),
    }
}

/// "For every accepted setting and every line its bytes and error bits are those of the whole
/// frame."
fn are_the_frame(case: &LinesCase, told: &[Told]) -> Result<(), String> {
    let (frame, lines) = frame_and_lines(case, told)?;
    let length = case.display.active().line_len() as usize;
    for (&y, line) in case.lines.iter().zip(lines) {
        if (line.answer, frame.answer) != (DONE, DONE) {
            return Err(format!("line {y} answers {}, the frame {}", line.answer, frame.answer));
        }
        let part = &frame.out[length * y as usize..][..length];
        if let Some(at) = (0..length).find(|&at| line.out[at] != part[at]) {
            let (one, other) = (line.out[at], part[at]);
            return Err(format!("byte {at} of line {y} is {one}, and {other} in the frame"));
        }
        if line.state != frame.state {
            return Err(format!("line {y} leaves another state than the frame"));
        }
    }
    Ok(())
}

/// "With the display off a band changes nothing, the state included", so a line is background.
fn are_dark(case: &LinesCase, told: &[Told]) -> Result<(), String> {
    let [channel_0, channel_1, channel_2] = case.display.active().background();
    let pixel = [channel_0, channel_1, channel_2, 255];
    let is_dark = |told: &Told| {
        told.out.chunks(4).all(|it| it == pixel) && told.state == state_bytes(&case.display)
    };
    let (_, lines) = frame_and_lines(case, told)?;
    match lines.iter().position(|line| !is_dark(line)) {
        Some(i) => Err(format!("with the display off, line {} is not background", case.lines[i])),
        None => Ok(()),
    }
}

fn laws(case: &LinesCase, told: &[Told]) -> Result<(), String> {
    are_the_frame(case, told)?;
    if case.display.active().display_on() {
        Ok(())
    } else {
        are_dark(case, told)
    }
}

/// By what names a case is counted, and how often by each.
fn names(case: &LinesCase, told: &[Told]) -> Vec<(String, usize)> {
    let (active, lines) = (case.display.active(), &case.lines);
    let height = active.height() as u32;
    assert!((0..height).all(|y| lines.contains(&y)), "each line comes");
    let after = read_state(&told[0].state).expect("it is whole");
    let set = after.errors() & !case.display.errors();
    let marked: Vec<usize> = (0..LAYERS).filter(|n| set >> (4 * n) & 1 == 1).collect();
    let with_bit = |on: bool| {
        let is_so = |&n: &usize, y: u32| active.layer(n).is_on(y.into()) == on;
        lines.iter().filter(|&&y| marked.iter().any(|n| is_so(n, y))).count()
    };
    let bits = case.display.bits();
    let floats: Vec<usize> =
        active.order().into_iter().filter(|&n| active.layer(n).float).collect();
    let is_on_floats = |y: u32| floats.iter().any(|&n| active.layer(n).is_on(y.into()));
    let so = [
        ("with one bit", usize::from(bits == Bits::One)),
        ("with two bits", usize::from(bits == Bits::Two)),
        ("with the display off", usize::from(!active.display_on())),
        ("of an odd width", usize::from(active.width() % 2 == 1)),
        ("of 4,095 columns", usize::from(active.width() == 4_095)),
        ("lines again", lines.len() - height as usize),
        ("lines above the one before", lines.windows(2).filter(|pair| pair[1] < pair[0]).count()),
        ("lines on a list without END", with_bit(true)),
        ("lines off a list without END", with_bit(false)),
        ("lines on a float layer", lines.iter().filter(|&&y| is_on_floats(y)).count()),
        ("with several float layers", usize::from(floats.len() > 1)),
    ];
    so.map(|(name, count)| (name.into(), count)).into()
}

#[test]
fn the_lines_are_the_frame() {
    let doors = RefCell::new(Doors::start());
    let least = [
        ("with one bit", 150),
        ("with two bits", 150),
        ("with the display off", 10),
        ("of an odd width", 150),
        ("of 4,095 columns", 5),
        ("lines again", 300),
        ("lines above the one before", 700),
        ("lines on a list without END", 300),
        ("lines off a list without END", 300),
        ("lines on a float layer", 300),
        ("with several float layers", 50),
    ];
    try_all(CASES, &least, |seed| {
        let case = gen_lines(seed);
        let told = compare(&|steps| doors.borrow_mut().row(steps), &case.steps)?;
        laws(&case, &told)?;
        Ok(names(&case, &told))
    });
}

/// Every character, string length and number, opcode, weight and text colour, by lines.
#[test]
fn the_drawings_are_the_frame() {
    let doors = RefCell::new(Doors::start());
    for (i, case) in Bits::ALL.into_iter().flat_map(drawing_lines).enumerate() {
        compare(&|steps| doors.borrow_mut().row(steps), &case.steps)
            .and_then(|told| laws(&case, &told))
            .unwrap_or_else(|told| panic!("drawing {i}: {told}"));
    }
}

// ---- error bits

/// A screen of nine lines with a list on each of the first eight, layer n's on line n.
fn eight_lists(bits: Bits, is_on: bool) -> Display {
    let mut display = Display::fresh(bits, Floats::With);
    let layer = |n: u32| {
        let words = [(0, 0b11 | n << 8), (2, n << 16), (3, 3 | 1 << 16)];
        words.map(|(i, word)| (layer_word(n as usize) as u32 + i, word))
    };
    let screen = [(0, 0b100 | u32::from(is_on)), (1, 3 | 9 << 16)];
    for (register, word) in screen.into_iter().chain((0..8).flat_map(layer)) {
        assert_eq!(display.write(register, word), DONE);
    }
    assert_eq!(display.start(), DONE);
    display.toggle(0x2222_2222);
    display
}

/// Tables in which the lists of a set of layers have no END, and others only as their last
/// instruction.
fn list_tables(bits: Bits, without: u32) -> Vec<u8> {
    let mut tables = vec![0; bits.tables_len()];
    for g in 0..LAYERS {
        let start = Bank { g, kind: Kind::Instruction, b: 0 }.start(bits);
        let count = INSTRUCTIONS - usize::from(without >> g & 1 == 0);
        // Opcode 1, which does nothing.
        let opcodes = tables[start + 3..].iter_mut().step_by(INSTRUCTION_LEN);
        opcodes.take(count).for_each(|opcode| *opcode = 1 << 4);
    }
    tables
}

/// The error words after each of the nine lines, each painted from the same state on.
fn error_words(calls: Calls, display: &Display, tables: &[u8]) -> Vec<u32> {
    let store = |buffer, bytes: &[u8]| Step::Store { buffer, bytes: bytes.to_vec() };
    let lent = Door::Line.lent([STATE_LEN, tables.len(), 0, 0, 12, 0, 0]);
    let line = |y| {
        let call = Step::Call { door: Door::Line, a: y, b: 0, lent, null: false };
        [store(STATE, &state_bytes(display)), call]
    };
    let steps = [vec![store(TABLES, tables)], (0..9).flat_map(line).collect()].concat();
    let errors = |told: Told| read_state(&told.state).expect("it is whole").errors();
    calls(&steps).into_iter().map(errors).collect()
}

/// "No END means that painting the layer sets error bit 4n", and each line sets those of the whole
/// frame: also line 8, on which there is no list. With the display off none does.
fn all_bits(calls: Calls) -> Result<(), String> {
    let sets = (0..LAYERS).map(|n| 1 << n).chain([0, 0xFF, 0x5A]);
    let ways = sets.flat_map(|without| [(without, true), (without, false)]);
    for ((without, is_on), bits) in ways.flat_map(|way| Bits::ALL.map(|bits| (way, bits))) {
        let (display, tables) = (eight_lists(bits, is_on), list_tables(bits, without));
        let marked = (0..LAYERS).filter(|n| is_on && without >> n & 1 == 1);
        let expected = marked.fold(display.errors(), |errors, n| errors | 1 << (4 * n));
        let words = error_words(calls, &display, &tables);
        if words != [expected; 9] {
            let state = if is_on { "on" } else { "off" };
            return Err(format!(
                "{without:08b} without END, {bits:?}, {state}: {words:08X?}, not {expected:08X}"
            ));
        }
    }
    Ok(())
}

#[test]
fn each_line_sets_all_bits() {
    let doors = RefCell::new(Doors::start());
    all_bits(&|steps| doors.borrow_mut().row(steps)).unwrap_or_else(|told| panic!("{told}"));
}

// ---- refusals

/// "Refusals in order: 12, 15 for a line number at or past the height, 13 against 4·width, 6, 14.",
/// 18 "after 14", and a state of a wrong length before all. A refusal leaves all unchanged.
fn in_order(case: &FaultyLine, told: &[Told]) -> Result<(), String> {
    let buffers = [WRONG_OUTPUT, WRONG_TABLES, WRONG_PICTURES, WRONG_FLOATS];
    let mut order = [WRONG_STATE, NOTHING_ACTIVE, WRONG_BAND].into_iter().chain(buffers);
    let first = order.find(|answer| case.faults.contains(answer)).unwrap_or(DONE);
    let told = told.first().ok_or("the program ends")?;
    if told.answer != first {
        return Err(format!("of {:?} it answers {}", case.faults, told.answer));
    }
    let stored = |buffer: usize, length: usize| {
        let bytes = case.steps.iter().find_map(|step| match step {
            Step::Store { buffer: it, bytes } if *it == buffer => Some(bytes.clone()),
            _ => None,
        });
        let mut bytes = bytes.expect("it is stored");
        bytes.resize(length, 0);
        bytes
    };
    let is_same = told.state == stored(STATE, told.state.len())
        && told.out == stored(OUTPUT, told.out.len())
        && told.changes.is_empty()
        && !told.is_touched;
    if first == DONE || is_same {
        Ok(())
    } else {
        Err(format!("refused with {first}, it changes something"))
    }
}

#[test]
fn refusals_come_in_order() {
    let doors = RefCell::new(Doors::start());
    for seed in all_seeds(FAULTY) {
        let case = gen_faulty_line(seed);
        compare(&|steps| doors.borrow_mut().row(steps), &case.steps)
            .and_then(|told| in_order(&case, &told))
            .unwrap_or_else(|told| panic!("seed {seed}: {told}"));
    }
}

// ---- the tests themselves

/// The line above, where there is one.
fn above(step: &Step) -> Step {
    let mut step = step.clone();
    if let Step::Call { door: Door::Line, a, .. } = &mut step {
        *a = a.saturating_sub(1);
    }
    step
}

/// The laws themselves, on calls that are known to be wrong: they paint the line above, leave alpha
/// bytes, set no bits, and show white while the display is off.
#[test]
fn impostors_are_caught() {
    let honest = with_fault(|_, _, _| {});
    let shifted = |steps: &[Step]| honest(&steps.iter().map(above).collect::<Vec<Step>>());
    let bare = with_fault(|door, _, told| {
        if door == Door::Line && told.answer == DONE {
            told.out[3] = 0;
        }
    });
    let silent = with_fault(|door, stage, told| {
        if door == Door::Line {
            told.state[ERRORS_AT..SELECTED_AT].fill(0);
            stage.rooms[STATE][ERRORS_AT..SELECTED_AT].fill(0);
        }
    });
    let white = with_fault(|_, _, told| {
        if read_state(&told.state).is_some_and(|display| !display.active().display_on()) {
            told.out.fill(255);
        }
    });
    for impostor in [&shifted as Calls, &bare, &silent, &white] {
        let is_caught = |case: LinesCase| laws(&case, &impostor(&case.steps)).is_err();
        assert!((0..100).map(gen_lines).any(is_caught));
    }
    assert!(all_bits(&silent).is_err());
}

/// And on calls that ask for 13 before 15, for 18 before 14, or write to the output though they are
/// refused.
#[test]
fn wrong_refusals_are_caught() {
    let hasty = with_fault(|door, _, told| {
        let width = |told: &Told| read_state(&told.state).expect("it is whole").width() as usize;
        if door == Door::Line && told.answer == WRONG_BAND && told.out.len() != 4 * width(told) {
            told.answer = WRONG_OUTPUT;
        }
    });
    let untidy = with_fault(|door, _, told| {
        if door == Door::Line && told.answer == WRONG_TABLES {
            told.out.fill(0);
        }
    });
    let rash = |steps: &[Step]| Impostor::new(Fault::FloatsFirst).row(steps);
    for impostor in [&hasty as Calls, &rash, &untidy] {
        let is_caught = |case: FaultyLine| in_order(&case, &impostor(&case.steps)).is_err();
        assert!((0..FAULT_SETS).map(gen_faulty_line).any(is_caught));
    }
}

/// The comparison of all lines, on displays that take float pictures otherwise (02 K7). The right
/// one has to go unseen.
#[test]
fn wrong_floats_are_seen() {
    let cases: Vec<LinesCase> = (0..100).map(gen_lines).collect();
    let seen = |fault: Fault| {
        let calls = |steps: &[Step]| Impostor::new(fault).row(steps);
        cases.iter().filter(|case| compare(&calls, &case.steps).is_err()).count()
    };
    assert_eq!(seen(Fault::None), 0);
    // Here all lengths are right.
    for fault in Fault::FLOATS.into_iter().filter(|&fault| fault != Fault::FloatsFirst) {
        let seen = seen(fault);
        println!("{fault:?} is seen in {seen} of {}", cases.len());
        assert!(seen > 20, "{fault:?} is seen in {seen} of {}", cases.len());
    }
}
