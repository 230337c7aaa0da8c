//! The sheet program beside this display: both read the same sheets, and must print the same bytes.
//!
//!   SPOONWING_SHEET   the program, ../../crates/sheet/out/sheet unless set
//!   SPOONWING_LINES   how many generated lines to compare, 2,000 unless set
//!   SPOONWING_SEED    compares the sheet of this one seed only, aloud

use second::beside::{fewer, lines, program, run, seed, seeds};
use second::cases::{byte_sheet, drawing_sheet, gen_sheet, line_text, number_sheet, word_sheet};
use second::cases::{LINES_A_SHEET, SHEETS};
use second::display::Display;
use second::floats::Floats;
use second::sheet::{print_sheet, read_lines, Line, Sheet};
use second::tables::Bits;
use std::fs;
use std::path::Path;

/// Sheets whose form is the point. A sheet on which the two have ever differed gets a row here.
const FIXED: [(&str, &[u8]); 11] = [
    ("the worked line", b"00030000000005010001000202003020100000\n"),
    ("the worked line without its line feed", b"00030000000005010001000202003020100000"),
    ("mixed case, after an FE", b"fe\n0003000000000501000100020200AbcDeF0000\n"),
    ("an empty sheet", b""),
    ("a lone line feed", b"\n"),
    ("two line feeds and a bare digit", b"\n\n0"),
    ("nothing active", b"00000000\n00000000"),
    ("carriage returns", b"00000000\r\n00000000\n\r\n"),
    ("a space, a NUL and a sign", b"00000000 \n\x0000000000\n+0000000\n"),
    ("something after the picture bytes", b"0000000000\n00000001AA\n00000001AABB\n"),
    ("a load of no bytes into an active bank", b"010000000103000000000000\n0100000100000000\n"),
];

/// Compares one sheet; a difference is told with the first line that differs and a smaller sheet
/// that differs too.
fn compare(name: &str, sheet: &[u8], other: &dyn Fn(&[u8]) -> Vec<u8>) -> Result<(), String> {
    let (ours, theirs) = (print_sheet(sheet), other(sheet));
    if ours == theirs {
        return Ok(());
    }
    let (ours, theirs) = (lines(&ours), lines(&theirs));
    let first = (0..).find(|&i| ours.get(i) != theirs.get(i)).expect("they differ");
    let shown = |printed: &[Vec<u8>]| match printed.get(first) {
        Some(line) => line.escape_ascii().to_string(),
        None => "nothing".to_string(),
    };
    let differs = |lines: &[Vec<u8>]| print_sheet(&lines.concat()) != other(&lines.concat());
    // What follows the first difference is seldom needed to show it.
    let up_to_it: Vec<Vec<u8>> = lines(sheet).into_iter().take(first + 1).collect();
    let needed = if differs(&up_to_it) { up_to_it } else { lines(sheet) };
    let small = with_lighter_lines(fewer(needed, &differs), &differs);
    let told = [
        format!("{name} differs at line {} of {}", first + 1, ours.len()),
        format!("it reads  {}", shown(&lines(sheet))),
        format!("we print  {}", shown(&ours)),
        format!("it prints {}", shown(&theirs)),
        format!("a small sheet that differs, of {} lines:", small.len()),
        small.concat().escape_ascii().to_string().replace("\\n", "\n"),
        format!("we print for it\n{}", String::from_utf8_lossy(&print_sheet(&small.concat()))),
        format!("it prints for it\n{}", String::from_utf8_lossy(&other(&small.concat()))),
    ];
    Err(told.join("\n"))
}

/// Drops single loads and writes of the well formed lines, as long as the sheet still differs.
fn with_lighter_lines(
    mut lines: Vec<Vec<u8>>,
    differs: &dyn Fn(&[Vec<u8>]) -> bool,
) -> Vec<Vec<u8>> {
    for at in 0..lines.len() {
        let Some(mut line) = Line::read(lines[at].strip_suffix(b"\n").unwrap_or(&lines[at])) else {
            continue;
        };
        for step in (0..line.loads.len() + line.writes.len()).rev() {
            let mut lighter = line.clone();
            match step.checked_sub(line.loads.len()) {
                Some(write) => drop(lighter.writes.remove(write)),
                None => drop(lighter.loads.remove(step)),
            }
            let mut fewer = lines.clone();
            fewer[at] = line_text(&lighter);
            if differs(&fewer) {
                lines = fewer;
                line = lighter;
            }
        }
    }
    lines
}

fn compare_generated(seed: u64, other: &dyn Fn(&[u8]) -> Vec<u8>) -> Result<(), String> {
    compare(&format!("the sheet of seed {seed}"), &gen_sheet(seed, LINES_A_SHEET), other)
}

#[test]
fn the_program_prints_the_fixed_sheets() {
    let program = program("SPOONWING_SHEET", "../../crates/sheet/out/sheet");
    for (name, sheet) in FIXED {
        compare(name, sheet, &|sheet| run(&program, &[], sheet))
            .unwrap_or_else(|told| panic!("{told}"));
    }
}

/// The sheet that the gate runs the program on, and what it holds the program to.
#[test]
fn the_sheet_of_the_gate_prints_the_same_here() {
    let folder = Path::new(env!("CARGO_MANIFEST_DIR")).join("../../crates/sheet");
    let [sheet, printed] = ["stdin", "stdout"].map(|name| fs::read(folder.join(name)).expect(name));
    assert_eq!(print_sheet(&sheet).escape_ascii().to_string(), printed.escape_ascii().to_string());
}

/// Every bit of every register and every two faults of a scene, every number of two digits, every
/// byte in place of a digit, every character, opcode and weight.
#[test]
fn the_program_prints_the_sweeps() {
    let program = program("SPOONWING_SHEET", "../../crates/sheet/out/sheet");
    for (name, sheet) in [
        ("the sheet of words", word_sheet()),
        ("the sheet of numbers", number_sheet()),
        ("the sheet of bytes", byte_sheet()),
        ("the sheet of drawings", drawing_sheet()),
    ] {
        compare(name, &sheet, &|sheet| run(&program, &[], sheet))
            .unwrap_or_else(|told| panic!("{told}"));
    }
}

#[test]
fn the_program_prints_the_generated_sheets() {
    let program = program("SPOONWING_SHEET", "../../crates/sheet/out/sheet");
    let other = |sheet: &[u8]| run(&program, &[], sheet);
    if let Some(seed) = seed() {
        let sheet = gen_sheet(seed, LINES_A_SHEET);
        println!("it reads\n{}", sheet.escape_ascii().to_string().replace("\\n", "\n"));
        println!("we print\n{}", String::from_utf8_lossy(&print_sheet(&sheet)));
    }
    for seed in seeds("SPOONWING_LINES", LINES_A_SHEET, SHEETS) {
        compare_generated(seed, &other).unwrap_or_else(|told| panic!("{told}"));
    }
}

/// The comparison itself, on a program that is known to agree.
#[test]
fn our_own_program_agrees() {
    let own = Path::new(env!("CARGO_BIN_EXE_second_sheet"));
    for (name, sheet) in FIXED {
        compare(name, sheet, &|sheet| run(own, &[], sheet)).unwrap_or_else(|told| panic!("{told}"));
    }
}

/// And on one that is known not to: it answers 13 for 14 on every line but the first.
#[test]
fn an_impostor_is_caught_and_its_sheet_made_small() {
    let impostor = |sheet: &[u8]| {
        let printed = String::from_utf8(print_sheet(sheet)).expect("digits");
        printed.replace("\n0E\n", "\n0D\n").into_bytes()
    };
    let caught = (0..5).find_map(|seed| compare_generated(seed, &impostor).err());
    let told = caught.expect("the impostor goes unseen");
    assert!(told.contains("we print  0E") && told.contains("it prints 0D"), "{told}");
    let small = told
        .split("a small sheet that differs, of ")
        .nth(1)
        .and_then(|rest| rest.split(' ').next());
    let lines: usize = small.and_then(|count| count.parse().ok()).expect("it is told");
    assert!(lines < 6, "{told}");
}

/// And on one whose display lets float layers in, which it has to refuse (02 K7).
#[test]
fn a_display_that_lets_floats_in_is_caught() {
    let impostor = |sheet: &[u8]| {
        let display = Display::fresh(Bits::One, Floats::With);
        let mut lax = Sheet { display, tables: vec![0; Bits::One.tables_len()] };
        read_lines(sheet).into_iter().flat_map(|line| lax.line(line)).collect()
    };
    let caught = (0..SHEETS).find_map(|seed| compare_generated(seed, &impostor).err());
    assert!(caught.expect("the impostor goes unseen").contains("we print  07"));
    let swept = compare("the sheet of words", &word_sheet(), &impostor);
    assert!(swept.is_err_and(|told| told.contains("we print  07")));
}
