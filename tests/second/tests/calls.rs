//! The figures program beside this display: both do what the same scripts ask, and must print the
//! same text, byte for byte. After each painting the script has every byte of the output printed.
//!
//!   SPOONWING_FIGURES   what runs the program when told its name, ../../tools/run unless set
//!   SPOONWING_RECORDS   how many generated records to compare, 36,000 unless set
//!   SPOONWING_SEED      compares the script of this one seed only, aloud

use second::beside::{all_seeds, fewer, figures, lines, seed, seeds};
use second::cases::{float_script, gate_script, gen_calls, gen_edges, gen_orders, letter_script};
use second::cases::{EDGES, ORDERS, RECORDS_A_SCRIPT, SCRIPTS, TURNS};
use second::script::{print_script, script_text, views, Call, Stage, BAND, FRAME, LINE};
use second::stale::{Fault, Impostor};
use std::collections::BTreeSet;
use std::fs;
use std::path::Path;

/// The script with every byte of the output seen after each painting, and for each of its records
/// which of the calls it is or follows.
fn seen(calls: &[Call]) -> (Vec<u8>, Vec<usize>) {
    let mut stage = Stage::new();
    let (mut records, mut origins) = (Vec::new(), Vec::new());
    for (i, &call) in calls.iter().enumerate() {
        stage.play(call);
        records.push(call);
        if call.paints() {
            records.extend(views(&stage, call));
        }
        origins.resize(records.len(), i);
    }
    (script_text(&records), origins)
}

/// Compares what one script prints; a difference is told with the first record that differs and a
/// smaller script that differs too.
fn compare(name: &str, calls: &[Call], other: &dyn Fn(&[u8]) -> Vec<u8>) -> Result<(), String> {
    let differs = |calls: &[Call]| {
        let (script, _) = seen(calls);
        print_script(&script) != other(&script)
    };
    let (script, origins) = seen(calls);
    let (ours, theirs) = (print_script(&script), other(&script));
    if ours == theirs {
        return Ok(());
    }
    let (ours, theirs) = (lines(&ours), lines(&theirs));
    let line = (0..).find(|&i| ours.get(i) != theirs.get(i)).expect("they differ");
    // The bench figures come first, then a line a record. What follows the first difference is
    // seldom needed to show it.
    let record = (line + origins.len()).saturating_sub(ours.len());
    let first = origins.get(record).copied().unwrap_or(calls.len());
    let up_to_it = &calls[..calls.len().min(first + 1)];
    let needed = if differs(up_to_it) { up_to_it } else { calls };
    let small = fewer(needed.to_vec(), &differs);
    let told = [
        format!("{name} differs at record {} of {}", first + 1, calls.len()),
        format!("a small script that differs, of {} records:", small.len()),
        script_text(&small).escape_ascii().to_string().replace("\\n", "\n"),
        differing_lines(&small, other),
    ];
    Err(told.join("\n"))
}

/// The lines on which the two part.
fn differing_lines(calls: &[Call], other: &dyn Fn(&[u8]) -> Vec<u8>) -> String {
    let (script, _) = seen(calls);
    let (ours, theirs) = (lines(&print_script(&script)), lines(&other(&script)));
    let shown = |line: Option<&Vec<u8>>| match line {
        Some(line) => line.escape_ascii().to_string(),
        None => "nothing".into(),
    };
    (0..ours.len().max(theirs.len()))
        .map(|i| (ours.get(i), theirs.get(i)))
        .filter(|(ours, theirs)| ours != theirs)
        .map(|(ours, theirs)| format!("we print  {}\nit prints {}\n", shown(ours), shown(theirs)))
        .collect()
}

/// The files that the gate holds the program to are what `figures script` and `figures stdout`
/// print.
#[test]
fn the_script_of_the_gate_is_made_here() {
    let folder = Path::new(env!("CARGO_MANIFEST_DIR")).join("../../crates/figures");
    let script = script_text(&gate_script());
    assert!(fs::read(folder.join("stdin")).expect("it is there") == script, "make stdin anew");
    let printed = print_script(&script);
    assert!(fs::read(folder.join("stdout")).expect("it is there") == printed, "make stdout anew");
}

#[test]
fn the_program_prints_the_generated_scripts() {
    if let Some(seed) = seed() {
        let script = script_text(&gen_calls(seed, RECORDS_A_SCRIPT));
        println!("it reads\n{}", String::from_utf8_lossy(&script));
        println!("we print\n{}", String::from_utf8_lossy(&print_script(&script)));
    }
    for seed in seeds("SPOONWING_RECORDS", RECORDS_A_SCRIPT, SCRIPTS) {
        let calls = gen_calls(seed, RECORDS_A_SCRIPT);
        compare(&format!("the script of seed {seed}"), &calls, &figures)
            .unwrap_or_else(|told| panic!("{told}"));
    }
}

#[test]
fn the_program_prints_the_edges() {
    for seed in 0..EDGES {
        compare(&format!("the script of edges of seed {seed}"), &gen_edges(seed), &figures)
            .unwrap_or_else(|told| panic!("{told}"));
    }
}

/// 02 K5: "Every operation keeps it equal to what would be worked out afresh from the active words
/// .. refused calls included. Painting uses it."
#[test]
fn the_program_prints_the_changes_of_order() {
    for seed in all_seeds(ORDERS) {
        let name = format!("the script of orders of seed {seed}");
        compare(&name, &gen_orders(seed, TURNS), &figures).unwrap_or_else(|told| panic!("{told}"));
    }
}

/// The letters of a script by which a display with that fault is told from ours.
fn letters_that_part(fault: Fault, script: &[Call]) -> BTreeSet<u8> {
    let mut impostor = Impostor::new(fault);
    let (mut ours, mut theirs) = (Stage::new(), Stage::new());
    let mut letters = BTreeSet::new();
    for &call in script {
        // What is not the same on the two stages is printed of both.
        if ours.play(call) != impostor.play(&mut theirs, call) || ours != theirs {
            letters.insert(call.letter);
            theirs = ours.clone();
        }
    }
    letters
}

/// In most of those scripts each way to paint tells a display that paints by what is not worked out
/// afresh, and one that takes float pictures otherwise (02 K7).
#[test]
fn an_order_that_is_not_kept_is_seen() {
    let scripts: Vec<Vec<Call>> = (0..ORDERS).map(|seed| gen_orders(seed, TURNS)).collect();
    let parting = |fault| scripts.iter().flat_map(move |calls| letters_that_part(fault, calls));
    assert_eq!(parting(Fault::None).count(), 0, "the right one is told from ours");
    for fault in Fault::KEPT.into_iter().chain(Fault::FLOATS) {
        let letters: Vec<u8> = parting(fault).collect();
        for letter in [BAND, FRAME, LINE] {
            let seen = letters.iter().filter(|&&parts| parts == letter).count();
            println!("{fault:?} is seen by {} in {seen} scripts", letter as char);
            assert!(2 * seen > scripts.len(), "{fault:?} is seen in {seen} scripts");
        }
    }
}

#[test]
fn the_program_prints_the_letters() {
    compare("the script of letters", &letter_script(), &figures)
        .unwrap_or_else(|told| panic!("{told}"));
}

#[test]
fn the_program_prints_the_floats() {
    compare("the script of floats", &float_script(), &figures)
        .unwrap_or_else(|told| panic!("{told}"));
}

/// That script, which the gate's ends with, tells each display that takes float pictures otherwise
/// by each way to paint.
#[test]
fn wrong_floats_are_seen() {
    let script = float_script();
    assert_eq!(letters_that_part(Fault::None, &script), BTreeSet::new());
    for fault in Fault::FLOATS {
        let ways = BTreeSet::from([BAND, FRAME, LINE]);
        assert_eq!(letters_that_part(fault, &script), ways, "{fault:?}");
    }
}

/// Compares with a program that prints other text where ours begins a line so, and asks that this
/// is seen and that a script is made so small at least.
fn catch(ours: &str, theirs: &str, most: usize) {
    let impostor = |script: &[u8]| {
        let printed = String::from_utf8(print_script(script)).expect("letters and digits");
        printed.replace(&format!("\n{ours}"), &format!("\n{theirs}")).into_bytes()
    };
    // Short scripts are soon made small.
    let mut caught =
        (0..50).filter_map(|seed| compare("a script", &gen_calls(seed, 200), &impostor).err());
    let is_small =
        |told: &String| (1..=most).any(|n| told.contains(&format!("differs, of {n} records")));
    let told = caught.find(is_small).expect("the impostor goes unseen, or its scripts stay large");
    assert!(told.contains(&format!("we print  {ours}")), "{told}");
    assert!(told.contains(&format!("it prints {theirs}")), "{told}");
}

/// The comparison itself, on programs that are known to be wrong: for 10 one answers 9, one counts
/// a refused write as done, one makes a display of any number of bits, one asks a line's length
/// before its number, and one answers 14 for floats.
#[test]
fn impostors_are_caught_and_their_scripts_made_small() {
    // The update bit, the screen, a layer, its place and its size, a start.
    catch("G 0a", "G 09", 6);
    // A word among the pictures, the run.
    catch("X 01 00000001", "X 01 00000002", 2);
    catch("N 11", "N 00", 1);
    // The update bit, the screen, a start, a line.
    catch("Y 0f", "Y 0d", 4);
    // The same with a few pictures, and all that is lent to a frame.
    catch("R 12", "R 0e", 15);
}
