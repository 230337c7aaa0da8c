//! The laws of runs (02 K1) on the calls from C: a run is its single calls, and two runs are one.
//! Nothing is compared with what this display does. A case that fails is told with its seed.
//!
//!   SPOONWING_DISPLAY   the C program, ../../tools/c-display unless set
//!   SPOONWING_SEED      tries the case of this one seed only

use second::answers::DONE;
use second::beside::{try_all, with_fault, Calls, Doors, Tried};
use second::cases::{end_name, gen_run, item_len, RunCase};
use second::doors::*;
use second::state::{read_state, ERRORS_AT, STATE_LEN};
use second::tables::{Bits, Kind};
use std::cell::RefCell;

const CASES: u64 = 400;

/// What a call answers, with its count, and leaves.
struct Left {
    answer: u32,
    done: u64,
    state: Vec<u8>,
    tables: Vec<u8>,
}

/// What there is before the first call and after each, from a case's state and tables on.
fn play(calls: Calls, case: &RunCase, steps: &[Step]) -> Result<Vec<Left>, String> {
    let stores = [(STATE, &case.state), (TABLES, &case.tables)];
    let stores = stores.map(|(buffer, bytes)| Step::Store { buffer, bytes: bytes.clone() });
    let all = calls(&[&stores, steps].concat());
    if all.len() != steps.iter().filter(|step| matches!(step, Step::Call { .. })).count() {
        return Err("the program ends".into());
    }
    let (state, mut tables) = (case.state.clone(), case.tables.clone());
    let mut left = vec![Left { answer: DONE, done: 0, state, tables: tables.clone() }];
    for told in all {
        if told.is_touched {
            return Err("an input, or a byte beside a buffer, is touched".into());
        }
        told.changes.iter().for_each(|&(at, byte)| tables[at as usize] = byte);
        let (answer, done, tables) = (told.answer, told.done(), tables.clone());
        left.push(Left { answer, done, state: told.state, tables });
    }
    Ok(left)
}

fn call(case: &RunCase, door: Door, a: u32, b: u32, run: usize) -> Step {
    let lent = door.lent([STATE_LEN, case.tables.len(), 0, 0, 0, run, COUNT_LEN]);
    Step::Call { door, a, b, lent, null: false }
}

fn run(case: &RunCase, bytes: &[u8]) -> [Step; 2] {
    let store = Step::Store { buffer: RUN, bytes: bytes.to_vec() };
    [store, call(case, case.door, 0, 0, bytes.len())]
}

/// "register then little-endian value; fewer left at the end are no item"
fn single_calls(case: &RunCase) -> Vec<Step> {
    let single = |item: &[u8]| match *item {
        [register, a, b, c, d] => {
            call(case, Door::Write, register.into(), u32::from_le_bytes([a, b, c, d]), 0)
        }
        _ => call(case, Door::Put, item[0].into(), 0, 0),
    };
    case.run.chunks_exact(item_len(case.door)).map(single).collect()
}

/// Whether a run and other calls come to the same.
fn same(run: &Left, others: &Left) -> Result<(), String> {
    let [one, other] = [run, others].map(|left| (left.answer, left.done));
    if one != other {
        return Err(format!("it answers {one:?}, and they {other:?}"));
    }
    for (name, one, other) in
        [("state", &run.state, &others.state), ("tables", &run.tables, &others.tables)]
    {
        if let Some(at) = (0..one.len()).find(|&at| one[at] != other[at]) {
            let (one, other) = (one[at], other[at]);
            return Err(format!(
                "byte {at} of the {name} is {one} after it, and {other} after them"
            ));
        }
    }
    Ok(())
}

/// "Each must equal the single calls made in order, stopping after the first refusal with that
/// refusal's effects. It answers the refusal, or 0, and how many items were done before it, which
/// is the place of the first refused item or the length of the run."
fn is_single_calls(calls: Calls, case: &RunCase, whole: &Left) -> Result<(), String> {
    let singles = single_calls(case);
    let made = singles.len().min((whole.done as usize).saturating_add(1));
    let mut left = play(calls, case, &singles[..made])?;
    let done = left[1..].iter().take_while(|left| left.answer == DONE).count();
    let last = Left { done: done as u64, ..left.swap_remove(made.min(done + 1)) };
    same(whole, &last).map_err(|told| format!("beside its single calls, {told}"))
}

/// Two runs are one where the first is done whole, and else the first is all of it.
fn is_its_parts(calls: Calls, case: &RunCase, whole: &Left) -> Result<&'static str, String> {
    let (one, other) = case.run.split_at(case.parted);
    let mut left = play(calls, case, &[run(case, one), run(case, other)].concat())?;
    let (last, first) = (left.pop().expect("it is a call"), left.pop().expect("it is one too"));
    let is_whole = first.answer == DONE;
    let done = first.done.wrapping_add(last.done);
    let parts = if is_whole { Left { done, ..last } } else { first };
    same(whole, &parts).map_err(|told| format!("beside its parts, {told}"))?;
    Ok(match (one, other) {
        _ if !is_whole => "broken in its first part",
        ([], _) | (_, []) => "with an empty part",
        _ if parts.answer == DONE => "whole in two parts",
        _ => "broken in its second part",
    })
}

/// Both laws, on the case of a seed.
fn laws(calls: Calls, seed: u64) -> Tried {
    let case = gen_run(seed);
    let whole = play(calls, &case, &run(&case, &case.run))?.pop().expect("it is a call");
    is_single_calls(calls, &case, &whole)?;
    let parts = is_its_parts(calls, &case, &whole)?;
    let items = case.run.len() / item_len(case.door);
    let mut names = vec![format!("{}, {}", end_name(items, whole.done), whole.answer)];
    names.push(parts.into());
    let bits = read_state(&case.state).expect("it is whole").bits();
    let so = [
        ("with one bit", bits == Bits::One),
        ("with two bits", bits == Bits::Two),
        ("of one item", items == 1),
        ("of 768 items", whole.done as usize == Kind::Font.end(Bits::One)),
        ("of 1,536 items", whole.done as usize == Kind::Font.end(Bits::Two)),
        ("with bytes over", items * item_len(case.door) < case.run.len()),
    ];
    names.extend(so.iter().filter(|(_, is_so)| *is_so).map(|(name, _)| name.to_string()));
    Ok(names.into_iter().map(|name| (format!("{:?} {name}", case.door), 1)).collect())
}

#[test]
fn a_run_is_its_single_calls_and_its_parts() {
    let doors = RefCell::new(Doors::start());
    let least = [
        ("PutRun empty, 0", 15),
        ("PutRun whole, 0", 20),
        ("PutRun broken at the first, 3", 2),
        ("PutRun broken at the first, 4", 2),
        ("PutRun broken at the first, 5", 4),
        ("PutRun broken at the first, 6", 5),
        ("PutRun broken amid, 5", 15),
        ("PutRun broken at the last, 5", 5),
        ("PutRun broken in its first part", 20),
        ("PutRun broken in its second part", 9),
        ("PutRun whole in two parts", 10),
        ("PutRun with an empty part", 30),
        ("PutRun of one item", 12),
        ("PutRun of 768 items", 2),
        ("PutRun of 1,536 items", 2),
        ("PutRun with one bit", 60),
        ("PutRun with two bits", 60),
        ("WriteRun empty, 0", 15),
        ("WriteRun whole, 0", 25),
        ("WriteRun broken at the first, 1", 10),
        ("WriteRun broken amid, 1", 9),
        ("WriteRun broken at the last, 1", 9),
        ("WriteRun broken in its first part", 12),
        ("WriteRun broken in its second part", 10),
        ("WriteRun whole in two parts", 15),
        ("WriteRun with an empty part", 30),
        ("WriteRun of one item", 15),
        ("WriteRun with bytes over", 60),
        ("WriteRun with one bit", 60),
        ("WriteRun with two bits", 60),
    ];
    try_all(CASES, &least, |seed| laws(&|steps| doors.borrow_mut().row(steps), seed));
}

/// The laws themselves, on calls that are known to be wrong: a count that is one off, and an error
/// bit that is set without a refusal.
#[test]
fn impostors_are_caught() {
    let miscounts = with_fault(|door, _, told| {
        if door == Door::WriteRun && told.done() > 0 {
            told.count[0] ^= 1;
        }
    });
    let eager = with_fault(|door, stage, told| {
        if door == Door::PutRun && told.answer == DONE {
            told.state[ERRORS_AT] ^= 2;
            stage.rooms[STATE][ERRORS_AT] ^= 2;
        }
    });
    for impostor in [&miscounts as Calls, &eager] {
        assert!((0..50).any(|seed| laws(impostor, seed).is_err()));
    }
}
