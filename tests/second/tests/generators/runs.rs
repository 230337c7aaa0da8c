//! What the runs of puts and of writes reach in the rows of calls from C.

use crate::letters::bits_name;
use crate::{assert_came, Counts};
use second::answers::{BANK_FULL, WRONG_STATE};
use second::cases::{end_name, item_len};
use second::display::ITEM_LEN;
use second::doors::{Door, Told};
use second::state::{read_state, PLACE_AT, SELECTION_AT};
use second::tables::{Bank, Bits, Kind};
use second::words::WORDS;
use std::collections::BTreeSet;

/// A run on a state, with the length of the tables that it is lent.
pub struct Run<'a> {
    pub door: Door,
    pub state: &'a [u8],
    pub tables: usize,
    pub bytes: &'a [u8],
}

/// What a run does, by names.
pub fn run_kinds(run: &Run, told: &Told) -> Vec<String> {
    let door = run.door;
    let items = run.bytes.len() / item_len(door);
    let end = end_name(items, told.done());
    let mut kinds = vec![format!("{door:?} {end}, {}", told.answer)];
    kinds.extend((items == 1).then(|| format!("{door:?} of one item")));
    kinds.extend(match door {
        _ if told.answer == WRONG_STATE => Vec::new(),
        Door::PutRun => put_kinds(run, told),
        _ => write_kinds(run.bytes, told),
    });
    kinds
}

fn word(state: &[u8], at: usize) -> u32 {
    u32::from_le_bytes(state[at..at + 4].try_into().expect("four"))
}

/// What a run of puts does in its table.
fn put_kinds(run: &Run, told: &Told) -> Vec<String> {
    let mut display = read_state(run.state).expect("it is whole");
    if run.bytes.is_empty() {
        let answer = display.put(&mut vec![0; run.tables], 0);
        return vec![format!("PutRun empty where a put answers {answer}")];
    }
    let kind = Bank::of_selection(word(run.state, SELECTION_AT)).kind;
    let bits = display.bits();
    let end = kind.end(bits);
    let [place, after] = [run.state, &told.state].map(|state| word(state, PLACE_AT) as usize);
    let errors = read_state(&told.state).expect("it is whole").errors();
    let so = [
        ("just fits", after > place && after == end && told.answer != BANK_FULL),
        ("fills", after - place == end),
        ("of a font's length or more into", run.bytes.len() >= Kind::Font.end(bits)),
        ("breaks in", after > place && told.answer == BANK_FULL),
        ("sets a bit by", errors != display.errors()),
    ];
    let so = so.iter().filter(|(_, is_so)| *is_so);
    so.map(|(name, _)| format!("PutRun {name} {}", table_name(kind, bits))).collect()
}

fn table_name(kind: Kind, bits: Bits) -> String {
    format!("{kind:?} of {}", bits_name(bits))
}

/// What a run of writes has behind its items, and what its items write.
fn write_kinds(bytes: &[u8], told: &Told) -> Vec<String> {
    let items = bytes.chunks_exact(ITEM_LEN);
    let over = items.remainder();
    if bytes.len() < ITEM_LEN {
        return vec![format!("WriteRun of {} bytes alone", bytes.len())];
    }
    let mut kinds = vec![format!("WriteRun with {} bytes over, {}", over.len(), told.answer)];
    let register = |&byte: &u8| if usize::from(byte) < WORDS { "a" } else { "no" };
    let named = over.first().map(register);
    kinds.extend(named.map(|a| format!("WriteRun with bytes over that name {a} register")));
    let done: Vec<u8> = items.take(told.done() as usize).map(|item| item[0]).collect();
    let different = BTreeSet::from_iter(&done).len();
    let so = [
        ("of 768 bytes or more", bytes.len() >= 768),
        ("to one register twice", different < done.len()),
    ];
    kinds.extend(so.iter().filter(|(_, is_so)| *is_so).map(|(name, _)| format!("WriteRun {name}")));
    kinds
}

/// Runs that end, break and are refused in every place.
pub fn assert_runs(counts: &Counts) {
    assert_puts(counts);
    assert_writes(counts);
}

fn assert_puts(counts: &Counts) {
    let puts = [
        "whole, 0",
        "broken amid, 5",
        "broken at the last, 5",
        "broken at the first, 3",
        "broken at the first, 4",
        "broken at the first, 5",
        "broken at the first, 6",
        "broken at the first, 23",
        "empty, 23",
        "of one item",
    ];
    assert_came(counts, puts.map(|name| format!("PutRun {name}")), 10);
    let refusals = [0, 3, 4, 5, 6].map(|n| format!("PutRun empty where a put answers {n}"));
    assert_came(counts, refusals, 10);
    let ends =
        ["just fits", "fills", "breaks in", "of a font's length or more into", "sets a bit by"];
    for (kind, bits) in Kind::ALL.into_iter().flat_map(|kind| Bits::ALL.map(|bits| (kind, bits))) {
        let table = table_name(kind, bits);
        assert_came(counts, ends.map(|name| format!("PutRun {name} {table}")), 10);
    }
}

fn assert_writes(counts: &Counts) {
    let writes = [
        "whole, 0",
        "broken at the first, 1",
        "broken amid, 1",
        "broken at the last, 1",
        "broken at the first, 23",
        "empty, 23",
        "of one item",
        "of 768 bytes or more",
        "with bytes over that name a register",
        "with bytes over that name no register",
        "to one register twice",
    ];
    assert_came(counts, writes.map(|name| format!("WriteRun {name}")), 10);
    for n in 0..ITEM_LEN {
        let over = [0, 1].map(|answer| format!("WriteRun with {n} bytes over, {answer}"));
        assert_came(counts, over, 10);
        assert_came(counts, [format!("WriteRun of {n} bytes alone")], 10);
    }
}
