//! Runs of puts and of writes (02 K1), by where they end or break, and cases for their laws.

use crate::cases::damage;
use crate::display::{Display, Selected, ITEM_LEN};
use crate::doors::Door;
use crate::rng::Rng;
use crate::state::{read_state, state_bytes};
use crate::tables::{Bank, Kind};
use crate::words::WORDS;

/// Bytes to put, over and over: none, a few, what the selected table just has room for, more than
/// that, or as many as the longest table has and more.
pub fn puts(rng: &mut Rng, bytes: &[u8], display: &Display) -> Vec<u8> {
    let Selected { selection, place, .. } = display.selected;
    let end = Bank::of_selection(selection).kind.end(display.bits);
    let left = end.saturating_sub(place as usize);
    let (few, long) = (rng.below(24), Kind::Font.end(display.bits));
    let count = rng.pick(&[0, 1, few, left, left, left + 1, left + few, long, long + few]);
    bytes.iter().copied().cycle().take(count).collect()
}

/// Any writes, in half of the runs one to no register, and behind them up to four bytes that are no
/// item.
pub fn writes(rng: &mut Rng) -> Vec<u8> {
    let count = rng.pick(&[0, 0, 1, 1, 2, 3, 8, WORDS, 300]);
    let any = |rng: &mut Rng| (rng.below(WORDS) as u8, rng.u32());
    let mut items: Vec<(u8, u32)> = (0..count).map(|_| any(rng)).collect();
    if count > 0 && rng.percent(50) {
        items[rng.pick(&[0, count / 2, count / 2, count - 1])].0 =
            rng.pick(&[52, 53, 64, 128, 255]);
    }
    let over = rng.below(ITEM_LEN);
    [write_bytes(items), rng.bytes(over)].concat()
}

/// Register then little-endian value, for each write.
pub fn write_bytes(items: impl IntoIterator<Item = (u8, u32)>) -> Vec<u8> {
    let item = |(register, value): (u8, u32)| [vec![register], value.to_le_bytes().into()].concat();
    items.into_iter().flat_map(item).collect()
}

pub fn item_len(door: Door) -> usize {
    if door == Door::PutRun {
        1
    } else {
        ITEM_LEN
    }
}

/// Where a run of so many items ends, by name.
pub fn end_name(items: usize, done: u64) -> &'static str {
    match done as usize {
        _ if items == 0 => "empty",
        done if done == items => "whole",
        0 => "broken at the first",
        done if done + 1 == items => "broken at the last",
        _ => "broken amid",
    }
}

// ---- laws

/// A run, what it is made on, and after how many of its bytes, between two items, it is parted.
pub struct RunCase {
    pub door: Door,
    pub state: Vec<u8>,
    pub tables: Vec<u8>,
    pub run: Vec<u8>,
    pub parted: usize,
}

pub fn gen_run(seed: u64) -> RunCase {
    // Kept apart from the other cases' seeds.
    let mut rng = Rng::new(seed ^ 0x7275_6E73);
    let mut display = read_state(&damage::state(&mut rng)).expect("it is whole");
    if rng.percent(85) {
        make_ready(&mut rng, &mut display);
    }
    let bytes = rng.bytes(97);
    let door = rng.pick(&[Door::PutRun, Door::WriteRun]);
    let run = match door {
        Door::PutRun => puts(&mut rng, &bytes, &display),
        _ => writes(&mut rng),
    };
    let right = display.bits.tables_len();
    let wrong = rng.pick(&[0, right - 1, right + 1, display.bits.other().tables_len()]);
    let length = match door {
        Door::PutRun if rng.percent(10) => wrong,
        Door::PutRun => right,
        _ => 0,
    };
    let parted = item_len(door) * rng.below(run.len() / item_len(door) + 1);
    RunCase { door, state: state_bytes(&display).into(), tables: rng.bytes(length), run, parted }
}

/// Selects a table that can be put to, as a rule near its end; now and then none.
fn make_ready(rng: &mut Rng, display: &mut Display) {
    let Bank { g, kind, .. } = Bank::of_selection(display.selected.selection);
    let idle = Bank { g, kind, b: 1 - display.active.bank(kind, g) };
    let place = if rng.percent(15) { 0 } else { kind.end(display.bits) - rng.below(24) };
    let selection = idle.selection();
    display.selected = Selected { is_any: rng.percent(95), selection, place: place as u32 };
}
