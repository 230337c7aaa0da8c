//! The example that keeps a display beside this one: the calls of `examples/caption.c` are made
//! here too, and its tables, its state and its frame have to be ours.
//!
//!   SPOONWING_CAPTION   the folder that `tools/caption` leaves, ../../target/caption unless set

use second::answers::{BANK_FULL, DONE};
use second::beside::program;
use second::display::Display;
use second::floats::Floats;
use second::host::image_words;
use second::paint::Pictures;
use second::state::state_bytes;
use second::tables::{Bank, Bits, Kind};
use std::fs;

/// The bytes of a file that `tools/caption` leaves.
fn left(name: &str) -> Vec<u8> {
    let path = program("SPOONWING_CAPTION", "../../target/caption").join(name);
    fs::read(&path).unwrap_or_else(|error| panic!("{} is not read: {error}", path.display()))
}

/// The caption's tables in bank 1 of controller 0, and a byte too many, whose error bit is cleared.
fn load(display: &mut Display, given: &[u8]) -> Vec<u8> {
    let mut tables = vec![0; display.bits().tables_len()];
    for bank in Kind::ALL.map(|kind| Bank { g: 0, kind, b: 1 }) {
        assert_eq!(display.select(bank.selection()), DONE);
        for &byte in display.tables(given).bank(bank) {
            assert_eq!(display.put(&mut tables, byte), DONE);
        }
    }
    assert_eq!(display.put(&mut tables, 0), BANK_FULL);
    assert_eq!(display.errors(), 0b10);
    display.toggle(0b10);
    tables
}

#[test]
fn the_kept_display_is_ours() {
    let (theirs, pictures) = (left("output.bin"), left("pictures.bin"));
    let mut display = Display::fresh(Bits::One, Floats::With);
    let tables = load(&mut display, &left("tables.bin"));
    assert!(tables == left("tables.bin"), "other tables than the caption's are loaded");
    let words = image_words(&left("image.bin")).expect("it is whole");
    for (register, word) in (0..).zip(words.0) {
        assert_eq!(display.write(register, word), DONE);
    }
    assert_eq!(display.start(), DONE);
    // What the output held does not count, so ours does not begin as the example's zeros do.
    let mut ours = vec![0xA5; theirs.len()];
    assert_eq!(display.fill(&mut ours), DONE);
    let filled = ours.clone();
    for (low, high) in [(0, 4), (4, 8)] {
        let before = ours.clone();
        let pictures = Pictures::of_bytes(&pictures);
        assert_eq!(display.paint(low, high, &tables, pictures, &mut ours), DONE);
        assert!(ours != before, "nothing is seen of the band {low}..{high}");
    }
    assert!(state_bytes(&display)[..] == left("state.bin"), "the example leaves another state");
    assert!(filled != ours && display.errors() == 0);
    if let Some(at) = (0..ours.len()).find(|&at| theirs[at] != ours[at]) {
        panic!("byte {at} is {}, and {} with us", theirs[at], ours[at]);
    }
}
