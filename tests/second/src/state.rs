//! The state as the calls from C have it: 440 bytes, 110 little-endian words of 32 bits. Every 440
//! bytes stand for some state.

use crate::display::{Display, Selected};
use crate::floats::Floats;
use crate::tables::Bits;
use crate::words::{field, Words, WORDS};

pub const STATE_LEN: usize = 440;

/// The places of the parts: "pending registers 0..51 at byte 0, active registers 0..51 at byte 208,
/// frame number at 416, error word at 420, selected at 424 (0: nothing is selected; any other:
/// something is), selection number at 428, place at 432, profile at 436 (bit 0 set: two bits a
/// glyph pixel; clear: one; bit 1 set: no float layer is let in; clear: they are; its other bits
/// count for nothing)".
pub const PENDING_AT: usize = 0;
pub const ACTIVE_AT: usize = 208;
pub const FRAME_AT: usize = 416;
pub const ERRORS_AT: usize = 420;
pub const SELECTED_AT: usize = 424;
pub const SELECTION_AT: usize = 428;
pub const PLACE_AT: usize = 432;
pub const PROFILE_AT: usize = 436;

/// The state that bytes stand for; None where they are not 440.
pub fn read_state(bytes: &[u8]) -> Option<Display> {
    if bytes.len() != STATE_LEN {
        return None;
    }
    let word = |at: usize| u32::from_le_bytes(bytes[at..at + 4].try_into().expect("four bytes"));
    let words = |at: usize| Words(std::array::from_fn(|register| word(at + 4 * register)));
    Some(Display {
        bits: if field(word(PROFILE_AT), 0, 0) == 1 { Bits::Two } else { Bits::One },
        floats: if field(word(PROFILE_AT), 1, 1) == 1 { Floats::Without } else { Floats::With },
        pending: words(PENDING_AT),
        active: words(ACTIVE_AT),
        frame: word(FRAME_AT),
        errors: word(ERRORS_AT),
        selected: Selected {
            is_any: word(SELECTED_AT) != 0,
            selection: word(SELECTION_AT),
            place: word(PLACE_AT),
        },
    })
}

/// The canonical bytes of a state: "the calls write 0 or 1" for selected, and 0 to 3 for the
/// profile.
pub fn state_bytes(display: &Display) -> [u8; STATE_LEN] {
    let mut bytes = [0; STATE_LEN];
    let mut store = |at: usize, word: u32| bytes[at..at + 4].copy_from_slice(&word.to_le_bytes());
    for register in 0..WORDS {
        store(PENDING_AT + 4 * register, display.pending.0[register]);
        store(ACTIVE_AT + 4 * register, display.active.0[register]);
    }
    store(FRAME_AT, display.frame);
    store(ERRORS_AT, display.errors);
    store(SELECTED_AT, u32::from(display.selected.is_any));
    store(SELECTION_AT, display.selected.selection);
    store(PLACE_AT, display.selected.place);
    let closed = u32::from(display.floats == Floats::Without);
    store(PROFILE_AT, u32::from(display.bits == Bits::Two) + 2 * closed);
    bytes
}
