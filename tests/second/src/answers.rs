//! 01 "Answers by number", row for row, what 02 adds to them, and the number that the calls from C
//! have beside them.

/// "done"
pub const DONE: u32 = 0;
/// "write: register above 51"
pub const NO_REGISTER: u32 = 1;
/// "select: above 63"
pub const NO_BANK: u32 = 2;
/// "put: nothing selected"
pub const NOTHING_SELECTED: u32 = 3;
/// "put: the active word 3 names the selected bank"
pub const BANK_ACTIVE: u32 = 4;
/// "put: place is at the kind's end"
pub const BANK_FULL: u32 = 5;
/// "put, paint: tables not 29,696 bytes"; 02 K2: "6 compares with the chosen length, in the host
/// entry with both"
pub const WRONG_TABLES: u32 = 6;
/// "start: a reserved bit is set in any pending word"; 02 K7: "7 now for bits 1 and 2 together"
pub const RESERVED_BIT: u32 = 7;
/// "start: output width or height 0"
pub const NO_OUTPUT: u32 = 8;
/// "start: enabled layer with width or height 0"
pub const EMPTY_LAYER: u32 = 9;
/// "start: enabled layer with x+width > output width, or y+height > output height"
pub const LAYER_OUTSIDE: u32 = 10;
/// "start: two enabled layers of one depth"
pub const SAME_DEPTH: u32 = 11;
/// "fill, paint: active output size still 0"
pub const NOTHING_ACTIVE: u32 = 12;
/// "fill, paint: output not 4·width·height bytes"; 02 K3: "13 against 4·width"
pub const WRONG_OUTPUT: u32 = 13;
/// "paint: pictures of the wrong total length"
pub const WRONG_PICTURES: u32 = 14;
/// "paint a band: lower end above upper, or upper above 8"; 02 K3: "15 for a line number at or past
/// the height"
pub const WRONG_BAND: u32 = 15;
/// "host entry: register image not 208 bytes"
pub const WRONG_IMAGE: u32 = 16;
/// 02 K2: "17 for a bit number other than 1 or 2 when making a state"
pub const WRONG_BITS: u32 = 17;
/// 02 K7: "18 for a float buffer of the wrong total length, after 14"
pub const WRONG_FLOATS: u32 = 18;
/// A call from C whose state is not 440 bytes.
pub const WRONG_STATE: u32 = 23;
