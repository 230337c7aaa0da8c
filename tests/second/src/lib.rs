//! A second on-screen display, written from documents 01 and 02 alone and sharing no code with the
//! first. It is plain and slow: every pixel is worked out by itself. "01" in a header names a
//! section of that document, "02" a request of the other.

pub mod answers;
pub mod bench;
pub mod beside;
pub mod cases;
pub mod display;
pub mod doors;
pub mod draw;
pub mod fade;
pub mod floats;
pub mod host;
pub mod mend;
pub mod paint;
pub mod rng;
pub mod script;
pub mod sheet;
pub mod stale;
pub mod state;
pub mod sums;
pub mod tables;
pub mod words;
