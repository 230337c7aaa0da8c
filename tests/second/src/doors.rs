//! The sixteen calls of the display from C, each on lent bytes, and rows of such calls: what the
//! owner of the buffers stores in them, what is lent to each call, and what a call tells.

use crate::answers::WRONG_STATE;
use crate::display::{Display, Painting};
use crate::floats::{numbers_of, Floats, FLOAT_LEN};
use crate::paint::Pictures;
use crate::state::{read_state, state_bytes};

#[derive(Clone, Copy, Debug, PartialEq, Eq)]
pub enum Door {
    New,
    Write,
    Select,
    Toggle,
    Start,
    Put,
    Fill,
    Paint,
    Frame,
    Line,
    PutRun,
    WriteRun,
    ErrorWord,
    FrameNumber,
    OutputWidth,
    OutputHeight,
}

/// The buffers by number.
pub const STATE: usize = 0;
pub const TABLES: usize = 1;
pub const PICTURES: usize = 2;
/// Numbers, of which whole ones are lent.
pub const FLOATS: usize = 3;
pub const OUTPUT: usize = 4;
pub const RUN: usize = 5;
/// Where a run's count is written, a `size_t`.
pub const COUNT: usize = 6;
pub const BUFFERS: usize = 7;

pub const COUNT_LEN: usize = 8;

/// What the bytes of a buffer are counted and aligned by: floats and a `size_t` are whole.
pub fn unit(buffer: usize) -> usize {
    match buffer {
        FLOATS => FLOAT_LEN,
        COUNT => COUNT_LEN,
        _ => 1,
    }
}

/// How far past an address that sixteen divides a buffer may begin: anywhere where it is aligned.
pub fn places(buffer: usize) -> Vec<usize> {
    (0..16).step_by(unit(buffer)).collect()
}

impl Door {
    pub const ALL: [Door; 16] = [
        Door::New,
        Door::Write,
        Door::Select,
        Door::Toggle,
        Door::Start,
        Door::Put,
        Door::Fill,
        Door::Paint,
        Door::Frame,
        Door::Line,
        Door::PutRun,
        Door::WriteRun,
        Door::ErrorWord,
        Door::FrameNumber,
        Door::OutputWidth,
        Door::OutputHeight,
    ];

    pub fn is_read(self) -> bool {
        self as u32 >= Door::ErrorWord as u32
    }

    /// Whether a call is lent that buffer.
    pub fn takes(self, buffer: usize) -> bool {
        match buffer {
            STATE => true,
            TABLES => self.takes(PICTURES) || matches!(self, Door::Put | Door::PutRun),
            PICTURES | FLOATS => matches!(self, Door::Paint | Door::Frame | Door::Line),
            OUTPUT => self.takes(PICTURES) || self == Door::Fill,
            _ => matches!(self, Door::PutRun | Door::WriteRun),
        }
    }

    /// So many bytes of each buffer that it takes, each from where sixteen divides.
    pub fn lent(self, lengths: [usize; BUFFERS]) -> [Lent; BUFFERS] {
        let length = |buffer: usize| if self.takes(buffer) { lengths[buffer] } else { 0 };
        std::array::from_fn(|buffer| Lent { length: length(buffer), past: 0 })
    }
}

/// The bytes that are lent to one call.
pub struct LentBytes<'a> {
    pub state: &'a mut [u8],
    pub tables: &'a mut [u8],
    pub pictures: Pictures<'a>,
    pub out: &'a mut [u8],
    pub run: &'a [u8],
    pub count: &'a mut [u8],
}

/// One call, with its one or two numbers: bits a glyph pixel, register and value, selection, bits
/// to toggle, byte, the ends of a band, or a line. "A state of another length: answer 23,
/// everything unchanged; the reads give 0 then." A count is written by every call that is lent its
/// place, with 23 as 0.
pub fn call(door: Door, a: u32, b: u32, lent: LentBytes) -> u32 {
    let LentBytes { state, tables, pictures, out, run, count } = lent;
    let Some(mut display) = read_state(state) else {
        count.fill(0);
        return if door.is_read() { 0 } else { WRONG_STATE };
    };
    let answer = match door {
        // Whatever the bytes said before, float layers are let in.
        Door::New => {
            let (answer, fresh) = Display::new(a, Floats::With);
            display = fresh;
            answer
        }
        Door::Write => display.write(a, b),
        Door::Select => display.select(a),
        Door::Toggle => display.toggle(a),
        Door::Start => display.start(),
        Door::Put => display.put(tables, a as u8),
        Door::Fill => display.fill(out),
        Door::Paint => display.paint(a, b, tables, pictures, out),
        Door::Frame => display.frame(tables, pictures, out),
        Door::Line => display.line(a, tables, pictures, out),
        Door::PutRun => counted(display.put_run(tables, run), count),
        Door::WriteRun => counted(display.write_run(run), count),
        Door::ErrorWord => return display.errors(),
        Door::FrameNumber => return display.frame_number(),
        Door::OutputWidth => return display.width() as u32,
        Door::OutputHeight => return display.height() as u32,
    };
    state.copy_from_slice(&state_bytes(&display));
    answer
}

/// Writes the count of a run and hands on its answer.
fn counted((answer, done): (u32, usize), count: &mut [u8]) -> u32 {
    count.copy_from_slice(&(done as u64).to_le_bytes());
    answer
}

// ---- rows

/// How many bytes each buffer's owner has; a call is lent some of them, from the first on.
pub const ROOM: usize = 1 << 18;

/// So many bytes, the first of them that far past an address that sixteen divides.
#[derive(Clone, Copy, Debug, Default, PartialEq, Eq)]
pub struct Lent {
    pub length: usize,
    pub past: usize,
}

/// A step of a row.
#[derive(Clone, Debug, PartialEq, Eq)]
pub enum Step {
    /// The owner of a buffer stores these bytes in it, from the first on.
    Store { buffer: usize, bytes: Vec<u8> },
    /// A call. What it does not take has the length 0.
    Call {
        door: Door,
        a: u32,
        b: u32,
        lent: [Lent; BUFFERS],
        /// Whether a buffer of no bytes is passed as NULL.
        null: bool,
    },
}

impl Step {
    /// The painting of layers that it is.
    pub fn painting(&self) -> Option<Painting> {
        match *self {
            Step::Call { door: Door::Paint, a, b, .. } => Some(Painting::Band(a, b)),
            Step::Call { door: Door::Frame, .. } => Some(Painting::Frame),
            Step::Call { door: Door::Line, a, .. } => Some(Painting::Line(a)),
            _ => None,
        }
    }

    /// As `display_calls.c` reads it, with the bytes that are stored.
    pub fn record(&self) -> Vec<u8> {
        const STORE: u32 = Door::ALL.len() as u32;
        match self {
            Step::Store { buffer, bytes } => {
                let numbers = [STORE, *buffer as u32, bytes.len() as u32, 0];
                [record(numbers, &Default::default()), bytes.clone()].concat()
            }
            Step::Call { door, a, b, lent, null } => {
                record([*door as u32, *a, *b, u32::from(*null)], lent)
            }
        }
    }
}

/// The record that begins a row: all buffers are zero again.
pub fn begin_record() -> Vec<u8> {
    const BEGIN: u32 = Door::ALL.len() as u32 + 1;
    record([BEGIN, 0, 0, 0], &Default::default())
}

/// Eighteen little-endian numbers.
fn record(numbers: [u32; 4], lent: &[Lent; BUFFERS]) -> Vec<u8> {
    let lengths = lent.iter().map(|lent| lent.length as u32);
    let past = lent.iter().map(|lent| lent.past as u32);
    numbers.into_iter().chain(lengths).chain(past).flat_map(u32::to_le_bytes).collect()
}

/// What is seen of a call.
#[derive(Clone, Debug, PartialEq, Eq)]
pub struct Told {
    pub answer: u32,
    /// Whether a byte was touched that no call may touch: beside a buffer, or of an input.
    pub is_touched: bool,
    /// All bytes that are lent as the state.
    pub state: Vec<u8>,
    /// Each byte of the tables that is another one now, with its place; all others stay.
    pub changes: Vec<(u32, u8)>,
    /// All bytes that are lent as the output.
    pub out: Vec<u8>,
    /// All bytes that are lent for the count.
    pub count: Vec<u8>,
}

impl Told {
    /// The count of a run, and 0 of another call.
    pub fn done(&self) -> u64 {
        self.count.iter().rev().fold(0, |n, &byte| n << 8 | u64::from(byte))
    }
}

/// The buffers with all that their owner has.
pub struct Stage {
    pub rooms: [Vec<u8>; BUFFERS],
}

impl Default for Stage {
    fn default() -> Stage {
        Stage::new()
    }
}

impl Stage {
    /// All zero, so the state is a fresh one.
    pub fn new() -> Stage {
        Stage { rooms: [(); BUFFERS].map(|()| vec![0; ROOM]) }
    }

    /// What this display tells of a step, if it is a call.
    pub fn play(&mut self, step: &Step) -> Option<Told> {
        match step {
            Step::Store { buffer, bytes } => {
                self.rooms[*buffer][..bytes.len()].copy_from_slice(bytes);
                None
            }
            Step::Call { door, a, b, lent, .. } => Some(self.call(*door, *a, *b, lent)),
        }
    }

    fn call(&mut self, door: Door, a: u32, b: u32, lent: &[Lent; BUFFERS]) -> Told {
        let [state, tables, pictures, floats, out, run, count] = &mut self.rooms;
        let state = &mut state[..lent[STATE].length];
        let tables = &mut tables[..lent[TABLES].length];
        let floats = numbers_of(&floats[..lent[FLOATS].length]);
        let pictures = Pictures { bytes: &pictures[..lent[PICTURES].length], floats: &floats };
        let out = &mut out[..lent[OUTPUT].length];
        let run = &run[..lent[RUN].length];
        let count = &mut count[..lent[COUNT].length];
        let before = tables.to_vec();
        let answer = call(door, a, b, LentBytes { state, tables, pictures, out, run, count });
        let changes = changes(&before, tables);
        let [state, out, count] = [&*state, &*out, &*count].map(<[u8]>::to_vec);
        Told { answer, is_touched: false, state, changes, out, count }
    }
}

/// Each byte that is another one now, with its place. Most calls leave all, which is soon seen.
fn changes(before: &[u8], after: &[u8]) -> Vec<(u32, u8)> {
    if before == after {
        return Vec::new();
    }
    let changed = (0..after.len()).filter(|&at| after[at] != before[at]);
    changed.map(|at| (at as u32, after[at])).collect()
}
