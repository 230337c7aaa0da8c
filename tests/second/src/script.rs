//! The script that the figures program reads, the stage on which it is played, and the line that
//! each of its records prints. What the calls do is in `display`.

use crate::answers::DONE;
use crate::bench::print_bench;
use crate::display::{Display, Painting};
use crate::floats::Floats;
use crate::paint::Pictures;
use crate::sums::{blends, checksum, fades};
use crate::tables::Bits;
use std::ops::Range;

/// A fresh display of a bits a glyph pixel, with a float buffer unless b is 0; buffers of zeros,
/// whole tables lent and nothing else.
pub const NEW: u8 = b'N';
/// Of buffer a (0 tables, 1 pictures, 3 floats, else the output) b bytes are lent from now on, and
/// b numbers of the floats.
pub const LEND: u8 = b'L';
/// The buffers by number.
pub const TABLES: u32 = 0;
pub const PICTURES: u32 = 1;
pub const OUT: u32 = 2;
pub const FLOATS: u32 = 3;
/// Tables, pictures and output filled by `pattern` from a in steps of b.
pub const FILL_TABLES: u8 = b'K';
pub const FILL_PICTURES: u8 = b'I';
pub const FILL_OUT: u8 = b'D';
/// The floats filled by `float_pattern` from a in steps of b.
pub const FILL_FLOATS: u8 = b'A';
/// The little-endian word b at byte a of the tables or the pictures.
pub const TABLE_WORD: u8 = b'Q';
pub const PICTURE_WORD: u8 = b'J';
/// The f32 whose bits are b as number a of the floats.
pub const FLOAT: u8 = b'Z';
/// Write b to register a.
pub const WRITE: u8 = b'W';
pub const SELECT: u8 = b'S';
pub const TOGGLE: u8 = b'T';
pub const START: u8 = b'G';
/// Put byte a, and then b modulo 1,024 times more.
pub const PUT: u8 = b'P';
/// How many times more a call is made stays below this.
pub const MOST_TIMES: u32 = 1_024;
/// Runs of the b bytes of the pictures from a on, or of what there is of them.
pub const PUT_RUN: u8 = b'U';
pub const WRITE_RUN: u8 = b'X';
pub const FILL: u8 = b'F';
/// Paint the band a..b.
pub const BAND: u8 = b'B';
pub const FRAME: u8 = b'R';
/// Paint line a into the output from byte b on, as many bytes as are lent or what there is of them.
pub const LINE: u8 = b'Y';
/// Each band, frame and line is made a modulo 1,024 times more, until the next of these or a new
/// display.
pub const AGAIN: u8 = b'H';
/// Prints 32 bytes of the output from a on.
pub const VIEW: u8 = b'V';
const VIEW_LEN: usize = 32;
/// Prints checksums of all blends at alpha a.
pub const BLENDS: u8 = b'M';
/// Prints checksums of fades of length a.
pub const FADES: u8 = b'E';

/// The records that call the display that there is.
pub const CALLS: [u8; 11] =
    [WRITE, SELECT, TOGGLE, START, PUT, PUT_RUN, WRITE_RUN, FILL, BAND, FRAME, LINE];

/// The buffers are longer than any right length, so that a call can be lent too much. The floats
/// have as many numbers as the pictures bytes.
const TABLES_ROOM: usize = Bits::Two.tables_len() + 16;
const PIXELS_ROOM: usize = 4_096 + 16;

/// One record: a letter and two numbers.
#[derive(Clone, Copy, Debug, PartialEq, Eq)]
pub struct Call {
    pub letter: u8,
    pub a: u32,
    pub b: u32,
}

const RECORD_LEN: usize = 20;

impl Call {
    /// The bytes that a run is made of.
    pub fn run(self, pictures: &[u8]) -> &[u8] {
        let rest = pictures.get(self.a as usize..).unwrap_or(&[]);
        &rest[..rest.len().min(self.b as usize)]
    }

    /// Where the output is that it is lent, if so many bytes are.
    pub fn lent_out(self, length: usize) -> Range<usize> {
        let first = if self.letter == LINE { PIXELS_ROOM.min(self.b as usize) } else { 0 };
        first..PIXELS_ROOM.min(first + length)
    }

    /// The painting of layers that it asks for.
    pub fn painting(self) -> Option<Painting> {
        match self.letter {
            BAND => Some(Painting::Band(self.a, self.b)),
            FRAME => Some(Painting::Frame),
            LINE => Some(Painting::Line(self.a)),
            _ => None,
        }
    }

    /// Whether it writes to the output where it is not refused.
    pub fn paints(self) -> bool {
        [FILL, BAND, FRAME, LINE].contains(&self.letter)
    }

    /// `W 00000001 00030004` and a line feed.
    pub fn text(self) -> Vec<u8> {
        let mut text = vec![self.letter];
        text.extend(format!(" {:08x} {:08x}\n", self.a, self.b).into_bytes());
        text
    }

    /// What is no digit, in lower case, counts as 0.
    fn read(text: &[u8]) -> Call {
        let digit = |byte: u8| match byte {
            b'0'..=b'9' => u32::from(byte - b'0'),
            b'a'..=b'f' => u32::from(byte - b'a') + 10,
            _ => 0,
        };
        let number =
            |at: usize| text[at..at + 8].iter().fold(0, |number, &byte| number << 4 | digit(byte));
        Call { letter: text[0], a: number(2), b: number(11) }
    }
}

pub fn script_text(calls: &[Call]) -> Vec<u8> {
    calls.iter().flat_map(|call| call.text()).collect()
}

/// The records that print every byte of the output that a call is lent.
pub fn views(stage: &Stage, call: Call) -> Vec<Call> {
    let record = |at| Call { letter: VIEW, a: at as u32, b: 0 };
    call.lent_out(stage.lent.out).step_by(VIEW_LEN).map(record).collect()
}

/// How many bytes of each buffer are lent, and how many floats.
#[derive(Clone, Copy, PartialEq, Eq)]
pub struct Lent {
    pub tables: usize,
    pub pictures: usize,
    pub floats: usize,
    pub out: usize,
}

#[derive(Clone, PartialEq, Eq)]
pub struct Stage {
    pub display: Display,
    pub tables: Vec<u8>,
    pub pictures: Vec<u8>,
    /// By their bits.
    pub floats: Vec<u32>,
    pub out: Vec<u8>,
    pub lent: Lent,
    /// How many times more a band, a frame or a line is made.
    pub more: u32,
}

impl Default for Stage {
    fn default() -> Stage {
        Stage::new()
    }
}

impl Stage {
    /// Before the first record there is a display of one bit, without a float buffer.
    pub fn new() -> Stage {
        Stage::of(Display::fresh(Bits::One, Floats::Without))
    }

    fn of(display: Display) -> Stage {
        Stage {
            lent: Lent { tables: display.bits().tables_len(), pictures: 0, floats: 0, out: 0 },
            display,
            tables: vec![0; TABLES_ROOM],
            pictures: vec![0; PIXELS_ROOM],
            floats: vec![0; PIXELS_ROOM],
            out: vec![0; PIXELS_ROOM],
            more: 0,
        }
    }

    /// Makes a display and answers the number.
    fn make(&mut self, bits: u32, floats: u32) -> u32 {
        let floats = if floats == 0 { Floats::Without } else { Floats::With };
        let (answer, display) = Display::new(bits, floats);
        *self = Stage::of(display);
        answer
    }

    /// Does what one record asks and answers the call's number, 0 where it calls nothing, and the
    /// count of a run, 0 where it makes none.
    pub fn play(&mut self, call: Call) -> (u32, usize) {
        if let Some(painting) = call.painting() {
            return (self.paint(call, painting), 0);
        }
        let Stage { display, tables, pictures, lent, .. } = self;
        match call.letter {
            PUT_RUN => display.put_run(&mut tables[..lent.tables], call.run(pictures)),
            WRITE_RUN => display.write_run(call.run(pictures)),
            _ => (self.play_one(call), 0),
        }
    }

    /// Paints layers, as often as is asked for: the last answer.
    fn paint(&mut self, call: Call, painting: Painting) -> u32 {
        let Stage { display, tables, pictures, floats, out, lent, more } = self;
        let tables = &tables[..lent.tables];
        let pictures =
            Pictures { bytes: &pictures[..lent.pictures], floats: &floats[..lent.floats] };
        let out = &mut out[call.lent_out(lent.out)];
        let paintings = (0..=*more).map(|_| painting.make(display, tables, pictures, out));
        paintings.last().expect("one at least")
    }

    /// The records that make no run and paint no layer.
    fn play_one(&mut self, call: Call) -> u32 {
        let Call { letter, a, b } = call;
        let Stage { display, tables, pictures, floats, out, lent, more } = self;
        let lent_tables = &mut tables[..lent.tables];
        match letter {
            WRITE => return display.write(a, b),
            SELECT => return display.select(a),
            TOGGLE => return display.toggle(a),
            START => return display.start(),
            PUT => {
                let puts = (0..=b % MOST_TIMES).map(|_| display.put(lent_tables, a as u8));
                return puts.last().expect("one at least");
            }
            FILL => return display.fill(&mut out[call.lent_out(lent.out)]),
            NEW => return self.make(a, b),
            AGAIN => *more = a % MOST_TIMES,
            LEND => self.lend(a, b as usize),
            FILL_TABLES => pattern(tables, a, b, false),
            FILL_PICTURES => pattern(pictures, a, b, true),
            FILL_OUT => pattern(out, a, b, false),
            FILL_FLOATS => float_pattern(floats, a, b),
            TABLE_WORD => store(tables, a, b),
            PICTURE_WORD => store(pictures, a, b),
            FLOAT => floats.iter_mut().skip(a as usize).take(1).for_each(|number| *number = b),
            _ => {}
        }
        DONE
    }

    /// More than a buffer has is all of it.
    fn lend(&mut self, buffer: u32, length: usize) {
        match buffer {
            TABLES => self.lent.tables = length.min(TABLES_ROOM),
            PICTURES => self.lent.pictures = length.min(PIXELS_ROOM),
            FLOATS => self.lent.floats = length.min(PIXELS_ROOM),
            _ => self.lent.out = length.min(PIXELS_ROOM),
        }
    }

    /// The line that a record prints: its letter, the answer, the count, what the state tells, and
    /// the checksums of all tables and all output. The last three letters print what they are for.
    fn line(&mut self, call: Call) -> Vec<u8> {
        let columns = match call.letter {
            VIEW => self.view(call.a),
            BLENDS => format!(" {:02x}{}", call.a % 256, columns(&blends(call.a % 256))),
            FADES => format!(" {:04x}{}", call.a % 65_536, columns(&fades(call.a % 65_536))),
            _ => {
                let (answer, done) = self.play(call);
                let Stage { display, tables, out, .. } = self;
                let told = [display.errors(), display.frame_number()];
                let (width, height) = (display.width(), display.height());
                let sums = [checksum(tables), checksum(out)];
                let (told, sums) = (columns(&told), columns(&sums));
                format!(" {answer:02x} {done:08x}{told} {width:03x} {height:03x}{sums}")
            }
        };
        [&[call.letter][..], columns.as_bytes(), b"\n"].concat()
    }

    fn view(&self, first: u32) -> String {
        let byte = |i| self.out.get(first as usize + i).copied().unwrap_or(0);
        (0..VIEW_LEN).map(|i| format!(" {:02x}", byte(i))).collect()
    }
}

fn columns(numbers: &[u32]) -> String {
    numbers.iter().map(|number| format!(" {number:08x}")).collect()
}

/// As much of a word as lies in the buffer.
fn store(buffer: &mut [u8], at: u32, word: u32) {
    let places = buffer.iter_mut().skip(at as usize);
    places.zip(word.to_le_bytes()).for_each(|(place, byte)| *place = byte);
}

/// Each byte is the highest of a number that goes up by a step from byte to byte. In pixels each
/// fourth is an alpha, and the lowest and highest three eighths of the numbers give 0 and 255.
fn pattern(buffer: &mut [u8], first: u32, step: u32, pixels: bool) {
    let mut number = first;
    for (i, byte) in buffer.iter_mut().enumerate() {
        *byte = if pixels && i % 4 == 3 {
            (i64::from(number >> 22) - 384).clamp(0, 255) as u8
        } else {
            (number >> 24) as u8
        };
        number = number.wrapping_add(step);
    }
}

/// Each number's bits go up with those of a number that goes up by a step, from less than a 680th
/// to almost one and a half. Each fourth is an alpha, and the lowest and highest three eighths give
/// 0.0 and 1.0.
fn float_pattern(floats: &mut [u32], first: u32, step: u32) {
    const LEAST: u32 = 0x3AC0_0000;
    const ONE: u32 = 0x3F80_0000;
    let mut number = first;
    for (i, float) in floats.iter_mut().enumerate() {
        *float = match number >> 22 {
            ..384 if i % 4 == 3 => 0,
            640.. if i % 4 == 3 => ONE,
            _ => LEAST + number / 64 + number / 256,
        };
        number = number.wrapping_add(step);
    }
}

/// All that the figures program prints for a script: the bench figures, and a line a record. What
/// is left of a last record is no record.
pub fn print_script(text: &[u8]) -> Vec<u8> {
    let mut stage = Stage::new();
    let mut printed = print_bench().into_bytes();
    for record in text.chunks_exact(RECORD_LEN) {
        printed.extend(stage.line(Call::read(record)));
    }
    printed
}
