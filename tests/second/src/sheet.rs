//! 01 "Sheet program and host entry", its first two paragraphs: lines of hexadecimal, one frame a
//! line. 02 K2: "the sheet program has one" bit, K7: it has no float buffer.

use crate::answers::DONE;
use crate::display::Display;
use crate::floats::Floats;
use crate::paint::Pictures;
use crate::tables::Bits;

/// "at most 8,192 digits"
pub const MOST_DIGITS: usize = 8_192;
/// "At most 4,096 output bytes are lent"
pub const MOST_OUTPUT: usize = 4_096;

/// "the sheet program has one"
const BITS: Bits = Bits::One;

/// One well formed line: what to load, what to write, and the pictures.
#[derive(Clone, Debug, Default)]
pub struct Line {
    pub loads: Vec<Load>,
    pub writes: Vec<Write>,
    pub pictures: Vec<u8>,
}

#[derive(Clone, Debug)]
pub struct Load {
    pub selection: u8,
    pub bytes: Vec<u8>,
}

#[derive(Clone, Debug)]
pub struct Write {
    pub register: u8,
    pub value: u32,
}

/// Takes numbers off the front of a line's bytes; None where the line ends too soon.
struct Reader<'a> {
    rest: &'a [u8],
}

impl<'a> Reader<'a> {
    fn take(&mut self, count: usize) -> Option<&'a [u8]> {
        let (taken, rest) = self.rest.split_at_checked(count)?;
        self.rest = rest;
        Some(taken)
    }

    /// A number of that many bytes, most significant first.
    fn number(&mut self, count: usize) -> Option<u32> {
        Some(self.take(count)?.iter().fold(0, |number, &byte| number << 8 | u32::from(byte)))
    }
}

/// "input digits may be either" case.
fn digit(byte: u8) -> Option<u8> {
    match byte {
        b'0'..=b'9' => Some(byte - b'0'),
        b'A'..=b'F' => Some(byte - b'A' + 10),
        b'a'..=b'f' => Some(byte - b'a' + 10),
        _ => None,
    }
}

/// The bytes that digits stand for, two digits a byte; None where there is an odd number of them or
/// some other byte.
pub fn read_digits(text: &[u8]) -> Option<Vec<u8>> {
    let digits: Option<Vec<u8>> = text.iter().map(|&byte| digit(byte)).collect();
    digits?.chunks(2).map(|pair| Some(16 * pair[0] + pair.get(1)?)).collect()
}

impl Line {
    /// "two digits for the number of loads, each load being selection (2), byte count (4), bytes;
    /// two digits for the number of writes, each register (2), value (8); picture byte count (4),
    /// bytes." None is a "badly formed, empty or too long line". Every part has an even number of
    /// digits, so digits are first read in pairs.
    pub fn read(text: &[u8]) -> Option<Line> {
        if text.len() > MOST_DIGITS {
            return None;
        }
        let bytes = read_digits(text)?;
        let mut reader = Reader { rest: &bytes };
        let mut line = Line::default();
        for _ in 0..reader.number(1)? {
            let selection = reader.number(1)? as u8;
            let count = reader.number(2)? as usize;
            line.loads.push(Load { selection, bytes: reader.take(count)?.to_vec() });
        }
        for _ in 0..reader.number(1)? {
            let register = reader.number(1)? as u8;
            line.writes.push(Write { register, value: reader.number(4)? });
        }
        let count = reader.number(2)? as usize;
        line.pictures = reader.take(count)?.to_vec();
        // "anything after the picture bytes, is bad form"
        reader.rest.is_empty().then_some(line)
    }
}

/// "State and tables, all zero at first, carry over from line to line."
#[derive(Clone)]
pub struct Sheet {
    pub display: Display,
    pub tables: Vec<u8>,
}

impl Default for Sheet {
    fn default() -> Sheet {
        Sheet::new()
    }
}

impl Sheet {
    pub fn new() -> Sheet {
        let display = Display::fresh(BITS, Floats::Without);
        Sheet { display, tables: vec![0; BITS.tables_len()] }
    }

    /// The printed line, with its line feed. "A badly formed, empty or too long line prints FE and
    /// does nothing."
    pub fn line(&mut self, text: &[u8]) -> Vec<u8> {
        let Some(line) = Line::read(text) else {
            return b"FE\n".to_vec();
        };
        // "After a refusal the line's other steps are left out, except the start, done once for
        // each well formed line." and "A refusal prints the first number met."
        let steps = self.loads_and_writes(&line);
        let start = self.display.start();
        let mut answer = if steps != DONE { steps } else { start };
        let mut out = vec![0; self.lent_output()];
        if answer == DONE {
            let pictures = Pictures::of_bytes(&line.pictures);
            answer = self.display.frame(&self.tables, pictures, &mut out);
        }
        let mut printed = format!("{answer:02X}");
        if answer == DONE {
            // "after 00 also error word (8), width (4), height (4), bytes"
            let (width, height) = (self.display.width(), self.display.height());
            printed += &format!("{:08X}{width:04X}{height:04X}", self.display.errors());
            printed.extend(out.iter().map(|byte| format!("{byte:02X}")));
        }
        printed.push('\n');
        printed.into_bytes()
    }

    /// The loads and then the writes, up to the first refusal, which it answers.
    pub fn loads_and_writes(&mut self, line: &Line) -> u32 {
        for load in &line.loads {
            let answer = self.display.select(u32::from(load.selection));
            if answer != DONE {
                return answer;
            }
            for &byte in &load.bytes {
                let answer = self.display.put(&mut self.tables, byte);
                if answer != DONE {
                    return answer;
                }
            }
        }
        for write in &line.writes {
            let answer = self.display.write(u32::from(write.register), write.value);
            if answer != DONE {
                return answer;
            }
        }
        DONE
    }

    /// "At most 4,096 output bytes are lent; larger screens answer 13 (0D)."
    fn lent_output(&self) -> usize {
        MOST_OUTPUT.min(self.display.active().output_len() as usize)
    }
}

/// What a whole sheet prints.
pub fn print_sheet(text: &[u8]) -> Vec<u8> {
    let mut sheet = Sheet::new();
    read_lines(text).into_iter().flat_map(|line| sheet.line(line)).collect()
}

/// "Lines end with a line feed; a last line without one counts if it has any byte."
pub fn read_lines(text: &[u8]) -> Vec<&[u8]> {
    let mut lines: Vec<&[u8]> = text.split(|&byte| byte == b'\n').collect();
    // What follows the last line feed is a line only if it has any byte.
    if lines.last().is_some_and(|last| last.is_empty()) {
        lines.pop();
    }
    lines
}
