//! Lines of a frame (02 K3): numbers of lines, right ones and wrong ones; displays painted by all
//! of their lines; line calls with every set of faults.

use crate::answers::*;
use crate::cases::drawings::drawing_calls;
use crate::cases::floats::floats;
use crate::cases::hosts::{frame_number, tables, wrong_len};
use crate::cases::scene::{pictures, scene, spoil, Room};
use crate::display::{Display, Selected};
use crate::doors::*;
use crate::floats::{bytes_of, Floats, FLOAT_LEN};
use crate::host::image_words;
use crate::rng::Rng;
use crate::state::{state_bytes, STATE_LEN};
use crate::tables::Bits;
use crate::words::{Words, WORDS};

/// A line of a screen, its first and its last more often than others; in one of five a number past
/// it.
pub fn line_number(rng: &mut Rng, height: i64) -> u32 {
    let last = (height - 1).max(0);
    let any = rng.range(0, last) as u32;
    match rng.below(10) {
        0 => 0,
        1 => last as u32,
        2 | 3 => past(rng, height, any),
        _ => any,
    }
}

/// A number at or past the height. Of some only the low bits are a line.
fn past(rng: &mut Rng, height: i64, line: u32) -> u32 {
    let height = height as u32;
    rng.pick(&[height, height + 1, 4_096 + line, 0x1_0000 + line, 1 << 31 | line, u32::MAX])
}

/// A display, and all that its frame is painted from.
struct Ready {
    display: Display,
    tables: Vec<u8>,
    pictures: Vec<u8>,
    floats: Vec<u32>,
}

impl Ready {
    /// On a small screen, now and then on one of the greatest width; what is pending, selected or
    /// let in is anything.
    fn new(rng: &mut Rng) -> Ready {
        let small = (rng.range(1, 40), rng.range(1, 12));
        let (width, height) = if rng.percent(2) { (4_095, 2) } else { small };
        let now = rng.pick(&[0, 1, 77, i32::MAX as u32, 1 << 31, u32::MAX]);
        let frame_pixels = 2 * width * height;
        let active = scene(rng, Room { width, height, frame_pixels, now, floats: Floats::With });
        let bits = rng.pick(&Bits::ALL);
        let tables = tables(rng, &active, bits);
        let pictures = pictures(rng, active.pictures_len() as usize);
        let floats = floats(rng, active.floats_len() as usize);
        let selected = Selected { is_any: rng.percent(50), selection: rng.u32(), place: rng.u32() };
        let any = rng.u32();
        let display = Display {
            bits,
            floats: rng.pick(&[Floats::With, Floats::Without]),
            pending: Words([(); WORDS].map(|()| rng.u32())),
            frame: frame_number(rng, &active, now),
            active,
            errors: rng.pick(&[0, 0, any]),
            selected,
        };
        Ready { display, tables, pictures, floats }
    }

    fn store(&self, buffer: usize) -> Step {
        let bytes = match buffer {
            STATE => state_bytes(&self.display).to_vec(),
            TABLES => self.tables.clone(),
            PICTURES => self.pictures.clone(),
            _ => bytes_of(&self.floats),
        };
        Step::Store { buffer, bytes }
    }

    fn stores(&self) -> Vec<Step> {
        [STATE, TABLES, PICTURES, FLOATS].map(|buffer| self.store(buffer)).into()
    }

    /// A call that is lent what there is, and for its output those bytes.
    fn call(&self, door: Door, y: u32, old: Vec<u8>) -> [Step; 2] {
        let (tables, pictures) = (self.tables.len(), self.pictures.len());
        let floats = FLOAT_LEN * self.floats.len();
        let lengths = [STATE_LEN, tables, pictures, floats, old.len(), 0, 0];
        let step = Step::Call { door, a: y, b: 0, lent: door.lent(lengths), null: false };
        [Step::Store { buffer: OUTPUT, bytes: old }, step]
    }
}

// ---- lines that are the frame

pub struct LinesCase {
    /// Before the frame, before the first line, and before some of the others.
    pub display: Display,
    /// All lines of the screen in any order, some of them more than once.
    pub lines: Vec<u32>,
    /// The whole frame, and then the lines.
    pub steps: Vec<Step>,
}

pub fn gen_lines(seed: u64) -> LinesCase {
    // Kept apart from the other cases' seeds.
    let rng = &mut Rng::new(seed ^ 0x6C69_6E65);
    let ready = Ready::new(rng);
    let height = ready.display.height() as u32;
    let mut lines: Vec<u32> = (0..height).collect();
    for _ in 0..rng.below(1 + lines.len() / 2) {
        lines.push(rng.below(height as usize) as u32);
    }
    rng.shuffle(&mut lines);
    by_lines(rng, ready, lines)
}

/// The pages of the sweep of drawings, each from its last line to its first.
pub fn drawing_lines(bits: Bits) -> impl Iterator<Item = LinesCase> {
    drawing_calls(bits).into_iter().map(move |page| {
        let active = image_words(&page.image).expect("it is whole");
        let lines = (0..active.height() as u32).rev().collect();
        let display = Display { active, ..Display::fresh(bits, Floats::With) };
        let (tables, pictures) = (page.tables, page.pictures);
        let ready = Ready { display, tables, pictures, floats: Vec::new() };
        by_lines(&mut Rng::new(0), ready, lines)
    })
}

fn by_lines(rng: &mut Rng, ready: Ready, lines: Vec<u32>) -> LinesCase {
    let active = ready.display.active();
    let (line, frame) = (active.line_len() as usize, active.output_len() as usize);
    let mut steps = ready.stores();
    steps.extend(ready.call(Door::Frame, 0, rng.bytes(frame)));
    for (i, &y) in lines.iter().enumerate() {
        // Each line sets all bits by itself, and keeps those that others have set.
        steps.extend((i == 0 || rng.percent(50)).then(|| ready.store(STATE)));
        steps.extend(ready.call(Door::Line, y, rng.bytes(line)));
    }
    LinesCase { display: ready.display, lines, steps }
}

// ---- faults

pub struct FaultyLine {
    /// What is wrong with the call, by the numbers that say so.
    pub faults: Vec<u32>,
    pub steps: Vec<Step>,
}

/// What can be wrong with a line call.
const FAULTS: [u32; 7] = [
    WRONG_TABLES,
    NOTHING_ACTIVE,
    WRONG_OUTPUT,
    WRONG_PICTURES,
    WRONG_FLOATS,
    WRONG_BAND,
    WRONG_STATE,
];

/// How many sets of faults there are, the empty one too; the seeds have them by turns.
pub const FAULT_SETS: u64 = 1 << FAULTS.len();

pub fn gen_faulty_line(seed: u64) -> FaultyLine {
    let rng = &mut Rng::new(seed ^ 0x7265_6675);
    let ready = Ready::new(rng);
    let y = rng.below(ready.display.height() as usize) as u32;
    let out = ready.display.active.line_len() as usize;
    let mut line = Line { ready, state: STATE_LEN, y, out };
    let numbered = (0..).zip(FAULTS).filter(|(i, _)| seed >> i & 1 == 1);
    let faults: Vec<u32> = numbered.map(|(_, fault)| fault).collect();
    faults.iter().for_each(|&fault| line.spoil(rng, fault));
    FaultyLine { faults, steps: line.steps(rng) }
}

/// A line call, with how many bytes of the state and of the output it is lent.
struct Line {
    ready: Ready,
    state: usize,
    y: u32,
    out: usize,
}

impl Line {
    fn spoil(&mut self, rng: &mut Rng, fault: u32) {
        let Ready { display, tables, pictures, floats } = &mut self.ready;
        match fault {
            WRONG_STATE => self.state = rng.pick(&[0, 4, 436, 439, 441, 880]),
            NOTHING_ACTIVE => spoil(rng, &mut display.active, NO_OUTPUT, Floats::With),
            WRONG_BAND => self.y = past(rng, display.active.height(), self.y),
            WRONG_OUTPUT => {
                self.out = wrong_or(rng, self.out, display.active.output_len() as usize);
            }
            WRONG_TABLES => {
                let others = display.bits.other().tables_len();
                tables.resize(wrong_or(rng, display.bits.tables_len(), others), 0);
            }
            WRONG_PICTURES => pictures.resize(wrong_len(rng, pictures.len()), 0),
            _ => floats.resize(wrong_len(rng, floats.len()), 0),
        }
    }

    fn steps(self, rng: &mut Rng) -> Vec<Step> {
        let [store, mut call] = self.ready.call(Door::Line, self.y, rng.bytes(self.out));
        if let Step::Call { lent, .. } = &mut call {
            lent[STATE].length = self.state;
        }
        self.ready.stores().into_iter().chain([store, call]).collect()
    }
}

/// A wrong length, at times one that is right for something else.
fn wrong_or(rng: &mut Rng, right: usize, other: usize) -> usize {
    if other != right && rng.percent(25) {
        other
    } else {
        wrong_len(rng, right)
    }
}
