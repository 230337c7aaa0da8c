//! What the tests share that run another program beside this display. It reads no section of
//! document 01.

use crate::cases::{HostCase, MendCase, Series};
use crate::doors::{begin_record, Door, Stage, Step, Told, COUNT, OUTPUT, STATE};
use crate::mend::{Lent, LIST_LEN};
use std::collections::BTreeMap;
use std::env;
use std::ffi::OsString;
use std::io::{self, Read, Write};
use std::ops::RangeInclusive;
use std::path::{Path, PathBuf};
use std::process::{Child, Command, Stdio};
use std::thread;

/// The seed that is to be compared alone.
pub fn seed() -> Option<u64> {
    number("SPOONWING_SEED", env::var_os("SPOONWING_SEED")).unwrap_or_else(|told| panic!("{told}"))
}

/// The seeds to compare: the one of `SPOONWING_SEED`; or from 0 on so many that their cases, of
/// `a_case` parts each, have the parts that the variable asks for; or as many as `cases`.
pub fn seeds(variable: &str, a_case: usize, cases: u64) -> RangeInclusive<u64> {
    let asked = count(variable, env::var_os(variable)).unwrap_or_else(|told| panic!("{told}"));
    if let Some(seed) = seed() {
        return seed..=seed;
    }
    let cases = asked.map_or(cases, |parts| parts.div_ceil(a_case as u64));
    0..=cases - 1
}

/// A law holds for the case of a seed, which is counted by these names and numbers, or it is told
/// where it fails.
pub type Tried = Result<Vec<(String, usize)>, String>;

pub fn all_seeds(cases: u64) -> RangeInclusive<u64> {
    seed().map_or(0..=cases - 1, |seed| seed..=seed)
}

/// Tries the cases of all seeds and asks that each name has come as often as it says.
pub fn try_all(cases: u64, least: &[(&str, usize)], mut law: impl FnMut(u64) -> Tried) {
    let mut counts: BTreeMap<String, usize> = BTreeMap::new();
    for seed in all_seeds(cases) {
        let names = law(seed).unwrap_or_else(|told| panic!("seed {seed}: {told}"));
        names.into_iter().for_each(|(name, count)| *counts.entry(name).or_default() += count);
    }
    println!("{counts:#?}");
    if seed().is_none() {
        for &(name, least) in least {
            let came = counts.get(name).copied().unwrap_or(0);
            assert!(came >= least, "{name} came {came} times of {least}");
        }
        assert_eq!(counts.len(), least.len(), "a name is not asked for");
    }
}

/// A number from outside. What is none must not pass for "not set".
pub fn number(name: &str, set: Option<OsString>) -> Result<Option<u64>, String> {
    let read = |text: OsString| match text.to_str().and_then(|text| text.parse().ok()) {
        Some(number) => Ok(number),
        None => Err(format!("{name} is not a number: {text:?}")),
    };
    set.map(read).transpose()
}

/// A count from outside. With 0 a test would compare nothing and pass.
pub fn count(name: &str, set: Option<OsString>) -> Result<Option<u64>, String> {
    match number(name, set)? {
        Some(0) => Err(format!("{name} is 0, and nothing would be compared")),
        count => Ok(count),
    }
}

/// The program that an environment variable names, from this package's folder.
pub fn program(name: &str, unless_set: &str) -> PathBuf {
    let set = env::var_os(name).unwrap_or(unless_set.into());
    Path::new(env!("CARGO_MANIFEST_DIR")).join(set)
}

/// What a program prints for an input. The input is written beside the reading of the output, since
/// either pipe may fill up.
pub fn run(program: &Path, words: &[&str], input: &[u8]) -> Vec<u8> {
    let mut child = Command::new(program)
        .args(words)
        .stdin(Stdio::piped())
        .stdout(Stdio::piped())
        .spawn()
        .unwrap_or_else(|error| panic!("{} does not run: {error}", program.display()));
    let mut pipe = child.stdin.take().expect("it is piped");
    let input = input.to_vec();
    // A program that stops reading shows itself by its output, so a broken pipe is no failure of
    // its own.
    let writer = thread::spawn(move || drop(pipe.write_all(&input)));
    let output = child.wait_with_output().expect("it was started");
    writer.join().expect("writing does not panic");
    let mut printed = output.stdout;
    if !output.status.success() {
        // It counts as a difference like any other, so that an input which ends the program is made
        // small too.
        printed.extend(format!("({})\n", output.status).into_bytes());
    }
    printed
}

/// A picture of the examples, as a PNM.
pub fn picture(name: &str) -> Vec<u8> {
    let path = Path::new(env!("CARGO_MANIFEST_DIR")).join("../../examples").join(name);
    let shown = Command::new("pngtopnm")
        .arg(&path)
        .output()
        .unwrap_or_else(|error| panic!("pngtopnm (of netpbm) does not run: {error}"));
    assert!(shown.status.success(), "{} is not read", path.display());
    shown.stdout
}

/// What the figures program prints for a script; what it is run by takes its name.
pub fn figures(script: &[u8]) -> Vec<u8> {
    run(&program("SPOONWING_FIGURES", "../../tools/run"), &["figures"], script)
}

/// What the program that mends prints for lines.
pub fn mended(text: &[u8]) -> Vec<u8> {
    run(&program("SPOONWING_MEND", "../../tools/mend"), &[], text)
}

/// How a host passes a buffer of no bytes.
#[derive(Clone, Copy, Debug, PartialEq, Eq)]
pub enum Empty {
    /// By a pointer between guard bytes.
    Pointer,
    /// By a null pointer.
    Null,
}

/// The C host of `host_calls.c`, which answers one call after another.
pub struct Host {
    child: Child,
}

/// A program that reads and tells by turns.
fn spawn(program: &Path) -> Child {
    Command::new(program)
        .stdin(Stdio::piped())
        .stdout(Stdio::piped())
        .spawn()
        .unwrap_or_else(|error| panic!("{} does not run: {error}", program.display()))
}

fn write(child: &mut Child, bytes: &[u8]) -> io::Result<()> {
    let input = child.stdin.as_mut().expect("it is piped");
    input.write_all(bytes).and_then(|()| input.flush())
}

fn read(child: &mut Child, count: usize) -> io::Result<Vec<u8>> {
    let mut bytes = vec![0; count];
    child.stdout.as_mut().expect("it is piped").read_exact(&mut bytes)?;
    Ok(bytes)
}

fn read_number(child: &mut Child) -> io::Result<u32> {
    Ok(u32::from_le_bytes(read(child, 4)?.try_into().expect("four")))
}

impl Host {
    pub fn start() -> Host {
        Host { child: spawn(&program("SPOONWING_HOST", "../../tools/c-host")) }
    }

    /// The answer, whether a byte was touched that no call may touch, and the output.
    pub fn call(&mut self, case: &HostCase, empty: Empty) -> (u32, bool, Vec<u8>) {
        let buffers = [&case.image, &case.tables, &case.pictures, &case.output];
        let mut text = case.frame.to_le_bytes().to_vec();
        text.extend(u32::from(empty == Empty::Null).to_le_bytes());
        for buffer in buffers {
            text.extend((buffer.len() as u32).to_le_bytes());
        }
        for buffer in buffers {
            text.extend(buffer);
        }
        let input = self.child.stdin.as_mut().expect("it is piped");
        input.write_all(&text).and_then(|()| input.flush()).expect("the C host reads");
        let mut told = vec![0; 8 + case.output.len()];
        let output = self.child.stdout.as_mut().expect("it is piped");
        output.read_exact(&mut told).expect("the C host answers");
        let number = |at: usize| u32::from_le_bytes(told[at..at + 4].try_into().expect("four"));
        (number(0), number(4) != 0, told[8..].to_vec())
    }

    /// The frame of a call that has to be painted.
    pub fn painted(&mut self, case: &HostCase) -> Result<Vec<u8>, String> {
        match self.call(case, Empty::Pointer) {
            (0, false, output) => Ok(output),
            (answer, touched, _) => Err(format!("it answers {answer}, touches others: {touched}")),
        }
    }
}

/// The C program of `display_calls.c`, which makes one row of calls after another.
pub struct Doors {
    child: Child,
}

impl Doors {
    pub fn start() -> Doors {
        Doors { child: spawn(&program("SPOONWING_DISPLAY", "../../tools/c-display")) }
    }

    /// What it tells of each call of a row. A row that ends the program is told up to there, and
    /// the program is started anew.
    pub fn row(&mut self, steps: &[Step]) -> Vec<Told> {
        let mut told = Vec::new();
        if self.tell(steps, &mut told).is_err() {
            self.child.wait().expect("it was started");
            *self = Doors::start();
        }
        told
    }

    fn tell(&mut self, steps: &[Step], told: &mut Vec<Told>) -> io::Result<()> {
        write(&mut self.child, &begin_record())?;
        for step in steps {
            told.extend(self.step(step)?);
        }
        Ok(())
    }

    fn step(&mut self, step: &Step) -> io::Result<Option<Told>> {
        let child = &mut self.child;
        write(child, &step.record())?;
        let Step::Call { lent, .. } = step else { return Ok(None) };
        let [answer, touched] = [read_number(child)?, read_number(child)?];
        let state = read(child, lent[STATE].length)?;
        let changed = read_number(child)? as usize;
        // A place and a byte, each a number.
        let change =
            |pair: &[u8]| (u32::from_le_bytes(pair[..4].try_into().expect("four")), pair[4]);
        let changes = read(child, 8 * changed)?.chunks(8).map(change).collect();
        let out = read(child, lent[OUTPUT].length)?;
        let count = read(child, lent[COUNT].length)?;
        Ok(Some(Told { answer, is_touched: touched != 0, state, changes, out, count }))
    }
}

/// The output after the last call of a row, which has to be done.
pub fn last_output(calls: Calls, steps: &[Step]) -> Result<Vec<u8>, String> {
    match calls(steps).pop() {
        Some(Told { answer: 0, is_touched: false, out, .. }) => Ok(out),
        Some(Told { answer, is_touched, .. }) => {
            Err(format!("it answers {answer}, touches others: {is_touched}"))
        }
        None => Err("the program ends".into()),
    }
}

/// What carries a float to be painted: a channel of an opaque pixel, or the alpha of a white one
/// over black.
#[derive(Clone, Copy, Debug, PartialEq, Eq)]
pub enum Place {
    Channels,
    Alpha,
}

/// The C program of `float_bytes.c`, which answers one request after another.
pub struct FloatBytes {
    child: Child,
}

impl FloatBytes {
    pub fn start() -> FloatBytes {
        FloatBytes { child: spawn(&program("SPOONWING_FLOATS", "../../tools/c-floats")) }
    }

    /// The byte of each float, painted by one of the three doors.
    pub fn bytes(&mut self, door: Door, place: Place, series: Series) -> io::Result<Vec<u8>> {
        let Series { first, step, count } = series;
        let by = [Door::Paint, Door::Frame, Door::Line].iter().position(|&it| it == door);
        let by = by.expect("it paints layers") as u32;
        let request = [by, place as u32, first, step, count];
        write(&mut self.child, &request.map(u32::to_le_bytes).concat())?;
        read(&mut self.child, count as usize)
    }
}

/// The C program of `mend_calls.c`, which makes one call after another.
pub struct Mends {
    child: Child,
}

/// The answer of a call, whether a byte beside a buffer was touched, and what it was lent,
/// afterwards.
pub type Mended = (u32, bool, Lent);

impl Mends {
    pub fn start() -> Mends {
        Mends { child: spawn(&program("SPOONWING_MENDS", "../../tools/c-mend")) }
    }

    /// What it tells of a call. Of one that ends the program it tells nothing, and the program is
    /// started anew.
    pub fn call(&mut self, case: &MendCase) -> Option<Mended> {
        let told = self.tell(case).ok();
        if told.is_none() {
            self.child.wait().expect("it was started");
            *self = Mends::start();
        }
        told
    }

    fn tell(&mut self, case: &MendCase) -> io::Result<Mended> {
        let child = &mut self.child;
        let Lent { image, list, count } = &case.lent;
        let [at_image, at_list, at_count] = case.past.map(|past| past as u32);
        let front = [image.len() as u32, case.null.into(), at_image, at_list, at_count];
        let [front, list] =
            [&front[..], list].map(|numbers| numbers.iter().flat_map(|n| n.to_le_bytes()));
        let text = front.chain(image.iter().copied()).chain(list).chain(count.to_le_bytes());
        write(child, &text.collect::<Vec<u8>>())?;
        let [answer, touched] = [read_number(child)?, read_number(child)?];
        let image = read(child, image.len())?;
        let list = (0..LIST_LEN).map(|_| read_number(child)).collect::<io::Result<_>>()?;
        let count = u64::from_le_bytes(read(child, 8)?.try_into().expect("eight"));
        Ok((answer, touched != 0, Lent { image, list, count }))
    }
}

/// What calls tell of a row, one after another; fewer than there are where they end the program.
pub type Calls<'a> = &'a dyn Fn(&[Step]) -> Vec<Told>;

/// Our calls with a fault: some of what a call tells is changed afterwards, and stays so.
pub fn with_fault(fault: impl Fn(Door, &mut Stage, &mut Told)) -> impl Fn(&[Step]) -> Vec<Told> {
    move |steps: &[Step]| {
        let mut stage = Stage::new();
        let mut all = Vec::new();
        for step in steps {
            let told = stage.play(step);
            if let (Some(mut told), Step::Call { door, .. }) = (told, step) {
                fault(*door, &mut stage, &mut told);
                all.push(told);
            }
        }
        all
    }
}

/// Makes the calls of a row with both and answers what both tell of each, or says where they part.
pub fn compare(calls: Calls, steps: &[Step]) -> Result<Vec<Told>, String> {
    let mut stage = Stage::new();
    let mut theirs = calls(steps).into_iter();
    let mut all = Vec::new();
    for (i, step) in steps.iter().enumerate() {
        let Some(ours) = stage.play(step) else { continue };
        let place = format!("at step {} of {}, {}", i + 1, steps.len(), shown(step));
        let theirs = theirs.next().ok_or(format!("{place}: the program ends"))?;
        if let Some(told) = difference(&ours, &theirs) {
            return Err(format!("{place}: {told}"));
        }
        all.push(theirs);
    }
    Ok(all)
}

fn difference(ours: &Told, theirs: &Told) -> Option<String> {
    if theirs.answer != ours.answer {
        return Some(format!("it answers {}, we answer {}", theirs.answer, ours.answer));
    }
    if theirs.is_touched {
        return Some("an input, or a byte beside a buffer, is touched".into());
    }
    if theirs.changes != ours.changes {
        let (theirs, ours) = (&theirs.changes, &ours.changes);
        return Some(format!("of the tables it changes {theirs:?}, and we {ours:?}"));
    }
    for (name, ours_bytes, theirs_bytes) in [
        ("state", &ours.state, &theirs.state),
        ("output", &ours.out, &theirs.out),
        ("count", &ours.count, &theirs.count),
    ] {
        let other = (0..ours_bytes.len()).find(|&at| ours_bytes[at] != theirs_bytes[at]);
        if let Some(at) = other {
            let (theirs, ours) = (theirs_bytes[at], ours_bytes[at]);
            return Some(format!("byte {at} of the {name} is {theirs}, and {ours} with us"));
        }
    }
    None
}

/// A call with its numbers and what it is lent, or the words that are stored and not 0.
pub fn shown(step: &Step) -> String {
    match step {
        Step::Call { door, a, b, lent, null } => {
            let lent = lent.map(|lent| format!("{}+{}", lent.length, lent.past)).join(" ");
            let empty = if *null { ", NULL for none" } else { "" };
            format!("{door:?} {a:#x} {b:#x}, lent {lent}{empty}")
        }
        Step::Store { buffer, bytes } => {
            let word = |chunk: &[u8]| chunk.iter().rev().fold(0, |n, &b| n << 8 | u32::from(b));
            let words = bytes.chunks(4).map(word).enumerate().filter(|&(_, word)| word != 0);
            let words: String = words.map(|(i, word)| format!(" {}: {word:08X}", 4 * i)).collect();
            let name = ["state", "tables", "pictures", "floats", "output", "run", "count"][*buffer];
            format!("{name} of {} bytes:{words}", bytes.len())
        }
    }
}

/// The lines of a text, each with its line feed; the last may have none.
pub fn lines(text: &[u8]) -> Vec<Vec<u8>> {
    text.split_inclusive(|&byte| byte == b'\n').map(<[u8]>::to_vec).collect()
}

/// Drops runs of items, long runs first, as long as the rest still differs.
pub fn fewer<T: Clone>(mut items: Vec<T>, differs: &dyn Fn(&[T]) -> bool) -> Vec<T> {
    let mut run = items.len() / 2;
    while run > 0 {
        let mut at = 0;
        while at + run <= items.len() {
            let mut fewer = items.clone();
            fewer.drain(at..at + run);
            if differs(&fewer) {
                items = fewer;
            } else {
                at += 1;
            }
        }
        run /= 2;
    }
    items
}
