//! The laws of painting on the built programs: the host entry paints the inputs that a law speaks
//! of, a frame call from C those with float layers too, and the figures program does the calls that
//! are to be one. Nothing is compared with what this display paints; it only says where a law
//! applies, and which bytes floats become. A case that fails is told with its seed.
//!
//!   SPOONWING_HOST      the C host, ../../tools/c-host unless set
//!   SPOONWING_DISPLAY   the C program, ../../tools/c-display unless set
//!   SPOONWING_FIGURES   what runs the figures program, ../../tools/run unless set
//!   SPOONWING_SEED      tries the cases of this one seed only

use second::beside::{all_seeds, figures, last_output, lines, try_all, Doors, Host, Tried};
use second::cases::{gen_as_bytes, gen_exchange, gen_invisible, gen_one_value, gen_opaque};
use second::cases::{gen_split, with_lines, HostCase, Inputs, Pair};
use second::doors::Step;
use second::floats::Floats;
use second::host::host_frame;
use second::paint::blend;
use second::script::*;
use second::stale::{Fault, Impostor};
use second::tables::Bits;
use std::cell::RefCell;
use std::collections::BTreeSet;
use std::ops::RangeInclusive;

const CASES: u64 = 1_500;
const SPLITS: u64 = 150;

/// What paints a frame.
type Painter<'a> = &'a mut dyn FnMut(&Inputs) -> Result<Vec<u8>, String>;

/// Whether two frames are alike in the channels of those pixels.
fn alike(one: &[u8], other: &[u8], pixels: impl IntoIterator<Item = usize>) -> Result<(), String> {
    assert_eq!(one.len(), other.len(), "one screen");
    let bytes = pixels.into_iter().flat_map(|at| at..at + 3);
    match bytes.into_iter().find(|&at| one[at] != other[at]) {
        Some(at) => Err(format!("byte {at} is {} and then {}", one[at], other[at])),
        None => Ok(()),
    }
}

/// Each law is tried with either number of bits, and counted so.
const EITHER: [(&str, usize); 2] = [("with one bit", 500), ("with two bits", 500)];

fn bits_name(bits: Bits) -> String {
    EITHER[bits.number() - 1].0.into()
}

fn counted(pair: &Pair, more: &[(&str, usize)]) -> Vec<(String, usize)> {
    let bits = bits_name(pair.one.bits);
    let kinds = pair.kinds.iter().cloned().chain([bits]).map(|kind| (kind, 1));
    kinds.chain(more.iter().map(|&(name, count)| (name.to_string(), count))).collect()
}

fn places(inputs: &Inputs, n: usize) -> BTreeSet<usize> {
    inputs.shown(n).into_iter().map(|pixel| pixel.at).collect()
}

/// "two layers next to each other in depth that share no pixel may exchange depths"
fn exchange(painted: Painter, seed: u64, floats: Floats) -> Tried {
    let pair = gen_exchange(seed, floats);
    let (before, after) = (pair.one.words.order(), pair.other.words.order());
    let i = before.iter().position(|&n| n == pair.layer).expect("it is a layer");
    let mut swapped = before.clone();
    swapped.swap(i, i + 1);
    assert_eq!(after, swapped, "seed {seed}: neighbours are exchanged");
    let [lower, upper] = [before[i], before[i + 1]].map(|n| places(&pair.one, n));
    assert!(lower.is_disjoint(&upper), "seed {seed}: no pixel is shared");
    let (one, other) = (painted(&pair.one)?, painted(&pair.other)?);
    alike(&one, &other, (0..one.len()).step_by(4))?;
    Ok(counted(&pair, &[]))
}

/// "where a layer's alpha comes to 255, neither the background nor the pixels and alphas of layers
/// under it count"
fn opaque(painted: Painter, seed: u64, floats: Floats) -> Tried {
    let pair = gen_opaque(seed, floats);
    let depth = pair.one.words.layer(pair.layer).depth;
    let from = |inputs: &Inputs| {
        let layers = inputs.words.order().into_iter();
        let from = layers.filter(|&n| inputs.words.layer(n).depth >= depth);
        from.map(|n| inputs.shown(n)).collect::<Vec<_>>()
    };
    assert!(from(&pair.one) == from(&pair.other), "seed {seed}: it and those over it are the same");
    let full = pair.one.shown(pair.layer).into_iter().filter(|pixel| pixel.alpha == 255);
    let full: Vec<usize> = full.map(|pixel| pixel.at).collect();
    let (one, other) = (painted(&pair.one)?, painted(&pair.other)?);
    alike(&one, &other, full.iter().copied())?;
    let unders = [pair.one.under(depth), pair.other.under(depth)];
    let differ = full.iter().filter(|&&at| unders[0][at..at + 3] != unders[1][at..at + 3]);
    Ok(counted(&pair, &[("opaque pixels", full.len()), ("over other bytes", differ.count())]))
}

/// "a layer whose alpha is 0 all over may be switched off, its picture withdrawn with it"
fn invisible(painted: Painter, seed: u64, floats: Floats) -> Tried {
    let pair = gen_invisible(seed, floats);
    let shown = pair.one.shown(pair.layer);
    assert!(shown.iter().all(|pixel| pixel.alpha == 0), "seed {seed}: it is clear all over");
    assert!(!pair.other.words.order().contains(&pair.layer), "seed {seed}: it is off");
    let (one, other) = (painted(&pair.one)?, painted(&pair.other)?);
    alike(&one, &other, (0..one.len()).step_by(4))?;
    let hidden = shown.iter().filter(|pixel| pixel.channels != one[pixel.at..pixel.at + 3]);
    Ok(counted(&pair, &[("pixels that would be seen", hidden.count())]))
}

/// "each channel lies between the least and greatest of the background's and the covering layers'
/// there"
fn between(painted: Painter, seed: u64, floats: Floats) -> Tried {
    let inputs = Inputs::gen(seed, 1, floats);
    let frame = painted(&inputs)?;
    let ground = inputs.words.background();
    let mut least: Vec<u8> = [ground[0], ground[1], ground[2], 255].repeat(frame.len() / 4);
    let mut greatest = least.clone();
    let mut covers = vec![0; frame.len()];
    for pixel in inputs.words.order().into_iter().flat_map(|n| inputs.shown(n)) {
        for (at, channel) in (pixel.at..).zip(pixel.channels) {
            least[at] = least[at].min(channel);
            greatest[at] = greatest[at].max(channel);
            covers[at] += 1;
        }
    }
    let is_outside = |&at: &usize| !(least[at]..=greatest[at]).contains(&frame[at]);
    if let Some(at) = (0..frame.len()).find(is_outside) {
        let (byte, least, greatest) = (frame[at], least[at], greatest[at]);
        return Err(format!("byte {at}: {byte} is not in {least}..{greatest}"));
    }
    let bytes = |test: &dyn Fn(usize) -> bool| {
        (0..frame.len()).filter(|&at| at % 4 < 3 && test(at)).count()
    };
    Ok(vec![
        (bits_name(inputs.bits), 1),
        ("channels under two layers or more".into(), bytes(&|at| covers[at] >= 2)),
        ("channels that can be one number".into(), bytes(&|at| least[at] == greatest[at])),
        (
            "channels at the least".into(),
            bytes(&|at| frame[at] == least[at] && least[at] < greatest[at]),
        ),
        (
            "channels at the greatest".into(),
            bytes(&|at| frame[at] == greatest[at] && least[at] < greatest[at]),
        ),
        ("channels amid".into(), bytes(&|at| least[at] < frame[at] && frame[at] < greatest[at])),
    ])
}

/// 02 K7: "Demands 2 and 3 read a float layer by these bytes": it is painted as the same picture
/// among the bytes is.
fn as_bytes(painted: Painter, seed: u64) -> Tried {
    let pair = gen_as_bytes(seed);
    let (one, other) = (painted(&pair.one)?, painted(&pair.other)?);
    alike(&one, &other, (0..one.len()).step_by(4))?;
    let shown = pair.one.shown(pair.layer).into_iter();
    let is_seen = shown.filter(|pixel| pixel.alpha > 0 && pixel.channels != [0; 3]);
    Ok(counted(&pair, &[("pixels of floats", is_seen.count())]))
}

/// "1 to 3 give text colour plus value minus one, modulo 16."
fn one_value(painted: Painter, seed: u64) -> Tried {
    let (one_bit, two_bits, value) = gen_one_value(seed);
    let (one, other) = (painted(&one_bit)?, painted(&two_bits)?);
    alike(&one, &other, (0..one.len()).step_by(4))?;
    let blank = with_lines(one_bit.lent_tables(), Bits::One, |_| [0; 8]);
    let blank = Inputs { tables: blank, ..one_bit.clone() };
    let all = |inputs: &Inputs| {
        inputs.words.order().into_iter().flat_map(|n| inputs.shown(n)).collect::<Vec<_>>()
    };
    let pixels = all(&one_bit).into_iter().zip(all(&blank)).filter(|(one, other)| one != other);
    Ok(vec![(format!("value {value}"), 1), ("pixels of text".into(), pixels.count())])
}

/// "fill, then the layers below any depth, then the rest, is one painting, frame and state": the
/// records of both ways, each from a fresh display on. What the state holds shows in the calls that
/// follow.
struct Split {
    depth: u32,
    /// Before the painting.
    stage: Stage,
    whole: Vec<Call>,
    parts: Vec<Call>,
    /// From the painting's last record on the two ways print the same, but for the first letter.
    same: usize,
}

const fn record(letter: u8, a: u32, b: u32) -> Call {
    Call { letter, a, b }
}

fn split_of(seed: u64) -> Split {
    let (calls, depth) = gen_split(seed);
    let mut stage = Stage::new();
    for &call in &calls {
        stage.play(call);
    }
    let frame = record(FRAME, 0, 0);
    let seen = views(&stage, frame);
    let after = [record(PUT, 0x5A, 0), record(START, 0, 0), frame];
    let way = |painting: &[Call]| [&calls[..], painting, &seen, &after, &seen].concat();
    Split {
        depth,
        stage,
        whole: way(&[frame]),
        parts: way(&[record(FILL, 0, 0), record(BAND, 0, depth), record(BAND, depth, 8)]),
        same: 1 + 2 * seen.len() + after.len(),
    }
}

/// All seeds' splits in one script: what is found of each.
fn splits(printed: &dyn Fn(&[u8]) -> Vec<u8>, seeds: RangeInclusive<u64>) -> Vec<Tried> {
    let splits: Vec<Split> = seeds.map(split_of).collect();
    let ways = splits.iter().flat_map(|split| [&split.whole, &split.parts]);
    let script: Vec<Call> = ways.flatten().copied().collect();
    let printed = lines(&printed(&script_text(&script)));
    // The bench figures come first, then a line a record.
    let figures = lines(&print_script(b"")).len();
    let mut rest = &printed[figures.min(printed.len())..];
    let mut next = |count: usize| {
        let (first, later) = rest.split_at(count.min(rest.len()));
        rest = later;
        first
    };
    let tried = |split: &Split| {
        let [whole, parts] = [&split.whole, &split.parts].map(|way| {
            let lines = next(way.len());
            &lines[lines.len().saturating_sub(split.same)..]
        });
        split_holds(split, whole, parts)
    };
    splits.iter().map(tried).collect()
}

fn split_holds(split: &Split, whole: &[Vec<u8>], parts: &[Vec<u8>]) -> Tried {
    if !whole.first().is_some_and(|line| line.starts_with(b"R 00 ")) || whole.len() != split.same {
        return Err("the frame is not painted".into());
    }
    let told = |lines: &[Vec<u8>], i: usize| {
        let line = lines.get(i).map_or(&b"nothing"[..], |line| &line[usize::from(i == 0)..]);
        line.escape_ascii().to_string()
    };
    if let Some(i) = (0..split.same).find(|&i| told(whole, i) != told(parts, i)) {
        let (depth, whole, parts) = (split.depth, told(whole, i), told(parts, i));
        return Err(format!("split at {depth}, a frame leaves\n{whole}\nand its parts\n{parts}"));
    }
    let mut names = vec![(bits_name(split.stage.display.bits()), 1)];
    let active = split.stage.display.active();
    names.extend((active.floats_len() > 0).then(|| ("with floats".into(), 1)));
    for (side, low, high) in [("under", 0, split.depth), ("over", split.depth, 8)] {
        let mut after = split.stage.clone();
        after.play(record(BAND, low, high));
        let layers = active.order();
        let is_there = layers.iter().any(|&n| (low..high).contains(&active.layer(n).depth));
        let marks = after.display.errors() != split.stage.display.errors();
        names.extend(is_there.then(|| (format!("layers {side}"), 1)));
        names.extend(marks.then(|| (format!("END missed {side}"), 1)));
        names.extend((after.out != split.stage.out).then(|| (format!("bytes changed {side}"), 1)));
    }
    Ok(names)
}

/// Tries a law on frames that the host entry paints, which has no float buffer.
fn try_by_host(least: &[&[(&str, usize)]], law: fn(Painter, u64, Floats) -> Tried) {
    let mut host = Host::start();
    let least = [&EITHER[..], &least.concat()].concat();
    let painted: Painter = &mut |inputs| host.painted(&inputs.call());
    try_all(CASES, &least, |seed| law(painted, seed, Floats::Without));
}

/// Tries a law on frames that the calls from C paint, with float layers too.
fn try_by_doors(least: &[&[(&str, usize)]], law: fn(Painter, u64, Floats) -> Tried) {
    let doors = RefCell::new(Doors::start());
    let calls = |steps: &[Step]| doors.borrow_mut().row(steps);
    let least = [&EITHER[..], &least.concat()].concat();
    let painted: Painter = &mut |inputs| last_output(&calls, &inputs.row());
    try_all(CASES, &least, |seed| law(painted, seed, Floats::With));
}

/// How two layers lie that exchange depths, and how many cases of each are the least.
const NEIGHBOURS: [(&str, usize); 12] = [
    ("depths in a row", 600),
    ("a gap between the depths", 300),
    ("numbers as depths", 500),
    ("numbers against depths", 500),
    ("touching", 500),
    ("apart", 300),
    ("side by side", 500),
    ("one above the other", 500),
    ("something under both", 300),
    ("nothing under them", 300),
    ("something over both", 300),
    ("nothing over them", 300),
];

#[test]
fn neighbours_that_share_no_pixel_exchange_depths() {
    let kinds = [
        ("list under list", 200),
        ("list under picture", 200),
        ("picture under list", 200),
        ("picture under picture", 200),
    ];
    try_by_host(&[&NEIGHBOURS, &kinds], exchange);
}

#[test]
fn neighbours_exchange_depths_with_floats() {
    let kinds = [
        ("list under list", 200),
        ("list under picture", 100),
        ("list under floats", 100),
        ("picture under list", 100),
        ("picture under picture", 50),
        ("picture under floats", 50),
        ("floats under list", 100),
        ("floats under picture", 50),
        ("floats under floats", 50),
    ];
    try_by_doors(&[&NEIGHBOURS, &kinds], exchange);
}

/// How a layer comes by one alpha all over, and how many cases of each are the least.
const WAYS: [(&str, usize); 7] = [
    ("by its colour table", 100),
    ("by the colours drawn", 100),
    ("by global alpha", 100),
    ("by a fade not begun", 100),
    ("by a fade on its way", 100),
    ("by a fade at its end", 100),
    ("by a fade past its end", 100),
];

/// What comes of opaque pixels.
const OPAQUE: [(&str, usize); 4] = [
    ("over layers", 700),
    ("over the background alone", 150),
    ("opaque pixels", 20_000),
    ("over other bytes", 20_000),
];

#[test]
fn nothing_counts_under_an_opaque_pixel() {
    let pictures = [("by its bytes", 100), ("by some of its bytes", 100)];
    try_by_host(&[&WAYS, &OPAQUE, &pictures], opaque);
}

#[test]
fn nothing_counts_under_an_opaque_float() {
    let pictures = [("by its bytes", 50), ("by some of its bytes", 50)];
    let floats = [("by its floats", 50), ("by some of its floats", 50)];
    try_by_doors(&[&WAYS, &OPAQUE, &pictures, &floats], opaque);
}

#[test]
fn a_clear_layer_may_be_switched_off() {
    let own = [
        ("by its bytes", 100),
        ("pictures move up", 150),
        ("no picture after its own", 150),
        ("no picture of its own", 400),
        ("pixels that would be seen", 20_000),
    ];
    try_by_host(&[&WAYS, &own], invisible);
}

#[test]
fn a_clear_layer_of_floats_may_be_switched_off() {
    let own = [
        ("by its bytes", 50),
        ("by its floats", 50),
        ("pictures move up", 75),
        ("no picture after its own", 75),
        ("floats move up", 75),
        ("no floats after its own", 75),
        ("no picture of its own", 400),
        ("pixels that would be seen", 20_000),
    ];
    try_by_doors(&[&WAYS, &own], invisible);
}

/// Where channels lie between what covers them.
const AMID: [(&str, usize); 5] = [
    ("channels under two layers or more", 100_000),
    ("channels that can be one number", 50_000),
    ("channels at the least", 20_000),
    ("channels at the greatest", 20_000),
    ("channels amid", 100_000),
];

#[test]
fn channels_lie_between_what_covers_them() {
    try_by_host(&[&AMID], between);
}

#[test]
fn channels_lie_between_floats() {
    try_by_doors(&[&AMID], between);
}

#[test]
fn a_float_layer_is_its_bytes() {
    let kinds = [
        ("several of floats", 400),
        ("one of floats", 400),
        ("all as bytes", 500),
        ("one as bytes", 500),
        ("at global alpha", 500),
        ("at its own alpha", 500),
        ("pixels of floats", 20_000),
    ];
    let layers = [0, 1, 2, 3, 4, 5, 6, 7].map(|n| format!("layer {n}"));
    let layers = layers.each_ref().map(|name| (name.as_str(), 100));
    try_by_doors(&[&kinds, &layers], |painted, seed, _| as_bytes(painted, seed));
}

#[test]
fn a_value_is_a_colour_further_on() {
    let mut host = Host::start();
    let least = [("value 1", 300), ("value 2", 300), ("value 3", 300), ("pixels of text", 20_000)];
    try_all(CASES, &least, |seed| one_value(&mut |inputs| host.painted(&inputs.call()), seed));
}

#[test]
fn a_split_painting_is_one() {
    let least = [
        ("with one bit", 50),
        ("with two bits", 50),
        ("with floats", 30),
        ("layers under", 100),
        ("layers over", 100),
        ("END missed under", 15),
        ("END missed over", 15),
        ("bytes changed under", 100),
        ("bytes changed over", 100),
    ];
    let mut tried = splits(&figures, all_seeds(SPLITS)).into_iter();
    try_all(SPLITS, &least, |_| tried.next().expect("one for each seed"));
}

/// Every layer over the others by another rule for a channel; each pixel so many pixels wide.
fn wrong(inputs: &Inputs, rule: fn(u32, u32, u32) -> u32, wide: usize) -> Vec<u8> {
    let mut out = inputs.under(0);
    for pixel in inputs.words.order().into_iter().flat_map(|n| inputs.shown(n)) {
        for at in (pixel.at..out.len()).step_by(4).take(wide) {
            for channel in 0..3 {
                let (over, under) = (pixel.channels[channel], out[at + channel]);
                out[at + channel] = rule(pixel.alpha, over.into(), under.into()) as u8;
            }
        }
    }
    out
}

/// What this display paints with every glyph of two bits read from the right.
fn mirrored(inputs: &Inputs) -> Vec<u8> {
    let turned = |[a, b, c, d, e, f, g, h]: [u8; 8]| [h, g, f, e, d, c, b, a];
    let mut case = inputs.call();
    if inputs.bits == Bits::Two {
        case.tables = with_lines(inputs.lent_tables(), Bits::Two, turned);
    }
    let HostCase { image, frame, tables, pictures, mut output } = case;
    host_frame(&image, frame, &tables, &pictures, &mut output);
    output
}

/// The laws themselves, on displays that are known to be wrong: layers that run over their right
/// edge, blends that divide by 256, letters from the right, and bands that set no error bits.
#[test]
fn impostors_are_caught() {
    let run_over = &mut |inputs: &Inputs| Ok(wrong(inputs, blend, 2));
    let dim = &mut |inputs: &Inputs| {
        Ok(wrong(inputs, |a, over, under| (a * over + (255 - a) * under + 127) / 256, 1))
    };
    let thin = &mut |inputs: &Inputs| {
        Ok(wrong(inputs, |a, over, under| (a * over + (256 - a) * under + 128) / 256, 1))
    };
    for floats in [Floats::With, Floats::Without] {
        assert!((0..50).any(|seed| exchange(run_over, seed, floats).is_err()));
        assert!((0..50).any(|seed| opaque(thin, seed, floats).is_err()));
        assert!((0..50).any(|seed| invisible(dim, seed, floats).is_err()));
        assert!((0..50).any(|seed| between(dim, seed, floats).is_err()));
    }
    assert!((0..50).any(|seed| one_value(&mut |inputs| Ok(mirrored(inputs)), seed).is_err()));
    let silent = |script: &[u8]| {
        let printed = String::from_utf8(print_script(script)).expect("letters and digits");
        let line = |line: &str| match line.strip_prefix("B 00 00000000 ") {
            Some(rest) => format!("B 00 00000000 00000000{}\n", &rest[8..]),
            None => format!("{line}\n"),
        };
        printed.lines().map(line).collect::<String>().into_bytes()
    };
    assert!(splits(&silent, 0..=49).iter().any(Result::is_err));
}

/// And on displays that take float pictures otherwise (02 K7). The right one keeps the law. Which
/// refusal comes first shows in no law of painting.
#[test]
fn wrong_floats_are_caught() {
    let is_kept = |fault: Fault| {
        let calls = |steps: &[Step]| Impostor::new(fault).row(steps);
        let painted: Painter = &mut |inputs| last_output(&calls, &inputs.row());
        (0..50).all(|seed| as_bytes(painted, seed).is_ok())
    };
    assert!(is_kept(Fault::None));
    for fault in Fault::FLOATS.into_iter().filter(|&fault| fault != Fault::FloatsFirst) {
        assert!(!is_kept(fault), "{fault:?} goes unseen");
    }
}
