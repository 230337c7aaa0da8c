//! What the seeded cases of the gate reach, with how often at least: every answer, kind of call,
//! fade, order of depths, value of a glyph and kind of float. `--nocapture` shows the counts.

mod doors;
mod floats;
mod letters;
mod lines;
mod mends;
mod orders;
mod runs;

use floats::{assert_refused_kinds, float_fade_names, float_fades};
use floats::{float_kinds, float_names, refused_kinds, Painted};
use letters::{bits_name, text_kinds, text_names, value_names};
use letters::{made_name, made_names, others_name, others_names};
use lines::{line_kinds, line_names, LineCall};
use second::answers::*;
use second::cases::{end_name, gate_script, gen_calls, gen_edges, gen_host, gen_mend, gen_page};
use second::cases::{gen_order_row, gen_orders, gen_row, gen_sheet, HostCase};
use second::cases::{EDGES, HOST_CALLS, LINES_A_SHEET, RECORDS_A_SCRIPT, SCRIPTS, SHEETS};
use second::display::ITEM_LEN;
use second::draw::List;
use second::floats::Floats;
use second::host::{host_frame, image_words};
use second::script::*;
use second::sheet::Sheet;
use second::tables::{Bits, Kind, Tables};
use second::words::{Layer, Words, LAYERS};
use std::collections::{BTreeMap, BTreeSet};

type Counts = BTreeMap<String, usize>;

fn show(title: &str, counts: &Counts) {
    println!("{title}");
    for (kind, count) in counts {
        println!("  {kind}: {count}");
    }
}

fn count(counts: &mut Counts, kinds: impl IntoIterator<Item = String>) {
    kinds.into_iter().for_each(|kind| *counts.entry(kind).or_default() += 1);
}

/// Each kind has come so often at least.
fn assert_came(counts: &Counts, wanted: impl IntoIterator<Item = String>, least: usize) {
    for kind in wanted {
        let came = counts.get(&kind).copied().unwrap_or(0);
        assert!(came >= least, "{kind} came {came} times, and {least} are asked");
    }
}

fn answers(numbers: &[u32]) -> Vec<String> {
    numbers.iter().map(|number| format!("answer {number}")).collect()
}

// ---- what a painted frame has

/// What is painted of layers whose depths are in a band, by names.
fn painted_kinds(
    words: &Words,
    frame: u32,
    tables: Tables,
    low: u32,
    high: u32,
) -> BTreeSet<String> {
    let mut kinds = BTreeSet::new();
    if !words.display_on() {
        return kinds;
    }
    let order = words.order().into_iter();
    let order: Vec<usize> =
        order.filter(|&n| (low..high).contains(&words.layer(n).depth)).collect();
    for (i, &n) in order.iter().enumerate() {
        let layer = words.layer(n);
        kinds.insert(format!("layer {n} at depth {}", layer.depth));
        kinds.extend(order[i + 1..].iter().map(|over| format!("layer {n} under layer {over}")));
        kinds.extend(fade_kinds(&layer, frame));
        if layer.graphics {
            let list = List::read(tables.active(words, Kind::Instruction, n));
            kinds.extend((!list.ended).then(|| "list without END".into()));
            kinds.extend(layer.global_alpha.then(|| "list at global alpha".into()));
            kinds.extend(text_kinds(words, n, &(0..words.height()), frame, tables));
        }
    }
    kinds
}

/// Where in its fade a layer is that is seen at global alpha.
fn fade_kinds(layer: &Layer, frame: u32) -> Vec<String> {
    let e = i64::from(frame.wrapping_sub(layer.fade.start) as i32);
    let length = i64::from(layer.fade.length);
    let mut kinds = vec![match e {
        _ if length == 0 => "fade of length 0",
        _ if e < 0 => "fade before its start",
        0 => "fade at its start",
        _ if e < length => "fade on its way",
        _ if e == length => "fade at its end",
        _ => "fade past its end",
    }];
    let runs = length > 0 && (0..length).contains(&e);
    kinds.extend((runs && frame < layer.fade.start).then_some("fade wrapped past 2^32"));
    kinds.extend((length > 0 && e == i64::from(i32::MIN)).then_some("fade with e at 2^31"));
    kinds.extend((length > 0 && e == i64::from(i32::MAX)).then_some("fade with e at 2^31 - 1"));
    kinds.retain(|_| layer.global_alpha);
    kinds.into_iter().map(String::from).collect()
}

const FADES: [&str; 9] = [
    "fade of length 0",
    "fade before its start",
    "fade at its start",
    "fade on its way",
    "fade at its end",
    "fade past its end",
    "fade wrapped past 2^32",
    "fade with e at 2^31",
    "fade with e at 2^31 - 1",
];

/// Where runs of puts and of writes end, and how.
const RUNS: [&str; 18] = [
    "U sets error bits",
    "U empty, 0",
    "U whole, where a put then answers 0",
    "U whole, where a put then answers 5",
    "U broken at the first, 3",
    "U broken at the first, 4",
    "U broken at the first, 5",
    "U broken at the first, 6",
    "U broken amid, 5",
    "U broken at the last, 5",
    "U cut by the end of the pictures",
    "X empty, 0",
    "X whole, 0",
    "X broken at the first, 1",
    "X broken amid, 1",
    "X broken at the last, 1",
    "X changes pending words",
    "start right after X",
];

/// Every layer at every depth, and of every two layers either one over the other.
fn depth_kinds() -> Vec<String> {
    let pairs = (0..LAYERS).flat_map(|n| (0..LAYERS).map(move |m| (n, m)));
    let at = pairs.clone().map(|(n, depth)| format!("layer {n} at depth {depth}"));
    let under = pairs.filter(|(n, m)| n != m).map(|(n, m)| format!("layer {n} under layer {m}"));
    at.chain(under).collect()
}

#[test]
fn sheets_reach_everything() {
    let mut counts = Counts::new();
    let mut frames = BTreeSet::new();
    for seed in 0..SHEETS {
        let mut sheet = Sheet::new();
        let text = gen_sheet(seed, LINES_A_SHEET);
        for line in text.split(|&byte| byte == b'\n') {
            let printed = sheet.line(line);
            count(&mut counts, [format!("prints {}", String::from_utf8_lossy(&printed[..2]))]);
            let display = &sheet.display;
            if printed.starts_with(b"00") {
                let (frame, tables) = (display.frame_number(), display.tables(&sheet.tables));
                count(&mut counts, painted_kinds(display.active(), frame, tables, 0, 8));
            } else if printed.starts_with(b"07") {
                count(&mut counts, refused_kinds(display.pending(), Floats::Without));
            }
            frames.insert(printed);
        }
    }
    show("lines of sheets by kind", &counts);
    println!("  different lines: {}", frames.len());
    // 3, 6, 15 and 16 cannot come: a sheet selects before it puts, and lends whole tables and whole
    // frames.
    let printed =
        ["00", "01", "02", "04", "05", "07", "08", "09", "0A", "0B", "0C", "0D", "0E", "FE"];
    assert_came(&counts, printed.map(|answer| format!("prints {answer}")), 10);
    assert!(counts["prints 00"] > SHEETS as usize * LINES_A_SHEET / 2, "fewer than half paint");
    assert_came(&counts, FADES.map(String::from), 10);
    assert_came(&counts, ["list without END", "list at global alpha"].map(String::from), 100);
    assert_came(&counts, depth_kinds(), 20);
    assert_came(&counts, value_names(Bits::One), 100);
    assert_refused_kinds(&counts, Floats::Without, 1);
}

#[test]
fn host_calls_reach_everything() {
    let mut counts = Counts::new();
    for seed in 0..HOST_CALLS {
        let case = gen_host(seed);
        let HostCase { image, frame, tables, pictures, output } = &case;
        let answer = host_frame(image, *frame, tables, pictures, &mut output.clone());
        count(&mut counts, [format!("answer {answer}")]);
        count(&mut counts, (answer == WRONG_TABLES).then(|| wrong_tables(tables.len())));
        if answer == RESERVED_BIT {
            let words = image_words(image).expect("it is whole");
            count(&mut counts, refused_kinds(&words, Floats::Without));
        } else if answer == DONE {
            let words = image_words(image).expect("it is whole");
            let tables = Tables::by_length(tables);
            count(&mut counts, [format!("painted with {}", bits_name(tables.bits))]);
            count(&mut counts, painted_kinds(&words, *frame, tables, 0, 8));
            count(&mut counts, block_kinds(&case));
        }
    }
    show("host calls by kind", &counts);
    let refusals = [6, 7, 8, 9, 10, 11, 13, 14, 16];
    assert_came(&counts, answers(&refusals), 50);
    assert_came(&counts, answers(&[DONE]), HOST_CALLS as usize / 2);
    assert_came(&counts, FADES.map(String::from), 20);
    assert_came(&counts, ["list without END", "list at global alpha"].map(String::from), 200);
    assert_came(&counts, depth_kinds(), 50);
    let looks = ["at one alpha", "clear", "opaque", "mixed"];
    let blocks = ["lowest", "other"].map(|place| looks.map(|look| format!("{place}, {look}")));
    assert_came(&counts, blocks.concat(), 20);
    assert_came(&counts, Bits::ALL.map(|bits| format!("painted with {}", bits_name(bits))), 900);
    assert_came(&counts, text_names(), 50);
    let near = Bits::ALL.map(Bits::tables_len).map(|right| [right - 1, right + 1]).concat();
    assert_came(&counts, near.into_iter().chain([0]).map(wrong_tables), 10);
    assert_refused_kinds(&counts, Floats::Without, 20);
}

/// Where a length of tables that is neither right one lies.
fn wrong_tables(length: usize) -> String {
    let [one, two] = Bits::ALL.map(Bits::tables_len);
    let near = if length < (one + two) / 2 { one } else { two };
    match length {
        0 => "no tables".into(),
        _ if length < near => format!("tables of less than {near}"),
        _ => format!("tables of more than {near}"),
    }
}

/// How the blocks of sixteen pixels of a case's pictures come: in the lowest layer over whole
/// lines, which lie on the background, and in the others; at one alpha, or clear, opaque or mixed.
fn block_kinds(case: &HostCase) -> BTreeSet<String> {
    let words = image_words(&case.image).expect("only painted cases are asked");
    let mut kinds = BTreeSet::new();
    let layers = if words.display_on() { words.order() } else { Vec::new() };
    for (i, &n) in layers.iter().enumerate() {
        let layer = words.layer(n);
        if layer.graphics {
            continue;
        }
        let start = words.picture_start(n) as usize;
        let row = 4 * layer.width as usize;
        let place = if i == 0 && layer.width == words.width() { "lowest" } else { "other" };
        for line in case.pictures[start..start + layer.picture_len() as usize].chunks(row) {
            kinds.extend(line.chunks_exact(64).map(|block| {
                let all = |alpha| block.chunks(4).all(|pixel| pixel[3] == alpha);
                let look = match layer.global_alpha {
                    true => "at one alpha",
                    false if all(0) => "clear",
                    false if all(255) => "opaque",
                    false => "mixed",
                };
                format!("{place}, {look}")
            }));
        }
    }
    kinds
}

/// What a record of a script does, by names.
fn kinds(before: &Stage, call: Call, told: (u32, usize), after: &Stage) -> Vec<String> {
    let answer = told.0;
    let letter = call.letter as char;
    let mut kinds = vec![format!("{letter}")];
    if CALLS.contains(&call.letter) || call.letter == NEW {
        kinds.push(format!("answer {answer}"));
    }
    if call.letter == LINE {
        kinds.push(format!("{letter} answers {answer}"));
        kinds.extend(line_kinds("Y", &line_call(before, call, answer, after)));
    } else if answer == DONE && call.paints() {
        kinds.extend(painting_kinds(before, call, after));
    } else {
        kinds.extend(wrong_lengths(before, call, answer));
    }
    let errors = (before.display.errors(), after.display.errors());
    kinds.extend(match call.letter {
        BAND => vec![band_kind(call.a, call.b, answer)],
        START if answer != DONE => refused_start_kinds(before, answer),
        PUT_RUN | WRITE_RUN => run_kinds(before, call, told, after),
        NEW => vec![made_name(call.a, before.display.bits())],
        AGAIN => vec![again_name(call.a).into()],
        _ => Vec::new(),
    });
    if before.more > 0 {
        kinds.extend(again_kinds(before, call, after));
    }
    let bits = before.display.bits();
    let is_others = answer == WRONG_TABLES && before.lent.tables == bits.other().tables_len();
    kinds.extend(is_others.then(|| others_name(&letter.to_string(), bits)));
    if errors.0 & !errors.1 != 0 {
        kinds.push(format!("{letter} clears error bits"));
    }
    if errors.1 & !errors.0 != 0 {
        kinds.push(format!("{letter} sets error bits"));
    }
    kinds
}

/// What of a layer's kind a start refuses, and whether something is shown.
fn refused_start_kinds(before: &Stage, answer: u32) -> Vec<String> {
    let is_shown = before.display.active().output_len() > 0;
    let mut kinds: Vec<String> =
        is_shown.then(|| "start refused after a frame".into()).into_iter().collect();
    if answer == RESERVED_BIT {
        kinds.extend(refused_kinds(before.display.pending(), before.display.floats()));
    }
    kinds
}

fn again_name(more: u32) -> &'static str {
    match (more < MOST_TIMES, more % MOST_TIMES) {
        (_, 0) => "no painting made again",
        (true, _) => "paintings made again",
        (false, _) => "paintings made again, by a number that is too large",
    }
}

/// What a record does while each painting is made more than once: whether all of the times show, and
/// whether the next display has its paintings made once.
fn again_kinds(before: &Stage, call: Call, after: &Stage) -> Vec<String> {
    let letter = call.letter as char;
    let mut once = Stage { more: 0, ..before.clone() };
    once.play(call);
    let so = [
        ("again", call.painting().is_some()),
        ("again, which shows", once.out != after.out),
        ("ends it", call.letter == NEW),
    ];
    so.iter().filter(|(_, is_so)| *is_so).map(|(kind, _)| format!("{letter} {kind}")).collect()
}

/// Where a run ends and with which answer, and what is behind it: in its table, by what a put then
/// answers, or of bytes that are no item.
fn run_kinds(before: &Stage, call: Call, told: (u32, usize), after: &Stage) -> Vec<String> {
    let letter = call.letter as char;
    let (answer, done) = told;
    let run = call.run(&before.pictures);
    let item = if call.letter == PUT_RUN { 1 } else { ITEM_LEN };
    let end = end_name(run.len() / item, done as u64);
    let behind = match call.letter {
        PUT_RUN => {
            let next = after.clone().play(Call { letter: PUT, a: 0, b: 0 }).0;
            format!("U {end}, where a put then answers {next}")
        }
        _ => format!("X with {} bytes over", run.len() % ITEM_LEN),
    };
    let so = [
        ("cut by the end of the pictures", !run.is_empty() && run.len() < call.b as usize),
        ("from past the pictures", call.b > 0 && call.a as usize >= before.pictures.len()),
        ("changes pending words", before.display.pending() != after.display.pending()),
    ];
    let so = so.iter().filter(|(_, is_so)| *is_so).map(|(kind, _)| format!("{letter} {kind}"));
    [format!("{letter} {end}, {answer}"), behind].into_iter().chain(so).collect()
}

fn line_call<'a>(before: &'a Stage, call: Call, answer: u32, after: &'a Stage) -> LineCall<'a> {
    LineCall {
        before: &before.display,
        y: call.a,
        tables: &before.tables[..before.lent.tables],
        pictures: before.lent.pictures,
        floats: &before.floats[..before.lent.floats],
        old: &before.out[call.lent_out(before.lent.out)],
        answer,
        errors: after.display.errors(),
    }
}

/// What a fill, a band or a frame does that is not refused.
fn painting_kinds(before: &Stage, call: Call, after: &Stage) -> Vec<String> {
    let letter = call.letter as char;
    let (active, frame) = (before.display.active(), before.display.frame_number());
    let (low, high) = match call.letter {
        FILL => (0, 0),
        BAND => (call.a, call.b),
        _ => (0, 8),
    };
    let tables = before.display.tables(&before.tables);
    let mut kinds = painted_kinds(active, frame, tables, low, high);
    let lent = &before.out[..before.lent.out];
    let so = [
        ("over a dirty buffer", lent.chunks(4).any(|pixel| pixel[3] != 255)),
        ("with the display off", !active.display_on()),
        ("changes the output", before.out != after.out),
        ("in a fade", kinds.contains("fade on its way")),
    ];
    kinds.extend(so.iter().filter(|(_, is_so)| *is_so).map(|(kind, _)| format!("{letter} {kind}")));
    let floats = &before.floats[..before.lent.floats];
    let lines = 0..active.height();
    let painted = Painted { words: active, floats, band: low..high, lines };
    kinds.extend(float_kinds(&painted).into_iter().map(|kind| format!("{letter} {kind}")));
    kinds.extend(float_fades(active, frame).into_iter().filter(|_| call.letter != FILL));
    kinds.into_iter().collect()
}

fn band_kind(low: u32, high: u32, answer: u32) -> String {
    match (low, high) {
        (_, 9..) => "band past 8".into(),
        _ if low > high => "band upside down".into(),
        _ if answer != DONE => "band refused for another reason".into(),
        _ if low == high => "empty band".into(),
        (0, 8) => "whole band".into(),
        (0, _) => "lower band".into(),
        (_, 8) => "upper band".into(),
        _ => "middle band".into(),
    }
}

/// Whether a buffer that a refused call was lent is too short or too long, or both pictures and
/// floats are wrong.
fn wrong_lengths(before: &Stage, call: Call, answer: u32) -> Option<String> {
    let active = before.display.active();
    let letter = call.letter as char;
    let is_other = |lent: usize, right: i64| lent as i64 != right;
    if answer == WRONG_PICTURES && is_other(before.lent.floats, active.floats_len()) {
        return Some(format!("{letter} where 14 and 18 are due"));
    }
    let (lent, right) = match answer {
        WRONG_TABLES => (before.lent.tables, before.display.bits().tables_len()),
        WRONG_OUTPUT => (before.lent.out, active.output_len() as usize),
        WRONG_PICTURES => (before.lent.pictures, active.pictures_len() as usize),
        WRONG_FLOATS => (before.lent.floats, active.floats_len() as usize),
        _ => return None,
    };
    let wrong = if lent < right { "too short" } else { "too long" };
    Some(format!("{letter} answers {answer}, {wrong}"))
}

/// How often each kind comes in a script.
fn count_kinds(calls: &[Call], counts: &mut Counts) {
    let mut stage = Stage::new();
    for &call in calls {
        let before = stage.clone();
        let told = stage.play(call);
        count(counts, kinds(&before, call, told, &stage));
    }
    let pairs = calls.windows(2).map(|pair| [pair[0].letter, pair[1].letter]);
    let shown = pairs.filter(|pair| *pair == [WRITE_RUN, START]);
    count(counts, shown.map(|_| "start right after X".into()));
}

/// The records that make no call of the display.
const OTHERS: [u8; 10] = [
    NEW,
    LEND,
    FILL_TABLES,
    FILL_PICTURES,
    FILL_FLOATS,
    FILL_OUT,
    TABLE_WORD,
    PICTURE_WORD,
    FLOAT,
    VIEW,
];

/// The kinds that every script of the gate's length has to have, named as `kinds` names them.
fn wanted_kinds() -> Vec<String> {
    let numbers = (DONE..=WRONG_BAND).chain([WRONG_BITS, WRONG_FLOATS]);
    let mut wanted: Vec<String> = numbers.map(|n| format!("answer {n}")).collect();
    wanted.extend(CALLS.iter().chain(&OTHERS).map(|&letter| (letter as char).to_string()));
    wanted.extend((0..ITEM_LEN).map(|n| format!("X with {n} bytes over")));
    for letter in ["F", "B", "R"] {
        wanted.push(format!("{letter} over a dirty buffer"));
        wanted.push(format!("{letter} changes the output"));
        wanted.push(format!("{letter} with the display off"));
    }
    let others = [
        "band past 8",
        "band upside down",
        "empty band",
        "whole band",
        "lower band",
        "upper band",
        "middle band",
        "start refused after a frame",
        "T sets error bits",
        "T clears error bits",
        "B in a fade",
        "R in a fade",
        "B sets error bits",
        "R sets error bits",
        "P sets error bits",
        "no painting made again",
        "paintings made again",
        "paintings made again, by a number that is too large",
        "B again, which shows",
        "R again",
        "Y again",
        "N ends it",
    ];
    wanted.extend(others.into_iter().chain(RUNS).map(String::from));
    wanted
}

/// What they have of floats. Of what the generated scripts store among them, few numbers lie on a
/// line that is painted.
fn wanted_floats(letters: &[&str]) -> Vec<String> {
    let painted = |letter| float_names().into_iter().map(move |kind| format!("{letter} {kind}"));
    letters.iter().flat_map(painted).collect()
}

/// How wrong lengths of them are refused.
fn refused_floats() -> Vec<String> {
    let both = ["B", "R", "Y"].map(|letter| format!("{letter} where 14 and 18 are due"));
    let lengths = ["B", "R"].map(|letter| {
        ["too short", "too long"].map(|wrong| format!("{letter} answers {WRONG_FLOATS}, {wrong}"))
    });
    both.into_iter().chain(lengths.concat()).collect()
}

/// What they have of glyphs of one bit and two.
fn wanted_letters() -> Vec<String> {
    [text_names(), others_names(&["P", "U", "B", "R", "Y"])].concat()
}

#[test]
fn scripts_reach_everything() {
    let mut counts = Counts::new();
    for seed in 0..SCRIPTS {
        count_kinds(&gen_calls(seed, RECORDS_A_SCRIPT), &mut counts);
    }
    for seed in 0..EDGES {
        count_kinds(&gen_edges(seed), &mut counts);
    }
    show("records of scripts by kind", &counts);
    let calls = [("P", 6), ("U", 6), ("F", 13), ("B", 13), ("B", 6), ("B", 14)];
    let lengths = ["too short", "too long"]
        .map(|wrong| calls.map(|(letter, answer)| format!("{letter} answers {answer}, {wrong}")));
    let empty = [0, 3, 4, 5, 6].map(|n| format!("U empty, where a put then answers {n}"));
    let past = ["U", "X"].map(|letter| format!("{letter} from past the pictures"));
    assert_came(&counts, wanted_kinds(), 10);
    assert_came(&counts, wanted_letters(), 5);
    assert_came(&counts, line_names("Y"), 5);
    assert_came(&counts, lengths.concat(), 5);
    assert_came(&counts, empty.into_iter().chain(past), 5);
    assert_came(&counts, FADES.map(String::from), 10);
    assert_came(&counts, ["list without END", "list at global alpha"].map(String::from), 100);
    assert_came(&counts, depth_kinds(), 10);
    assert_came(&counts, made_names(), 5);
    assert_came(&counts, wanted_floats(&["B", "R"]), 3);
    assert_came(&counts, (0..LAYERS).map(|n| format!("Y floats of layer {n}")), 2);
    assert_came(&counts, float_fade_names(), 2);
    assert_came(&counts, refused_floats(), 1);
    assert_refused_kinds(&counts, Floats::Without, 1);
}

#[test]
fn the_script_of_the_gate_has_every_kind() {
    let mut counts = Counts::new();
    count_kinds(&gate_script(), &mut counts);
    show("records of the gate's script by kind", &counts);
    assert_came(&counts, wanted_kinds(), 1);
    assert_came(&counts, wanted_letters(), 1);
    assert_came(&counts, line_names("Y"), 1);
    assert_came(&counts, made_names(), 1);
    assert_came(&counts, wanted_floats(&["B", "R", "Y"]), 1);
    assert_came(&counts, refused_floats(), 1);
    assert_refused_kinds(&counts, Floats::Without, 2);
}

/// A case's number is its seed: the same seed gives the same case, another one another.
#[test]
fn a_seed_is_a_case() {
    assert_eq!(gen_sheet(7, 40), gen_sheet(7, 40));
    assert_ne!(gen_sheet(7, 40), gen_sheet(8, 40));
    assert_eq!(format!("{:?}", gen_host(7)), format!("{:?}", gen_host(7)));
    assert_eq!(format!("{:?}", gen_calls(7, 100)), format!("{:?}", gen_calls(7, 100)));
    assert_eq!(gen_row(7), gen_row(7));
    assert_ne!(gen_row(7), gen_row(8));
    assert_eq!(gen_orders(7, 20), gen_orders(7, 20));
    assert_ne!(gen_orders(7, 20), gen_orders(8, 20));
    assert_eq!(gen_order_row(7), gen_order_row(7));
    assert_ne!(gen_order_row(7), gen_order_row(8));
    assert_eq!(format!("{:?}", gen_mend(7)), format!("{:?}", gen_mend(7)));
    assert_ne!(gen_mend(7).lent, gen_mend(8).lent);
    assert_eq!(gen_page(7, 40), gen_page(7, 40));
    assert_ne!(gen_page(7, 40), gen_page(8, 40));
}
