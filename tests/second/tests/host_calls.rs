//! The C host entry beside this display: a C program that is linked with it gets the same image and
//! buffers, each between guard bytes, and tells the answer and the output.
//!
//!   SPOONWING_HOST    the C host, ../../tools/c-host unless set (built by `tools/c-host build`)
//!   SPOONWING_CALLS   how many generated calls to compare, 4,000 unless set
//!   SPOONWING_SEED    compares the call of this one seed only, aloud

use second::answers::*;
use second::beside::{seed, seeds, Empty, Host};
use second::cases::{drawing_calls, gen_host, with_lines, word_images, HostCase, HOST_CALLS};
use second::host::{host_frame, image_words};
use second::tables::{Bits, Tables};
use second::words::{layer_word, LAYERS};
use std::collections::BTreeMap;

/// What an entry tells of a call, as `Host::call` does.
type Entry<'a> = &'a mut dyn FnMut(&HostCase) -> (u32, bool, Vec<u8>);

/// Makes both calls and answers their number, or says where they part.
fn compare(entry: Entry, case: &HostCase) -> Result<u32, String> {
    let mut ours = case.output.clone();
    let answer = host_frame(&case.image, case.frame, &case.tables, &case.pictures, &mut ours);
    let (theirs, touched, painted) = entry(case);
    if theirs != answer {
        return Err(format!("it answers {theirs}, we answer {answer}"));
    }
    if touched {
        return Err("an input, or a byte beside a buffer, is touched".to_string());
    }
    // A refusal leaves our output as it was lent, so this covers refusals too.
    match (0..ours.len()).find(|&at| painted[at] != ours[at]) {
        Some(at) => {
            Err(format!("after {answer}, byte {at} is {}, and {} with us", painted[at], ours[at]))
        }
        None => Ok(answer),
    }
}

/// Compares the call of one seed; a difference is told with a smaller call that differs too.
fn compare_generated(entry: Entry, seed: u64) -> Result<u32, String> {
    let case = gen_host(seed);
    compare(entry, &case).map_err(|told| {
        let small = smaller(case, entry);
        let still = compare(entry, &small).expect_err("it differs");
        format!("seed {seed}: {told}\na small call that differs: {still}\n{}", shown(&small))
    })
}

/// The call without the layers, registers and tables that it does not need in order to differ.
fn smaller(mut case: HostCase, entry: Entry) -> HostCase {
    for n in 0..LAYERS {
        case = match without_layer(&case, n) {
            Some(lighter) if compare(entry, &lighter).is_err() => lighter,
            _ => case,
        };
    }
    zero_runs(&mut case, |case| &mut case.image, 4, entry);
    for run in [4_096, 1_024, 64, 16, 4, 1] {
        zero_runs(&mut case, |case| &mut case.tables, run, entry);
    }
    case
}

/// The call with an enabled layer switched off and its picture taken out.
fn without_layer(case: &HostCase, n: usize) -> Option<HostCase> {
    let words = image_words(&case.image)?;
    let layer = words.layer(n);
    let mut lighter = case.clone();
    lighter.image[4 * layer_word(n)] &= !1;
    if layer.enabled && !layer.graphics {
        let start = words.picture_start(n) as usize;
        let end = start + layer.picture_len() as usize;
        lighter.pictures = [case.pictures.get(..start)?, case.pictures.get(end..)?].concat();
    }
    layer.enabled.then_some(lighter)
}

/// Zeros in the runs of a buffer, as long as the call still differs.
fn zero_runs(
    case: &mut HostCase,
    buffer: fn(&mut HostCase) -> &mut Vec<u8>,
    run: usize,
    entry: Entry,
) {
    let length = buffer(case).len();
    for at in (0..length).step_by(run) {
        let mut lighter = case.clone();
        let part = &mut buffer(&mut lighter)[at..length.min(at + run)];
        if part.iter().all(|&byte| byte == 0) {
            continue;
        }
        part.fill(0);
        if compare(entry, &lighter).is_err() {
            *case = lighter;
        }
    }
}

/// A call's frame number, its registers and table words that are not 0, and its buffers' lengths.
fn shown(case: &HostCase) -> String {
    let words = |bytes: &[u8]| {
        let word = |chunk: &[u8]| chunk.iter().rev().fold(0, |n, &byte| n << 8 | u32::from(byte));
        let words = bytes.chunks(4).map(word).enumerate().filter(|&(_, word)| word != 0);
        words.map(|(i, word)| format!(" {i}: {word:08X}")).collect::<String>()
    };
    let lengths = [&case.image, &case.tables, &case.pictures, &case.output].map(Vec::len);
    [
        format!("frame number {}, lengths {lengths:?}", case.frame),
        format!("registers{}", words(&case.image)),
        format!("table words{}", words(&case.tables)),
    ]
    .join("\n")
}

/// A call with an image of the sweep, whose screens have one pixel at most.
fn swept_call(image: Vec<u8>, bits: Bits) -> HostCase {
    HostCase {
        image,
        frame: 0,
        tables: vec![0; bits.tables_len()],
        pictures: Vec::new(),
        output: vec![1, 2, 3, 4],
    }
}

fn compare_all(name: &str, cases: impl IntoIterator<Item = HostCase>) {
    let mut host = Host::start();
    for (i, case) in cases.into_iter().enumerate() {
        if let Err(told) = compare(&mut |case| host.call(case, Empty::Pointer), &case) {
            panic!("{name} {i}: {told}\n{}", shown(&case));
        }
    }
}

/// Every bit of an image that passes the other way round, and every two faults of it.
#[test]
fn the_entry_answers_the_swept_images() {
    for bits in Bits::ALL {
        compare_all("image", word_images().into_iter().map(|image| swept_call(image, bits)));
    }
}

/// Every character, string length and number, opcode, weight and text colour.
#[test]
fn the_entry_paints_the_drawings() {
    for bits in Bits::ALL {
        compare_all("drawing", drawing_calls(bits));
    }
}

#[test]
fn the_entry_answers_the_generated_calls() {
    let mut host = Host::start();
    if let Some(seed) = seed() {
        println!("{}", shown(&gen_host(seed)));
    }
    let mut counts = BTreeMap::new();
    for seed in seeds("SPOONWING_CALLS", 1, HOST_CALLS) {
        let empty = if seed % 2 == 0 { Empty::Pointer } else { Empty::Null };
        match compare_generated(&mut |case| host.call(case, empty), seed) {
            Ok(answer) => *counts.entry(answer).or_insert(0) += 1,
            Err(told) => panic!("{told}"),
        }
    }
    println!("by answer: {counts:?}");
}

/// A host that has no bytes to lend may pass NULL: for any of the four buffers, where that is right
/// and where it is refused. Whoever reads or writes there is ended by the system.
#[test]
fn the_entry_takes_null_for_no_bytes() {
    let mut host = Host::start();
    let painted = Bits::ALL.map(|bits| swept_call(word_images().swap_remove(0), bits));
    let mut framed = painted.clone();
    for case in &mut framed {
        case.image[4 * layer_word(0)] &= !0b10;
        case.pictures = vec![9; 4];
    }
    let mut counts = BTreeMap::new();
    for (case, emptied) in
        painted.iter().chain(&framed).flat_map(|case| (0..16).map(move |i| (case, i)))
    {
        let mut case = case.clone();
        let HostCase { image, tables, pictures, output, .. } = &mut case;
        for (i, buffer) in [image, tables, pictures, output].into_iter().enumerate() {
            if emptied >> i & 1 == 1 {
                buffer.clear();
            }
        }
        match compare(&mut |case| host.call(case, Empty::Null), &case) {
            Ok(answer) => *counts.entry(answer).or_insert(0) += 1,
            Err(told) => panic!("with NULL for the buffers {emptied:04b}: {told}"),
        }
    }
    // Half of all have no image; then no output, no tables, no pictures are asked for in this
    // order, with either number of bits.
    let expected =
        [(DONE, 6), (WRONG_TABLES, 8), (WRONG_OUTPUT, 16), (WRONG_PICTURES, 2), (WRONG_IMAGE, 32)];
    assert_eq!(counts, BTreeMap::from(expected));
}

/// An entry is caught on a generated call that is made so small: of its words behind a name so many
/// are left at most.
fn catch(impostor: Entry, name: &str, most: usize) {
    let mut caught = (0..100).filter_map(|seed| compare_generated(impostor, seed).err());
    let is_small = |told: &String| words_of(told, name) <= most;
    let told = caught.find(is_small).expect("the impostor goes unseen, or its calls stay large");
    assert!(told.starts_with("seed ") && told.contains("a small call that differs"), "{told}");
}

/// How many words are shown behind a name.
fn words_of(told: &str, name: &str) -> usize {
    let words = told.lines().find_map(|line| line.strip_prefix(name)).expect("they are shown");
    words.matches(": ").count()
}

/// The comparison itself, on an entry that is known to be wrong: its fades stand still at frame 0.
#[test]
fn an_impostor_is_caught_and_its_call_made_small() {
    let impostor: Entry = &mut |case: &HostCase| {
        let mut out = case.output.clone();
        let answer = host_frame(&case.image, 0, &case.tables, &case.pictures, &mut out);
        (answer, false, out)
    };
    // Display, size and background, and the words of the one layer that fades.
    catch(impostor, "registers", 9);
}

/// And on one that does not look at bit 2 of a layer's first word, which it has to refuse (02 K7).
#[test]
fn an_entry_that_lets_floats_in_is_caught() {
    let impostor: Entry = &mut |case: &HostCase| {
        let mut image = case.image.clone();
        let a_layer = 4 * (layer_word(1) - layer_word(0));
        let first_words = image.iter_mut().skip(4 * layer_word(0)).step_by(a_layer);
        first_words.for_each(|byte| *byte &= !0b100);
        let mut out = case.output.clone();
        let answer = host_frame(&image, case.frame, &case.tables, &case.pictures, &mut out);
        (answer, false, out)
    };
    // The word with that bit, and what makes a screen.
    catch(impostor, "registers", 3);
}

/// An edit of the values of a glyph's line.
type Edit = fn([u8; 8]) -> [u8; 8];

/// And on entries that read glyphs of two bits otherwise: from the right, second byte first, the
/// lower bit of a pixel as its upper one, and every letter in one colour.
#[test]
fn wrong_letters_are_caught_and_their_calls_made_small() {
    let edits: [Edit; 4] = [
        |[a, b, c, d, e, f, g, h]| [h, g, f, e, d, c, b, a],
        |[a, b, c, d, e, f, g, h]| [e, f, g, h, a, b, c, d],
        |line| line.map(|value| [0, 2, 1, 3][usize::from(value)]),
        |line| line.map(|value| value.min(1)),
    ];
    for edit in edits {
        let impostor: Entry = &mut |case: &HostCase| {
            let mut tables = case.tables.clone();
            let read = Tables::by_length(&case.tables);
            if read.bits == Bits::Two {
                tables = with_lines(read, Bits::Two, edit);
            }
            let mut out = case.output.clone();
            let answer = host_frame(&case.image, case.frame, &tables, &case.pictures, &mut out);
            (answer, false, out)
        };
        // The opcodes up to the text's, the rest of its instruction, a colour or two, a string and
        // a glyph.
        catch(impostor, "table words", 16);
    }
}
