//! Mending (02 K4) beside this display: the call from C here, on images that are generated and
//! swept; the program in `lines.rs`; laws on what the call itself leaves in `laws.rs`; figures that
//! are worked out by hand in `figures.rs`.
//!
//!   SPOONWING_MENDS    a C program that makes the calls it reads, ../../tools/c-mend unless set
//!                      (built by `tools/c-mend build`)
//!   SPOONWING_MEND     the program that mends an image a line, ../../tools/mend unless set
//!   SPOONWING_IMAGES   how many generated images to compare, 6,000 by calls and 4,000 by lines
//!                      unless set
//!   SPOONWING_SEED     compares the image or the page of this one seed only, aloud

mod figures;
mod laws;
mod lines;

use second::answers::*;
use second::beside::{seed, seeds, Mended, Mends};
use second::cases::{axis_images, depth_images, gen_mend, word_images, MendCase, MENDS};
use second::host::IMAGE_LEN;
use second::mend::{mend_call, Lent};
use std::collections::BTreeMap;

/// What is told of a call, as `Mends::call` tells it.
type Call<'a> = &'a mut dyn FnMut(&MendCase) -> Option<Mended>;

fn our_call(case: &MendCase) -> Mended {
    let mut lent = case.lent.clone();
    let answer = mend_call(&mut lent);
    (answer, false, lent)
}

/// Makes both calls and answers their number, or says where they part.
fn compare(call: Call, case: &MendCase) -> Result<u32, String> {
    let (answer, _, ours) = our_call(case);
    let (other, is_touched, theirs) = call(case).ok_or("the program ends")?;
    if other != answer {
        return Err(format!("it answers {other}, we answer {answer}"));
    }
    if is_touched {
        return Err("a byte beside a buffer is touched".into());
    }
    let parted = difference("byte", "image", &theirs.image, &ours.image)
        .or(difference("number", "list", &theirs.list, &ours.list))
        .or(difference("number", "count", &[theirs.count], &[ours.count]));
    parted.map_or(Ok(answer), |told| Err(format!("after {answer}, {told}")))
}

fn difference<T: PartialEq + std::fmt::Debug>(
    item: &str,
    buffer: &str,
    theirs: &[T],
    ours: &[T],
) -> Option<String> {
    let at = (0..ours.len()).find(|&at| theirs[at] != ours[at])?;
    let (theirs, ours) = (&theirs[at], &ours[at]);
    Some(format!("{item} {at} of the {buffer} is {theirs:?}, and {ours:?} with us"))
}

/// Compares a call; a difference is told with a smaller image that differs too.
fn compare_small(call: Call, name: &str, case: MendCase) -> Result<u32, String> {
    compare(call, &case).map_err(|told| {
        let small = smaller(case, call);
        let still = compare(call, &small).expect_err("it differs");
        format!("{name}: {told}\na small image that differs: {still}\n{}", shown(&small))
    })
}

/// The call with zeros for the words of its image that it does not need in order to differ.
fn smaller(mut case: MendCase, call: Call) -> MendCase {
    for at in (0..case.lent.image.len()).step_by(4) {
        let mut lighter = case.clone();
        lighter.lent.image.iter_mut().skip(at).take(4).for_each(|byte| *byte = 0);
        if compare(call, &lighter).is_err() {
            case = lighter;
        }
    }
    case
}

/// A call's words that are not 0, and how its buffers are lent.
fn shown(case: &MendCase) -> String {
    let MendCase { lent: Lent { image, .. }, past, null } = case;
    let word = |chunk: &[u8]| chunk.iter().rev().fold(0, |n, &byte| n << 8 | u32::from(byte));
    let words = image.chunks(4).map(word).enumerate().filter(|&(_, word)| word != 0);
    let words: String = words.map(|(i, word)| format!(" {i}: {word:08X}")).collect();
    format!("{} bytes, lent at {past:?}, NULL for none: {null}, words{words}", image.len())
}

#[test]
fn the_call_mends_the_generated_images() {
    let mut mends = Mends::start();
    if let Some(seed) = seed() {
        println!("{}\nwe leave\n{:X?}", shown(&gen_mend(seed)), our_call(&gen_mend(seed)));
    }
    let mut counts = BTreeMap::new();
    for seed in seeds("SPOONWING_IMAGES", 1, MENDS) {
        let case = gen_mend(seed);
        match compare_small(&mut |case| mends.call(case), &format!("seed {seed}"), case) {
            Ok(answer) => *counts.entry(answer).or_insert(0) += 1,
            Err(told) => panic!("{told}"),
        }
    }
    println!("by answer: {counts:?}");
}

/// Every bit of an image that passes the other way round, and every two faults of it; a layer with
/// every start and length near the screen's edges; every depth of three layers.
#[test]
fn the_call_mends_the_swept_images() {
    let mut mends = Mends::start();
    let swept = [("words", word_images()), ("axis", axis_images()), ("depths", depth_images())];
    let named = swept.into_iter().flat_map(|(name, images)| {
        images.into_iter().enumerate().map(move |(i, image)| (format!("{name} {i}"), image))
    });
    for (name, image) in named {
        let case = MendCase::of_image(image);
        compare_small(&mut |case| mends.call(case), &name, case)
            .unwrap_or_else(|told| panic!("{told}"));
    }
}

/// An image whose every word changes but the screen's and those that have no reserved bits.
fn changed_image() -> Vec<u8> {
    let mut image = vec![0xFF; IMAGE_LEN];
    image[4..8].copy_from_slice(&[8, 0, 4, 0]);
    image
}

/// Image, list and count begin at each place modulo 16 where they may begin.
#[test]
fn the_call_takes_every_alignment() {
    let mut mends = Mends::start();
    let places = (0..16).flat_map(|i| (0..16).step_by(4).map(move |j| (i, j)));
    for past in places.flat_map(|(i, j)| [[i, j, 0], [i, j, 8]]) {
        let case = MendCase { past, ..MendCase::of_image(changed_image()) };
        let answer = compare_small(&mut |case| mends.call(case), "alignments", case);
        assert_eq!(answer.unwrap_or_else(|told| panic!("{told}")), DONE);
    }
}

/// An image of every length up to twice the right one; of no bytes also as NULL, where whoever
/// reads or writes is ended by the system.
#[test]
fn the_call_answers_every_length() {
    let mut mends = Mends::start();
    for (length, null) in (0..=2 * IMAGE_LEN).map(|length| (length, false)).chain([(0, true)]) {
        let mut image = changed_image();
        image.resize(length, 1);
        let case = MendCase { null, ..MendCase::of_image(image) };
        let answer = compare_small(&mut |case| mends.call(case), &format!("length {length}"), case);
        let right = if length == IMAGE_LEN { DONE } else { WRONG_IMAGE };
        assert_eq!(answer.unwrap_or_else(|told| panic!("{told}")), right, "length {length}");
    }
}

/// A change of what is told of a call; it goes by what the call was lent and has left.
type Fault = fn(&MendCase, &mut Mended);

/// What is told of our call, with a fault.
fn with_fault(fault: Fault, case: &MendCase) -> Mended {
    let mut told = our_call(case);
    fault(case, &mut told);
    told
}

/// What is said of calls that are known to be wrong.
const IMPOSTORS: [(&str, Fault); 9] = [
    ("it answers 8, we answer 16", |_, told| {
        told.0 = if told.0 == WRONG_IMAGE { NO_OUTPUT } else { told.0 }
    }),
    ("a byte beside a buffer", |_, told| told.1 = told.0 == DONE),
    // A refusal clears reserved bits of the first word.
    ("after 8, byte 0 of the image", |_, told| {
        if told.0 == NO_OUTPUT {
            told.2.image[0] &= 0b101;
        }
    }),
    // Bit 2 of layer 7 stays, also where bit 1 is set too.
    ("byte 184 of the image", |case, told| {
        if told.0 == DONE {
            told.2.image[184] |= case.lent.image[184] & 0b100;
        }
    }),
    // Bit 2 of layer 6 goes, also where it is alone.
    ("byte 160 of the image", |_, told| {
        if told.0 == DONE {
            told.2.image[160] &= !0b100;
        }
    }),
    ("number 1 of the list", |_, told| {
        if told.2.count > 0 {
            told.2.list.swap(1, 2);
        }
    }),
    ("number 155 of the list", |_, told| told.2.list[155] = 0),
    ("number 0 of the count", |_, told| told.2.count *= 3),
    ("after 16, number 0 of the count", |case, told| {
        told.2.count = if told.0 == WRONG_IMAGE { case.lent.count } else { told.2.count }
    }),
];

/// The comparison itself, on those calls.
#[test]
fn impostors_are_caught_and_their_images_made_small() {
    for (said, fault) in IMPOSTORS {
        let call: Call = &mut |case| Some(with_fault(fault, case));
        let caught = (0..200).find_map(|seed| compare_small(call, "it", gen_mend(seed)).err());
        let told = caught.expect("the impostor goes unseen");
        let small = told.split("a small image that differs: ").nth(1).expect("it is told");
        // The screen, and a word to mend.
        assert!(small.contains(said) && small.matches(": ").count() <= 3, "{told}");
    }
    let caught = compare(&mut |_| None, &MendCase::of_image(changed_image()));
    assert_eq!(caught, Err("the program ends".into()));
}
