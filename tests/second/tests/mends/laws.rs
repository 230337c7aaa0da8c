//! What the request says of every mended image, tried on what the call itself leaves; of this
//! display only the check of a start and the fields of words are asked. A law that fails is told
//! with its seed.

use crate::{our_call, with_fault, Call, Fault};
use second::answers::*;
use second::beside::{try_all, Mended, Mends, Tried};
use second::cases::{gen_mend, MendCase, MENDS};
use second::floats::Floats;
use second::host::image_words;
use second::mend::Lent;
use second::words::{layer_word, named_bits, Words, LAYERS, WORDS};
use second::words::{DEPTH_BITS, FLOAT_BIT, GRAPHICS_BIT, KIND_BITS};

/// An image before and after, as words.
struct Pair {
    old: Words,
    new: Words,
}

fn law(holds: bool, told: impl Into<String>) -> Result<(), String> {
    holds.then_some(()).ok_or(told.into())
}

/// "Refusals, with the image kept and no list: 16 first; 8, which has no repair."
fn is_refused_rightly(old: &Lent, answer: u32, new: &Lent) -> Result<(), String> {
    let right = match image_words(&old.image) {
        None => WRONG_IMAGE,
        Some(words) if words.width() == 0 || words.height() == 0 => NO_OUTPUT,
        Some(_) => DONE,
    };
    law(answer == right, format!("it answers {answer} where {right} is due"))?;
    let is_kept = (&new.image, &new.list, new.count) == (&old.image, &old.list, 0);
    law(answer == DONE || is_kept, format!("{answer} leaves an image or a list"))
}

/// "It lists the old and new value of each changed word, in register order.": the list makes the
/// one image of the other, either way, and has no word twice or in vain.
fn is_its_list(pair: &Pair, before: &[u32], list: &[u32], count: u64) -> Result<(), String> {
    law(count <= WORDS as u64, format!("the count is {count}"))?;
    let end = 3 * count as usize;
    law(list[end..] == before[end..], "a number past the list is written")?;
    let (mut applied, mut undone) = (pair.old.clone(), pair.new.clone());
    let items: Vec<&[u32]> = list.chunks(3).take(count as usize).collect();
    let is_right = |item: &[u32]| (item[0] as usize) < WORDS && item[1] != item[2];
    law(items.iter().all(|item| is_right(item)), "an item of the list is none")?;
    law(items.windows(2).all(|two| two[0][0] < two[1][0]), "the list is not in register order")?;
    for item in items {
        applied.0[item[0] as usize] = item[2];
        undone.0[item[0] as usize] = item[1];
    }
    law(applied == pair.new, "the list does not make the new image")?;
    law(undone == pair.old, "the list undone does not make the old image")
}

/// What the first step leaves of a word: its reserved bits go, and "bit 2 where bit 1 is set too".
fn cleared(words: &Words, register: usize) -> u32 {
    let word = words.0[register] & named_bits(register);
    let is_first = (0..LAYERS).any(|n| layer_word(n) == register);
    word & !if is_first && word & GRAPHICS_BIT != 0 { FLOAT_BIT } else { 0 }
}

/// What no step changes but the first: all words but those of a layer's kind, place and size; and
/// of a layer that is off afterwards those too, but for the bit that says so.
fn is_kept(pair: &Pair) -> Result<(), String> {
    let is_shown = |n: usize| pair.new.layer(n).enabled;
    for register in 0..WORDS {
        let (n, part) = (register.wrapping_sub(4) / 6, register.wrapping_sub(4) % 6);
        let may_change = match (register, part) {
            (..=3, _) | (_, 1 | 4 | 5) => 0,
            (_, 0) if is_shown(n) => 0x700,
            (_, 0) => 1,
            _ if is_shown(n) => u32::MAX,
            _ => 0,
        };
        let changed = cleared(&pair.old, register) ^ pair.new.0[register];
        law(changed & !may_change == 0, format!("word {register} is changed by {changed:08X}"))?;
    }
    Ok(())
}

/// Only layers without a size, and frame layers that are too large, float layers too, are switched
/// off; none is switched on.
fn is_shown_rightly(pair: &Pair, n: usize) -> Result<(), String> {
    let (old, new) = (pair.old.layer(n), pair.new.layer(n));
    let is_larger = old.width > pair.old.width() || old.height > pair.old.height();
    let is_empty = old.width == 0 || old.height == 0;
    let is_due = old.enabled && !is_empty && (old.graphics || !is_larger);
    law(new.enabled == is_due, format!("layer {n} is on: {}", new.enabled))
}

/// "put an enabled layer larger than the screen at 0 and cut it, and move one that sticks out just
/// far enough": what fits keeps its size, and one pixel less of a way would be too little.
fn is_moved_least(
    name: &str,
    screen: i64,
    (old_start, old_length): (i64, i64),
    (start, length): (i64, i64),
) -> Result<(), String> {
    let way = old_start - start;
    let told = format!("{name} goes from {old_start}, {old_length} to {start}, {length}");
    if old_length > screen {
        return law((start, length) == (0, screen), told);
    }
    let is_needed = way == 0 || way > 0 && start + 1 + length > screen;
    law(length == old_length && start + length <= screen && is_needed, told)
}

fn are_moved_least(pair: &Pair, n: usize) -> Result<(), String> {
    let (old, new) = (pair.old.layer(n), pair.new.layer(n));
    if !new.enabled {
        return Ok(());
    }
    let (across, down) = (format!("layer {n} across"), format!("layer {n} down"));
    is_moved_least(&across, pair.old.width(), (old.x, old.width), (new.x, new.width))?;
    is_moved_least(&down, pair.old.height(), (old.y, old.height), (new.y, new.height))
}

/// The first layer that is on of each depth keeps it; the others have, in layer order, the smallest
/// depths that none of the layers had.
fn are_depths_least(pair: &Pair) -> Result<(), String> {
    let shown: Vec<usize> = (0..LAYERS).filter(|&n| pair.new.layer(n).enabled).collect();
    let depths = |words: &Words| shown.iter().map(|&n| words.layer(n).depth).collect::<Vec<u32>>();
    let (old, new) = (depths(&pair.old), depths(&pair.new));
    let mut free = (0..8).filter(|depth| !old.contains(depth));
    let is_first = |i: usize| !old[..i].contains(&old[i]);
    let least: Vec<u32> = (0..old.len())
        .map(|i| if is_first(i) { old[i] } else { free.next().unwrap_or(8) })
        .collect();
    law(new == least, format!("the depths {old:?} become {new:?}"))
}

/// "an image which passes already comes back the same with an empty list": of the image as it came,
/// and of the mended one.
fn stays(call: Call, case: &MendCase) -> Result<(), String> {
    let (answer, _, left) = call(case).ok_or("the program ends")?;
    let is_same =
        (left.image, left.list, left.count) == (case.lent.image.clone(), case.lent.list.clone(), 0);
    law(answer == DONE && is_same, "an image that passes does not come back the same")
}

/// All laws on the case of a seed.
fn laws(call: Call, seed: u64) -> Tried {
    let case = gen_mend(seed);
    let (answer, is_touched, left) = call(&case).ok_or("the program ends")?;
    law(!is_touched, "a byte beside a buffer is touched")?;
    is_refused_rightly(&case.lent, answer, &left)?;
    if answer != DONE {
        return Ok(vec![(format!("refused with {answer}"), 1)]);
    }
    let [old, new] =
        [&case.lent.image, &left.image].map(|image| image_words(image).expect("it is whole"));
    let [before, after] = [&old, &new].map(|words| words.check(Floats::With));
    law(after == DONE, format!("a start answers {after}"))?;
    let passed = before == DONE;
    let pair = Pair { old, new };
    is_its_list(&pair, &case.lent.list, &left.list, left.count)?;
    is_kept(&pair)?;
    (0..LAYERS).try_for_each(|n| is_shown_rightly(&pair, n))?;
    (0..LAYERS).try_for_each(|n| are_moved_least(&pair, n))?;
    are_depths_least(&pair)?;
    let again = MendCase { lent: left, ..case.clone() };
    stays(call, if passed { &case } else { &again })?;
    Ok(vec![(if passed { "passed already" } else { "mended" }.into(), 1)])
}

const LEAST: [(&str, usize); 4] =
    [("mended", 3_000), ("passed already", 500), ("refused with 8", 300), ("refused with 16", 300)];

#[test]
fn the_call_keeps_the_laws() {
    let mut mends = Mends::start();
    try_all(MENDS, &LEAST, |seed| laws(&mut |case| mends.call(case), seed));
}

#[test]
fn this_display_keeps_the_laws() {
    try_all(MENDS, &LEAST, |seed| laws(&mut |case| Some(our_call(case)), seed));
}

// ---- calls that are known to be wrong

/// What a law says of calls that answer, count or list wrongly.
const FAULTS: [(&str, Fault); 9] = [
    ("where 16 is due", |_, told| told.0 = if told.0 == WRONG_IMAGE { NO_OUTPUT } else { told.0 }),
    ("8 leaves an image or a list", |_, told| told.2.count += u64::from(told.0 == NO_OUTPUT)),
    ("16 leaves an image or a list", |_, told| {
        if told.0 == WRONG_IMAGE {
            told.2.image.fill(0);
        }
    }),
    ("a byte beside a buffer", |_, told| told.1 = true),
    ("the count is", |_, told| told.2.count *= 53),
    ("a number past the list", |_, told| told.2.list[155] = 0),
    ("an item of the list is none", |_, told| {
        if told.2.count > 0 {
            told.2.list[1] = told.2.list[2];
        }
    }),
    ("not in register order", |_, told| {
        if told.2.count > 1 {
            told.2.list[..6].rotate_left(3);
        }
    }),
    ("does not make the new image", |_, told| {
        if told.2.count > 0 {
            told.2.list.swap(1, 2);
        }
    }),
];

/// A change of the mended words, by those that came.
type Edit = fn(&Words, &mut Words);

/// What a law says of calls that mend wrongly, and list what they do.
const EDITS: [(&str, Edit); 10] = [
    ("a start answers 7", |old, new| new.0[9] |= old.0[9] & 1 << 31),
    ("a start answers 7", |old, new| new.0[28] |= old.0[28] & FLOAT_BIT),
    // Of two bits that a kind has the other one goes, or bit 2 where it is alone.
    ("word 28 is changed by 00000006", |old, new| {
        new.0[28] ^= if old.0[28] & KIND_BITS == KIND_BITS { KIND_BITS } else { 0 }
    }),
    ("word 28 is changed by 00000004", |_, new| new.0[28] &= !FLOAT_BIT),
    ("word 3 is changed", |_, new| new.0[3] = 0),
    ("is on: false", without_lists),
    ("is on: true", with_large_floats),
    ("across goes from", one_farther),
    ("the depths", lone_to_the_back),
    // The display is switched on.
    ("word 0 is changed", |_, new| new.0[0] |= 1),
];

/// Lists that are too wide are switched off, as pictures are.
fn without_lists(old: &Words, new: &mut Words) {
    for n in (0..LAYERS).filter(|&n| old.layer(n).width > old.width()) {
        let words = layer_word(n)..layer_word(n + 1);
        words.for_each(|register| new.0[register] = cleared(old, register));
        new.0[layer_word(n)] &= !1;
    }
}

/// A float layer that is too wide is cut, as a list is, and given a depth that none has.
fn with_large_floats(old: &Words, new: &mut Words) {
    let is_off = |n: &usize| old.layer(*n).width > old.width() && old.layer(*n).height > 0;
    let off = (0..LAYERS).filter(is_off).find(|&n| old.layer(n).enabled && old.layer(n).float);
    if let Some(n) = off {
        let shown: Vec<u32> = new.order().into_iter().map(|m| new.layer(m).depth).collect();
        let depth = (0..8).find(|depth| !shown.contains(depth)).expect("it is off itself");
        let word = &mut new.0[layer_word(n)];
        *word = *word & !DEPTH_BITS | 1 | depth << 8;
        new.0[layer_word(n) + 2] = 0;
        new.0[layer_word(n) + 3] = new.0[1];
    }
}

/// A layer that is moved is moved by a pixel more than it must.
fn one_farther(old: &Words, new: &mut Words) {
    for n in new.order() {
        let is_moved = new.layer(n).x < old.layer(n).x && new.layer(n).x > 0;
        new.0[layer_word(n) + 2] -= u32::from(is_moved);
    }
}

/// A layer that is alone gets depth 0.
fn lone_to_the_back(_: &Words, new: &mut Words) {
    if let [n] = new.order()[..] {
        new.0[layer_word(n)] &= !DEPTH_BITS;
    }
}

/// What is told of a call that lists the words as they are after an edit.
fn edited(case: &MendCase, edit: Edit) -> Mended {
    let (answer, is_touched, mut left) = our_call(case);
    if answer == DONE {
        let [old, mut new] =
            [&case.lent.image, &left.image].map(|image| image_words(image).expect("it is whole"));
        edit(&old, &mut new);
        let changed = (0..WORDS).filter(|&register| old.0[register] != new.0[register]);
        let list: Vec<u32> = changed
            .flat_map(|register| [register as u32, old.0[register], new.0[register]])
            .collect();
        left.image = new.0.into_iter().flat_map(u32::to_le_bytes).collect();
        left.count = list.len() as u64 / 3;
        left.list = [&list, &case.lent.list[list.len()..]].concat();
    }
    (answer, is_touched, left)
}

/// What the laws say of a call.
fn said(call: Call) -> Vec<String> {
    (0..300).filter_map(|seed| laws(call, seed).err()).collect()
}

#[test]
fn impostors_are_caught() {
    for (law, fault) in FAULTS {
        let told = said(&mut |case| Some(with_fault(fault, case)));
        assert!(told.iter().any(|told| told.contains(law)), "{law}: {told:#?}");
    }
    for (law, edit) in EDITS {
        let told = said(&mut |case| Some(edited(case, edit)));
        assert!(told.iter().any(|told| told.contains(law)), "{law}: {told:#?}");
    }
}

/// And a call that changes a background which passes.
#[test]
fn a_second_mending_is_caught() {
    let case = (0..).map(gen_mend).find(|case| our_call(case).0 == DONE).expect("there is one");
    let again = MendCase { lent: our_call(&case).2, ..case };
    assert_eq!(stays(&mut |case| Some(our_call(case)), &again), Ok(()));
    assert!(stays(&mut |case| Some(edited(case, |_, new| new.0[2] ^= 1)), &again).is_err());
}
