//! 02 K4 "Repair of a register image": the steps in the request's order, with K7's, the list of
//! what changed, the call from C, and the program that mends an image a line.

use crate::answers::*;
use crate::host::{image_words, IMAGE_LEN};
use crate::sheet::{read_digits, read_lines};
use crate::words::{field, layer_word, named_bits, Words, LAYERS, WORDS};
use crate::words::{DEPTH_BITS, FLOAT_BIT, KIND_BITS};

/// "the old and new value of each changed word"
#[derive(Clone, Copy, Debug, PartialEq, Eq)]
pub struct Change {
    pub register: usize,
    pub old: u32,
    pub new: u32,
}

/// A mended image and its list, or the refusal: "16 first; 8, which has no repair". 8 is asked of
/// the image as it came, and by the fields alone.
pub fn mend(image: &[u8]) -> Result<(Vec<u8>, Vec<Change>), u32> {
    let words = image_words(image).ok_or(WRONG_IMAGE)?;
    if words.width() == 0 || words.height() == 0 {
        return Err(NO_OUTPUT);
    }
    let mended = mend_words(&words);
    let bytes = mended.0.into_iter().flat_map(u32::to_le_bytes).collect();
    Ok((bytes, changes(&words, &mended)))
}

/// The mended words of a screen that has width and height.
fn mend_words(words: &Words) -> Words {
    let mut words = words.clone();
    clear_reserved_bits(&mut words);
    switch_off_empty_layers(&mut words);
    switch_off_large_frame_layers(&mut words);
    AXES.into_iter().for_each(|axis| fit_layers(&mut words, axis));
    part_depths(&mut words);
    words
}

/// "It lists the old and new value of each changed word, in register order."
fn changes(old: &Words, new: &Words) -> Vec<Change> {
    let change = |register: usize| Change { register, old: old.0[register], new: new.0[register] };
    (0..WORDS).map(change).filter(|change| change.old != change.new).collect()
}

// ---- the steps

fn enabled_layers(words: &Words) -> Vec<usize> {
    (0..LAYERS).filter(|&n| words.layer(n).enabled).collect()
}

/// "clear reserved bits"; K7: "K4 clears bit 2 where bit 1 is set too."
fn clear_reserved_bits(words: &mut Words) {
    for register in 0..WORDS {
        words.0[register] &= named_bits(register);
    }
    for n in 0..LAYERS {
        let word = &mut words.0[layer_word(n)];
        if *word & KIND_BITS == KIND_BITS {
            *word &= !FLOAT_BIT;
        }
    }
}

/// "its other values kept": bit 0 alone is cleared.
fn switch_off(words: &mut Words, n: usize) {
    words.0[layer_word(n)] &= !1;
}

/// "switch off enabled layers of zero size"
fn switch_off_empty_layers(words: &mut Words) {
    for n in enabled_layers(words) {
        let layer = words.layer(n);
        if layer.width == 0 || layer.height == 0 {
            switch_off(words, n);
        }
    }
}

/// "switch off an enabled frame layer larger than the screen either way", a float layer too.
fn switch_off_large_frame_layers(words: &mut Words) {
    for n in enabled_layers(words) {
        let layer = words.layer(n);
        let is_larger = layer.width > words.width() || layer.height > words.height();
        if !layer.graphics && is_larger {
            switch_off(words, n);
        }
    }
}

/// An axis by the lowest of its twelve bits, in the words of the screen, a corner and a size alike.
const AXES: [u32; 2] = [0, 16];

/// The word with that number along an axis.
fn with_number(word: u32, low: u32, number: u32) -> u32 {
    word & !(0xFFF << low) | number << low
}

/// "along each axis, put an enabled layer larger than the screen at 0 and cut it, and move one that
/// sticks out just far enough"
fn fit_layers(words: &mut Words, low: u32) {
    let screen = field(words.0[1], low + 11, low);
    for n in enabled_layers(words) {
        let [corner, size] = [layer_word(n) + 2, layer_word(n) + 3];
        let start = field(words.0[corner], low + 11, low);
        let length = field(words.0[size], low + 11, low);
        if length > screen {
            words.0[corner] = with_number(words.0[corner], low, 0);
            words.0[size] = with_number(words.0[size], low, screen);
        } else if start + length > screen {
            words.0[corner] = with_number(words.0[corner], low, screen - length);
        }
    }
}

/// "in layer order, an enabled layer whose depth is held by a lower-numbered enabled layer gets the
/// smallest depth that no enabled layer had when this step began and none was given"
fn part_depths(words: &mut Words) {
    let enabled = enabled_layers(words);
    let had: Vec<u32> = enabled.iter().map(|&n| words.layer(n).depth).collect();
    let mut given = Vec::new();
    for (i, &n) in enabled.iter().enumerate() {
        if had[..i].contains(&had[i]) {
            let is_free = |depth: &u32| !had.contains(depth) && !given.contains(depth);
            let depth = (0..8).find(is_free).expect("there are as many depths as layers");
            let word = &mut words.0[layer_word(n)];
            *word = *word & !DEPTH_BITS | depth << 8;
            given.push(depth);
        }
    }
}

// ---- the call from C

/// Room for a register, an old and a new value for each word.
pub const LIST_LEN: usize = 3 * WORDS;

/// All that one call writes.
#[derive(Clone, Debug, PartialEq, Eq)]
pub struct Lent {
    pub image: Vec<u8>,
    /// As many numbers as `LIST_LEN`; those that the list does not need stay.
    pub list: Vec<u32>,
    /// The number of changed words, after a refusal 0.
    pub count: u64,
}

/// "Refusals, with the image kept and no list".
pub fn mend_call(lent: &mut Lent) -> u32 {
    let (answer, list) = match mend(&lent.image) {
        Ok((image, list)) => {
            lent.image = image;
            (DONE, list)
        }
        Err(answer) => (answer, Vec::new()),
    };
    let numbers = list.iter().flat_map(|change| [change.register as u32, change.old, change.new]);
    lent.list.iter_mut().zip(numbers).for_each(|(number, new)| *number = new);
    lent.count = list.len() as u64;
    answer
}

// ---- the program

/// A line of the program in, a line out: the answer; after 00 the mended image and the list.
fn mend_line(text: &[u8]) -> String {
    let Some(image) = read_digits(text).filter(|image| image.len() == IMAGE_LEN) else {
        return "FE\n".into();
    };
    let printed = match mend(&image) {
        Ok((image, list)) => {
            let digits: String = image.iter().map(|byte| format!("{byte:02X}")).collect();
            let change = |change: &Change| {
                format!("{:02X}{:08X}{:08X}", change.register, change.old, change.new)
            };
            format!("{DONE:02X}{digits}{}", list.iter().map(change).collect::<String>())
        }
        Err(answer) => format!("{answer:02X}"),
    };
    printed + "\n"
}

/// What the program prints for lines.
pub fn print_mended(text: &[u8]) -> Vec<u8> {
    read_lines(text).into_iter().map(mend_line).collect::<String>().into_bytes()
}
