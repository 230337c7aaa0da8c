//! 01 "Sheet program and host entry", its last paragraph: a whole frame from a register image,
//! without a state. 02 K2: it "goes by the table length", K7: it has no float buffer.

use crate::answers::*;
use crate::floats::Floats;
use crate::paint::{self, Pictures};
use crate::tables::Tables;
use crate::words::{Words, WORDS};

/// "a 208-byte register image (52 little-endian words)"
pub const IMAGE_LEN: usize = 4 * WORDS;

/// The words of an image; None where it is "not 208 bytes".
pub fn image_words(image: &[u8]) -> Option<Words> {
    let word = |register: usize| {
        let at = 4 * register;
        u32::from_le_bytes([image[at], image[at + 1], image[at + 2], image[at + 3]])
    };
    (image.len() == IMAGE_LEN).then(|| Words(std::array::from_fn(word)))
}

/// "The image counts as active once checked as at a start, without regard to the update bit. Order
/// 16, 7, 8, 9 and 10, 11, 13, 6, 14. It paints a whole frame and answers the number; error bits
/// are dropped, and every refusal leaves the output unchanged."
pub fn host_frame(image: &[u8], frame: u32, tables: &[u8], pictures: &[u8], out: &mut [u8]) -> u32 {
    let Some(words) = image_words(image) else {
        return WRONG_IMAGE;
    };
    let answer = words.check(Floats::Without);
    if answer != DONE {
        return answer;
    }
    let (tables, pictures) = (Tables::by_length(tables), Pictures::of_bytes(pictures));
    let answer = paint::buffer_refusal(&words, tables, pictures, words.output_len(), out);
    if answer == DONE {
        paint::fill(&words, out);
        paint::band(&words, frame, 0, 8, tables, pictures, out);
    }
    answer
}
