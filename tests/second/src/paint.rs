//! 01 "Painting": fill, blend and bands over a lent output; 02 K3: one line of a frame, K7: float
//! pictures. A layer is painted where it lies on the screen, also in words that no start lets in.
//! The state and most refusals are in `display`.

use crate::answers::*;
use crate::draw::{Letters, List};
use crate::floats::byte_of;
use crate::tables::{Kind, Tables};
use crate::words::{Words, LAYERS};
use std::ops::Range;

/// "Blend of one channel over what is under it (house): (a·over + (255−a)·under + 127) divided by
/// 255, rounded down."
pub fn blend(a: u32, over: u32, under: u32) -> u32 {
    (a * over + (255 - a) * under + 127) / 255
}

/// The two buffers that pictures are lent in, that of "f32 numbers" by their bits.
#[derive(Clone, Copy, Debug)]
pub struct Pictures<'a> {
    pub bytes: &'a [u8],
    pub floats: &'a [u32],
}

impl<'a> Pictures<'a> {
    /// Those of the host entry and the sheet program, "which have no such buffer".
    pub fn of_bytes(bytes: &'a [u8]) -> Pictures<'a> {
        Pictures { bytes, floats: &[] }
    }
}

/// The end of each order of painting: "13, 6, 14" and "18 .. after 14", where the output has to
/// have so many bytes.
pub fn buffer_refusal(
    words: &Words,
    tables: Tables,
    pictures: Pictures,
    output_len: i64,
    out: &[u8],
) -> u32 {
    if out.len() as i64 != output_len {
        WRONG_OUTPUT
    } else if !tables.are_whole() {
        WRONG_TABLES
    } else if pictures.bytes.len() as i64 != words.pictures_len() {
        WRONG_PICTURES
    } else if pictures.floats.len() as i64 != words.floats_len() {
        WRONG_FLOATS
    } else {
        DONE
    }
}

/// "Fill writes the background to every pixel." and "Output alpha is always 255 once filled."
pub fn fill(words: &Words, out: &mut [u8]) {
    let [channel_0, channel_1, channel_2] = words.background();
    for pixel in out.chunks_mut(4) {
        pixel.copy_from_slice(&[channel_0, channel_1, channel_2, 255]);
    }
}

/// "Painting the band a..b (depths from a up to but not b) blends the enabled layers of those
/// depths, in rising depth, over what the buffer holds" and "With the display off a band changes
/// nothing". Answers the error bits that it sets.
pub fn band(
    words: &Words,
    frame: u32,
    low: u32,
    high: u32,
    tables: Tables,
    pictures: Pictures,
    out: &mut [u8],
) -> u32 {
    let mut errors = 0;
    if !words.display_on() {
        return errors;
    }
    for depth in low..high {
        for n in 0..LAYERS {
            let layer = words.layer(n);
            if !layer.enabled || layer.depth != depth {
                continue;
            }
            for pixel in shown(words, n, 0..words.height(), frame, tables, pictures) {
                pixel.blend_into(out);
            }
            errors |= missing_end(words, n, tables);
        }
    }
    errors
}

/// 02 K3: "one lent output line", whatever it held. "For every accepted setting and every line its
/// bytes and error bits are those of the whole frame", so a list without END sets its bit also
/// where its layer does not reach the line, and with the display off there is background alone.
pub fn line(
    words: &Words,
    frame: u32,
    y: i64,
    tables: Tables,
    pictures: Pictures,
    out: &mut [u8],
) -> u32 {
    fill(words, out);
    let layers = if words.display_on() { words.order() } else { Vec::new() };
    let on_line = |&n: &usize| shown(words, n, y..y + 1, frame, tables, pictures);
    layers.iter().flat_map(on_line).for_each(|pixel| pixel.blend_into(out));
    layers.iter().fold(0, |errors, &n| errors | missing_end(words, n, tables))
}

/// What a layer shows at one pixel of the screen.
#[derive(Clone, Copy, Debug, PartialEq, Eq)]
pub struct Shown {
    /// The place of the pixel's first byte in the lines that are asked for.
    pub at: usize,
    pub channels: [u8; 3],
    /// "a is the pixel's alpha, or, with global alpha set, the fade value."
    pub alpha: u32,
}

impl Shown {
    /// "Alpha bytes of the output are written by fill only."
    fn blend_into(&self, out: &mut [u8]) {
        for channel in 0..3 {
            let under = &mut out[self.at + channel];
            *under = blend(self.alpha, self.channels[channel].into(), (*under).into()) as u8;
        }
    }
}

/// What an enabled layer shows at each of its pixels that lies on those lines of the screen. A
/// frame layer's picture is "in raster order", a float layer's by the bytes that its numbers
/// become; for a graphics layer "the colour table gives channel 0, 1, 2, alpha for an index (000)".
/// "u, v count from the layer's corner".
pub fn shown(
    words: &Words,
    n: usize,
    lines: Range<i64>,
    frame: u32,
    tables: Tables,
    pictures: Pictures,
) -> Vec<Shown> {
    let layer = words.layer(n);
    let list = List::read(tables.active(words, Kind::Instruction, n));
    let colours = tables.active(words, Kind::Colour, n);
    let letters = Letters::active(words, n, tables);
    let [picture, floats] = [words.picture_start(n), words.float_start(n)];
    let over = |u: i64, v: i64| -> [u8; 4] {
        let raster = 4 * (layer.width * v + u);
        if layer.graphics {
            let at = 4 * list.index_at(&letters, u, v);
            std::array::from_fn(|channel| colours[at + channel])
        } else if layer.float {
            let at = (floats + raster) as usize;
            std::array::from_fn(|channel| byte_of(pictures.floats[at + channel]))
        } else {
            let at = (picture + raster) as usize;
            std::array::from_fn(|channel| pictures.bytes[at + channel])
        }
    };
    let pixel = |u: i64, v: i64| {
        let [channel_0, channel_1, channel_2, alpha] = over(u, v);
        Shown {
            at: (4 * (words.width() * (layer.y + v - lines.start) + layer.x + u)) as usize,
            channels: [channel_0, channel_1, channel_2],
            alpha: if layer.global_alpha { layer.fade.at(frame) } else { alpha.into() },
        }
    };
    pixels(words, n, &lines).map(|(u, v)| pixel(u, v)).collect()
}

/// The pixels (u, v) of a layer that lie on those lines of the screen.
pub fn pixels(words: &Words, n: usize, lines: &Range<i64>) -> impl Iterator<Item = (i64, i64)> {
    let layer = words.layer(n);
    let columns = layer.width.min(words.width() - layer.x);
    let [first, end] =
        [lines.start.max(layer.y), lines.end.min(layer.y + layer.height)].map(|y| y - layer.y);
    (first..end).flat_map(move |v| (0..columns).map(move |u| (u, v)))
}

/// "No END means that painting the layer sets error bit 4n (000)."
fn missing_end(words: &Words, n: usize, tables: Tables) -> u32 {
    let ended = List::read(tables.active(words, Kind::Instruction, n)).ended;
    u32::from(words.layer(n).graphics && !ended) << (4 * n)
}
