//! Checksums of all blends at one alpha and of one length's fades at their edges (01 "Painting"),
//! as the figures program prints them.

use crate::fade::Fade;
use crate::paint::blend;

/// FNV-1a, of 32 bits.
pub fn checksum(bytes: &[u8]) -> u32 {
    let with_byte = |sum: u32, &byte: &u8| (sum ^ u32::from(byte)).wrapping_mul(16_777_619);
    bytes.iter().fold(2_166_136_261, with_byte)
}

/// A screen of 256 by 86 pixels after a band over it. Its channels in a row are numbered, and
/// number n has n mod 256 over and n / 256 mod 256 under. The output's alpha bytes hold what a
/// fourth channel would have under it, and stay.
fn screen(alpha: impl Fn(u32) -> u32) -> u32 {
    let byte = |i: u32| {
        let (pixel, channel) = (i / 4, i % 4);
        let n = 3 * pixel + channel;
        let under = n / 256 % 256;
        let painted = if channel == 3 { under } else { blend(alpha(pixel), n % 256, under) };
        painted as u8
    };
    checksum(&(0..4 * 256 * 86).map(byte).collect::<Vec<u8>>())
}

/// With that alpha in each pixel, as the layer's, and in pixel 0 with one more in each next pixel;
/// then the 65,536 blends in a row.
pub fn blends(alpha: u32) -> [u32; 4] {
    let row = (0..65_536).map(|n| blend(alpha, n % 256, n / 256) as u8);
    [
        screen(|_| alpha),
        screen(|_| alpha),
        screen(|pixel| (alpha + pixel) % 256),
        checksum(&row.collect::<Vec<u8>>()),
    ]
}

const VALUES: [u32; 6] = [0, 1, 127, 128, 200, 255];
const STARTS: [u32; 6] = [0, 1, 100, 0x7FFF_FFFF, 0x8000_0000, 0xFFFF_FFFF];
const AWAY: [i64; 16] = [
    0,
    1,
    2,
    3,
    4,
    128,
    0x8000,
    0x7FFF_FFFE,
    0x7FFF_FFFF,
    0x8000_0000,
    0x8000_0001,
    -0x8000,
    -4,
    -3,
    -2,
    -1,
];

/// The fade of case i: a value, a target, a start, and a frame that lies so far away from the
/// begin, the middle or the end.
fn fade_case(length: u32, i: usize) -> u8 {
    let (value, target) = (VALUES[i % 6], VALUES[i / 6 % 6]);
    let place = [0, length / 2, length][i / 36 % 3];
    let start = STARTS[i / 1_728];
    let frame = i64::from(start) + i64::from(place) + AWAY[i / 108 % 16];
    Fade { value, target, start, length }.at(frame as u32) as u8
}

/// All cases of a length; and those of one start as they are painted, since painting counts from its
/// own frame number. White over black gives the alpha.
pub fn fades(length: u32) -> [u32; 2] {
    let called: Vec<u8> = (0..6 * 1_728).map(|i| fade_case(length, i)).collect();
    let painted = called[..1_728].iter().map(|&alpha| blend(u32::from(alpha), 255, 0) as u8);
    [checksum(&called), checksum(&painted.collect::<Vec<u8>>())]
}
