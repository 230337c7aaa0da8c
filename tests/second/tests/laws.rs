//! Laws that follow from documents 01 and 02, tried on all blends, on the fades' edges, on floats
//! of every kind and on scripts of calls.

use second::answers::*;
use second::cases::{all_series, gen_as_bytes, gen_calls, gen_invisible, Inputs, Series};
use second::display::Display;
use second::fade::Fade;
use second::floats::{byte_of, Floats};
use second::paint::blend;
use second::script::{Call, Stage, BAND, CALLS, FILL, FRAME, LINE, PUT, PUT_RUN, WRITE_RUN};
use second::tables::Bits;

const SCRIPTS: u64 = 30;
const CALLS_A_SCRIPT: usize = 1_500;

/// What a blend divides by 255.
fn dividend(a: u32, over: u32, under: u32) -> u32 {
    a * over + 255 * under - a * under + 127
}

/// With every alpha, channel over and channel under.
fn all_dividends() -> impl Iterator<Item = ([u32; 3], u32)> {
    (0..1 << 24).map(|n| {
        let [a, over, under] = [n >> 16, n >> 8 & 255, n & 255];
        ([a, over, under], dividend(a, over, under))
    })
}

/// The quotient q of t by 255 is the one number with 255·q at most t and t below 255·(q + 1).
#[test]
fn blend_is_the_quotient() {
    for ([a, over, under], t) in all_dividends() {
        let q = blend(a, over, under);
        assert!(255 * q <= t && t < 255 * (q + 1), "({a},{over},{under})");
    }
}

/// 02 K6: "they add 1 and the number's own upper part (shifted by 8), then shift by 8", and "the
/// answers do not change."
#[test]
fn blend_in_the_boards_steps() {
    for ([a, over, under], t) in all_dividends() {
        assert_eq!(blend(a, over, under), (t + 1 + (t >> 8)) >> 8, "({a},{over},{under})");
    }
}

/// The same with a step left out or a shift of 7 is seen.
#[test]
fn other_steps_give_other_blends() {
    let others: [fn(u32) -> u32; 4] = [
        |t| (t + (t >> 8)) >> 8,
        |t| (t + 1) >> 8,
        |t| (t + 1 + (t >> 7)) >> 8,
        |t| (t + 1 + (t >> 8)) >> 7,
    ];
    for (number, other) in others.iter().enumerate() {
        let differs = |([a, over, under], t): ([u32; 3], u32)| blend(a, over, under) != other(t);
        assert!(all_dividends().any(differs), "way {number} to divide");
    }
}

/// 02 K6: "The largest dividend is 65,152": that of 255 at alpha 255, whatever is under it, and at
/// alpha 0 over 255, whatever it is of.
#[test]
fn largest_dividend() {
    assert_eq!(all_dividends().map(|(_, t)| t).max(), Some(65_152));
    for x in 0..=255 {
        assert_eq!([dividend(255, 255, x), dividend(0, x, 255)], [65_152; 2], "{x}");
    }
}

/// "a is the pixel's alpha": 255 shows the layer alone and 0 what is under it.
#[test]
fn blend_at_its_ends() {
    for over in 0..=255 {
        for under in 0..=255 {
            assert_eq!(blend(255, over, under), over);
            assert_eq!(blend(0, over, under), under);
        }
    }
}

/// The fade rule once more, with the difference brought into −2^31..2^31 by adding and the step
/// counted from the value.
fn fade_again(fade: &Fade, frame: u32) -> u32 {
    let mut e = i64::from(frame) - i64::from(fade.start);
    if e >= 1 << 31 {
        e -= 1 << 32;
    }
    if e < -(1 << 31) {
        e += 1 << 32;
    }
    let (value, target, length) =
        (i64::from(fade.value), i64::from(fade.target), i64::from(fade.length));
    let running = length > 0 && (0..length).contains(&e);
    let step = if running {
        ((target - value) * e + length / 2).div_euclid(length)
    } else if length > 0 && e >= 0 {
        target - value
    } else {
        0
    };
    (value + step) as u32
}

#[test]
fn fade_is_another_formula() {
    let edges = [
        0,
        1,
        2,
        3,
        99,
        0x7FFF_FFFE,
        0x7FFF_FFFF,
        0x8000_0000,
        0x8000_0001,
        0xFFFF_FFFE,
        0xFFFF_FFFF_u32,
    ];
    for start in edges {
        for length in [0, 1, 2, 3, 4, 5, 255, 256, 65_534, 65_535] {
            for (value, target) in
                [(0, 255), (255, 0), (0, 0), (255, 255), (1, 2), (2, 1), (17, 200), (200, 17)]
            {
                let fade = Fade { value, target, start, length };
                let beside = [start, start.wrapping_add(length), start.wrapping_add(1 << 31)];
                let near = beside
                    .into_iter()
                    .flat_map(|at| (-3..=3).map(move |off: i32| at.wrapping_add(off as u32)));
                for frame in
                    near.chain(edges).chain((1..20).map(|i| start.wrapping_add(length * i / 20)))
                {
                    assert_eq!(fade.at(frame), fade_again(&fade, frame), "{fade:?} at {frame}");
                }
            }
        }
    }
}

// ---- floats

/// The rule of 02 K7 once more, in f64: 255 times an f32 needs 32 of its 53 bits, and a half more
/// takes none away where it counts.
fn byte_again(bits: u32) -> u8 {
    let value = f64::from(f32::from_bits(bits));
    match value {
        _ if value.is_nan() || value <= 0.0 => 0,
        _ if value >= 1.0 => 255,
        _ => (255.0 * value + 0.5).floor() as u8,
    }
}

#[test]
fn a_byte_is_another_formula() {
    for bits in all_series().into_iter().flat_map(Series::bits) {
        assert_eq!(byte_of(bits), byte_again(bits), "{bits:08X}");
    }
}

/// "the whole number nearest to 255 times its exact value, halves upward": with the fraction whole
/// / 2^power, 510·whole lies from 2·byte − 1 on and below 2·byte + 1, both times 2^power.
#[test]
fn a_byte_is_the_nearest() {
    let exponents = 64..127;
    for bits in all_series().into_iter().flat_map(Series::bits) {
        if exponents.contains(&(bits >> 23)) {
            let (whole, power) = (i128::from(bits & 0x7F_FFFF | 1 << 23), 150 - (bits >> 23));
            let (value, byte) = (510 * whole, i128::from(byte_of(bits)));
            let is_nearest = (2 * byte - 1) << power <= value && value < (2 * byte + 1) << power;
            assert!(is_nearest, "{bits:08X} is {byte}");
        }
    }
}

/// A greater number has no smaller byte; what has no sign goes up with its bits.
#[test]
fn bytes_go_up() {
    let mut all: Vec<u32> = all_series().into_iter().flat_map(Series::bits).collect();
    all.retain(|&bits| bits <= f32::INFINITY.to_bits());
    all.sort();
    assert!(all.windows(2).all(|two| byte_of(two[0]) <= byte_of(two[1])));
    assert!((0..=255).all(|byte| all.iter().any(|&bits| byte_of(bits) == byte)));
}

/// 02 K7: "Demands 2 and 3 read a float layer by these bytes."
#[test]
fn a_float_layer_is_its_bytes() {
    for seed in 0..300 {
        let pair = gen_as_bytes(seed);
        assert!(pair.one.under(8) == pair.other.under(8), "seed {seed}");
    }
}

/// A float layer that is withdrawn takes its floats along and leaves the bytes as they are.
#[test]
fn a_clear_layer_takes_its_floats_along() {
    let mut layers = 0;
    for seed in 0..600 {
        let pair = gen_invisible(seed, Floats::With);
        let lengths = |inputs: &Inputs| [inputs.words.pictures_len(), inputs.words.floats_len()];
        let layer = pair.one.words.layer(pair.layer);
        let [bytes, floats] = lengths(&pair.one);
        assert!(pair.one.under(8) == pair.other.under(8), "seed {seed}");
        if layer.float {
            assert_eq!(lengths(&pair.other), [bytes, floats - layer.picture_len()], "seed {seed}");
            layers += 1;
        }
    }
    assert!(layers > 100, "only {layers} float layers are withdrawn");
}

// ---- calls

/// Plays scripts and shows each call with the stage before it, its answer and the stage after it. A
/// record of several puts or paintings is several calls, and so is a run; these are not shown.
fn each_call(mut look: impl FnMut(&Stage, Call, u32, &Stage)) {
    for seed in 0..SCRIPTS {
        let mut stage = Stage::new();
        for call in gen_calls(seed, CALLS_A_SCRIPT) {
            let before = stage.clone();
            let (answer, _) = stage.play(call);
            let is_one = match call.letter {
                PUT => call.b == 0,
                PUT_RUN | WRITE_RUN => false,
                BAND | FRAME | LINE => before.more == 0,
                letter => CALLS.contains(&letter),
            };
            if is_one {
                look(&before, call, answer, &stage);
            }
        }
    }
}

/// The column "Leaves" of "Answers by number".
#[test]
fn refusals_leave_the_rest() {
    each_call(|before, call, answer, after| {
        if answer == DONE {
            return;
        }
        let mut expected = before.clone();
        match answer {
            // Its error bit is set: 4g+1 of some controller, and toggling it back shows that
            // nothing else moved.
            BANK_FULL => {
                let set = before.display.errors() ^ after.display.errors();
                assert_eq!(set & !0x2222_2222, 0);
                expected.display.toggle(set);
            }
            // "frame number stepped, else unchanged": as a start does that checks and copies
            // nothing.
            RESERVED_BIT..=SAME_DEPTH => {
                let word_0 = before.display.pending().0[0];
                expected.display.write(0, word_0 & !0b100);
                assert_eq!(expected.display.start(), DONE);
                expected.display.write(0, word_0);
            }
            _ => {}
        }
        assert!(*after == expected, "{call:?} answered {answer}");
    });
}

/// "Each put stores one byte", fill and paint touch no table, and paint leaves the alpha bytes.
#[test]
fn calls_touch_their_own_bytes() {
    each_call(|before, call, answer, after| {
        let stored =
            before.tables.iter().zip(&after.tables).filter(|(old, new)| old != new).count();
        assert!(stored <= usize::from(call.letter == PUT), "{call:?}");
        let alphas = |stage: &Stage| stage.out.chunks(4).map(|pixel| pixel[3]).collect::<Vec<u8>>();
        let lent = call.lent_out(before.lent.out);
        match call.letter {
            FILL | FRAME | LINE if answer == DONE => {
                assert!(after.out[lent.clone()].chunks(4).all(|pixel| pixel[3] == 255));
                assert_eq!(after.out[..lent.start], before.out[..lent.start]);
                assert_eq!(after.out[lent.end..], before.out[lent.end..]);
            }
            BAND => assert_eq!(alphas(after), alphas(before)),
            _ => assert_eq!(after.out, before.out),
        }
    });
}

/// "A whole frame is a fill and band 0..8", and a band is its parts one after the other, wherever
/// it is split.
#[test]
fn a_frame_is_a_fill_and_bands() {
    each_call(|before, call, answer, after| {
        if call.letter != FRAME || answer != DONE {
            return;
        }
        for middle in 0..=8 {
            let mut parts = before.clone();
            assert_eq!(parts.play(Call { letter: FILL, a: 0, b: 0 }), (DONE, 0));
            for (a, b) in [(0, middle), (middle, middle), (middle, 8)] {
                assert_eq!(parts.play(Call { letter: BAND, a, b }), (DONE, 0));
            }
            assert!(parts == *after, "split at {middle}");
        }
    });
}

/// "For every accepted setting and every line its bytes and error bits are those of the whole
/// frame."
#[test]
fn a_line_is_a_line_of_the_frame() {
    let mut lines = 0;
    each_call(|before, call, answer, after| {
        if call.letter != LINE || answer != DONE {
            return;
        }
        let mut frame = before.clone();
        frame.lent.out = before.display.active().output_len() as usize;
        assert_eq!(frame.play(Call { letter: FRAME, a: 0, b: 0 }), (DONE, 0));
        let line = &after.out[call.lent_out(before.lent.out)];
        assert_eq!(line, &frame.out[line.len() * call.a as usize..][..line.len()], "{call:?}");
        assert!(after.display == frame.display, "{call:?}");
        lines += 1;
    });
    assert!(lines > 500, "only {lines} lines are painted");
}

/// "With the display off a band changes nothing, the state included".
#[test]
fn a_dark_display_paints_nothing() {
    each_call(|before, call, _, after| {
        if call.letter == BAND && !before.display.active().display_on() {
            assert!(after == before);
        }
    });
}

/// "each 1 clears a set bit and sets a clear one, all 32 of them": two toggles are one by the
/// exclusive or.
#[test]
fn toggles_add_up() {
    let words = [0, 1, 0x10, 0x11, 0x8000_0000, 0x7FFF_FFFF, u32::MAX];
    for first in words {
        for second in words {
            let mut twice = Display::fresh(Bits::One, Floats::With);
            assert_eq!((twice.toggle(first), twice.toggle(second)), (DONE, DONE));
            assert_eq!(twice.errors(), first ^ second);
        }
    }
}
