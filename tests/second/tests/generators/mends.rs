//! What the images to mend and the lines of the program that mends reach (02 K4).

use crate::{assert_came, count, show, Counts};
use second::answers::*;
use second::cases::{gate_lines, gen_mend, gen_page, LINES_A_PAGE, MENDS, PAGES};
use second::host::{image_words, IMAGE_LEN};
use second::mend::mend;
use second::sheet::{read_digits, read_lines};
use second::words::{layer_word, named_bits, Layer, Words, KIND_BITS, LAYERS};

/// What is done to an image, by names; of its layers with their numbers or without.
fn kinds(image: &[u8], layer_name: fn(usize) -> String) -> Vec<String> {
    let (mended, list) = match mend(image) {
        Ok(mended) => mended,
        Err(answer) => return refused_kinds(image, answer),
    };
    let [old, new] = [image, &mended].map(|image| image_words(image).expect("it is whole"));
    let mut kinds = vec!["answer 0".into(), depths_name(given(&old, &new).len())];
    kinds.extend(list.is_empty().then(|| "passes already".into()));
    let one_bit =
        list.iter().map(|change| (change.old ^ change.new).count_ones()).sum::<u32>() == 1;
    kinds.extend(one_bit.then(|| "one bit from passing".into()));
    kinds.extend((0..3).filter(|&r| has_reserved(&old, r)).map(|r| format!("word {r} cleared")));
    for n in 0..LAYERS {
        let kinds_of_layer = layer_kinds(&old, &new, n);
        kinds.extend(kinds_of_layer.into_iter().map(|kind| format!("{}: {kind}", layer_name(n))));
    }
    kinds
}

fn numbered(n: usize) -> String {
    format!("layer {n}")
}

fn has_reserved(words: &Words, register: usize) -> bool {
    words.0[register] & !named_bits(register) != 0
}

fn refused_kinds(image: &[u8], answer: u32) -> Vec<String> {
    let mut whole = image.to_vec();
    whole.resize(IMAGE_LEN, 0);
    let words = image_words(&whole).expect("it is whole");
    let size = match (words.width(), words.height()) {
        (0, 0) => "no width and no height",
        (0, _) => "no width",
        _ => "no height",
    };
    let reserved = if has_reserved(&words, 1) { "reserved bits" } else { "none" };
    let screen = if words.output_len() == 0 { "no screen" } else { "a screen" };
    let kind = match answer {
        NO_OUTPUT => format!("{size}, with {reserved} in its word"),
        _ if image.len() < 8 => format!("{} bytes", image.len()),
        _ => format!("{} bytes, with {screen}", image.len()),
    };
    vec![format!("answer {answer}"), kind]
}

fn depths_name(given: usize) -> String {
    format!("depths given to {given} layers")
}

/// The layers that are on and have another depth now.
fn given(old: &Words, new: &Words) -> Vec<usize> {
    let is_given = |n: &usize| old.layer(*n).depth != new.layer(*n).depth;
    new.order().into_iter().filter(is_given).collect()
}

/// What is done to a layer.
fn layer_kinds(old: &Words, new: &Words, n: usize) -> Vec<String> {
    let (before, after) = (old.layer(n), new.layer(n));
    let off = |m: usize| !new.layer(m).enabled && new.layer(m).depth == after.depth;
    let is_given = after.enabled && before.depth != after.depth;
    let has_both = old.0[layer_word(n)] & KIND_BITS == KIND_BITS;
    let so = [
        ("reserved bits", (layer_word(n)..layer_word(n + 1)).any(|r| has_reserved(old, r))),
        ("bit 2 alone, on", before.enabled && before.float),
        ("bit 2 alone, off", !before.enabled && before.float),
        ("bits 1 and 2, on", before.enabled && has_both),
        ("bits 1 and 2, off", !before.enabled && has_both),
        ("given a depth", is_given),
        ("given the depth of a layer that is off", is_given && (0..LAYERS).any(off)),
        ("off as it came", !before.enabled),
    ];
    let mut kinds: Vec<String> =
        so.into_iter().filter(|(_, is_so)| *is_so).map(|(kind, _)| kind.into()).collect();
    if before.enabled && after.enabled {
        let kind = kind_name(&before);
        let [across, down] = places(old, &before).map(place_name);
        kinds.extend([format!("{kind}, across {across}"), format!("{kind}, down {down}")]);
    } else if before.enabled {
        kinds.push(off_name(old, &before));
    }
    kinds
}

/// A layer's start and length along each axis, with the screen's size.
fn places(words: &Words, layer: &Layer) -> [[i64; 3]; 2] {
    [[layer.x, layer.width, words.width()], [layer.y, layer.height, words.height()]]
}

fn place_name([start, length, screen]: [i64; 3]) -> &'static str {
    match start + length - screen {
        _ if length > screen + 1 => "far too large",
        _ if length > screen => "too large by one",
        1 => "past by one",
        2.. => "far past",
        0 => "at the far edge",
        _ => "amid",
    }
}

fn kind_name(layer: &Layer) -> &'static str {
    match (layer.graphics, layer.float) {
        (true, _) => "list",
        (_, true) => "floats",
        _ => "picture",
    }
}

fn off_name(words: &Words, layer: &Layer) -> String {
    let kind = kind_name(layer);
    let is_larger = (layer.width > words.width(), layer.height > words.height());
    match (layer.width, layer.height, is_larger) {
        (0, 0, _) => format!("{kind}, off without a size"),
        (0, ..) => format!("{kind}, off without a width"),
        (_, 0, _) => format!("{kind}, off without a height"),
        (.., (true, true)) => format!("{kind}, off for both"),
        (.., (true, false)) => format!("{kind}, off for its width alone"),
        _ => format!("{kind}, off for its height alone"),
    }
}

/// What comes of every layer. Layer 0 has no lower one and is given no depth.
fn layer_names(n: usize) -> Vec<String> {
    let places = ["past by one", "far past", "at the far edge", "amid"];
    let large = ["too large by one", "far too large"];
    let bits = ["bit 2 alone, on", "bit 2 alone, off", "bits 1 and 2, on", "bits 1 and 2, off"];
    let mut names: Vec<String> =
        ["reserved bits", "off as it came"].into_iter().chain(bits).map(Into::into).collect();
    for axis in ["across", "down"] {
        let of_frames =
            ["picture", "floats"].map(|kind| places.map(|place| format!("{kind}, {axis} {place}")));
        let pictures = of_frames.concat();
        let lists = places.iter().chain(&large).map(|place| format!("list, {axis} {place}"));
        names.extend(pictures.into_iter().chain(lists));
    }
    for kind in ["list", "picture", "floats"] {
        names.extend(
            ["a size", "a width", "a height"].map(|it| format!("{kind}, off without {it}")),
        );
    }
    for kind in ["picture", "floats"] {
        let off = ["both", "its width alone", "its height alone"];
        names.extend(off.map(|it| format!("{kind}, off for {it}")));
    }
    let depths = ["given a depth", "given the depth of a layer that is off"].map(String::from);
    names.extend(depths.into_iter().filter(|_| n > 0));
    names
}

/// What comes whatever the layer is.
fn image_names() -> Vec<String> {
    let sizes = ["no width", "no height", "no width and no height"];
    let reserved = ["reserved bits", "none"];
    let lost = sizes.map(|size| reserved.map(|bits| format!("{size}, with {bits} in its word")));
    let words = (0..3).map(|register| format!("word {register} cleared"));
    let depths = (0..=7).map(depths_name);
    let passing =
        ["passes already", "one bit from passing", "answer 0", "answer 8"].map(String::from);
    words.chain(depths).chain(passing).chain(lost.concat()).collect()
}

#[test]
fn images_reach_everything() {
    let mut counts = Counts::new();
    for seed in 0..MENDS {
        let case = gen_mend(seed);
        count(&mut counts, kinds(&case.lent.image, numbered));
        let is_null = case.null && case.lent.image.is_empty();
        count(&mut counts, is_null.then(|| "NULL".into()));
        let buffers = ["image", "list", "count"].into_iter().zip(case.past);
        count(&mut counts, buffers.map(|(buffer, past)| format!("{buffer} at {past}")));
    }
    show("images to mend by kind", &counts);
    assert_came(&counts, image_names(), 20);
    for n in 0..LAYERS {
        let names = layer_names(n).into_iter().map(|kind| format!("{}: {kind}", numbered(n)));
        assert_came(&counts, names, 10);
    }
    let short = [0, 1, 4].map(|length| format!("{length} bytes"));
    let others = [204, 207, 209, 212, 416].map(|length| format!("{length} bytes, with a screen"));
    assert_came(&counts, short.into_iter().chain(others).chain(["NULL".into()]), 20);
    assert_came(&counts, [207, 209].map(|n| format!("{n} bytes, with no screen")), 3);
    assert_came(&counts, [format!("answer {WRONG_IMAGE}")], 300);
    let places = [("image", 1), ("list", 4), ("count", 8)];
    for (buffer, step) in places {
        assert_came(&counts, (0..16).step_by(step).map(|past| format!("{buffer} at {past}")), 100);
    }
}

// ---- lines

/// The form of a line, and what is done to its image.
fn line_kinds(line: &[u8], layer_name: fn(usize) -> String) -> Vec<String> {
    const DIGITS: usize = 2 * IMAGE_LEN;
    let has = |is_such: fn(&u8) -> bool| line.iter().any(is_such);
    let is_good = read_digits(line).is_some_and(|image| image.len() == IMAGE_LEN);
    let so = [
        ("empty", line.is_empty()),
        ("a digit too few", line.len() == DIGITS - 1),
        ("two digits too few", line.len() == DIGITS - 2),
        ("a byte too many", line.len() == DIGITS + 1),
        ("several bytes too many", line.len() > DIGITS + 1),
        ("another byte in place of a digit", line.len() == DIGITS && !is_good),
        ("a carriage return at its end", line.ends_with(b"\r")),
        ("a space at its end", line.ends_with(b" ")),
        (
            "lower case alone",
            is_good && has(u8::is_ascii_lowercase) && !has(u8::is_ascii_uppercase),
        ),
        ("either case", is_good && has(u8::is_ascii_lowercase) && has(u8::is_ascii_uppercase)),
        ("upper case alone", is_good && !has(u8::is_ascii_lowercase)),
    ];
    let form = so.into_iter().filter(|(_, is_so)| *is_so).map(|(kind, _)| kind.into());
    let image = read_digits(line).filter(|_| is_good);
    form.chain(image.into_iter().flat_map(|image| kinds(&image, layer_name))).collect()
}

const FORMS: [&str; 11] = [
    "empty",
    "a digit too few",
    "two digits too few",
    "a byte too many",
    "several bytes too many",
    "another byte in place of a digit",
    "a carriage return at its end",
    "a space at its end",
    "lower case alone",
    "either case",
    "upper case alone",
];

#[test]
fn pages_reach_everything() {
    let mut counts = Counts::new();
    for page in (0..PAGES).map(|seed| gen_page(seed, LINES_A_PAGE)) {
        assert!(page.len() > 65_536, "a page is read at once");
        let lines = read_lines(&page);
        lines.iter().for_each(|line| count(&mut counts, line_kinds(line, numbered)));
        let is_cut = page.last() != Some(&b'\n');
        count(&mut counts, is_cut.then(|| "a last line without its feed".into()));
        let is_long = lines.iter().any(|line| line.len() > 65_536);
        count(&mut counts, is_long.then(|| "a line longer than a block".into()));
    }
    show("lines to mend by kind", &counts);
    assert_came(&counts, FORMS.map(String::from), 10);
    assert_came(&counts, image_names(), 10);
    for n in 0..LAYERS {
        let names = layer_names(n).into_iter().map(|kind| format!("{}: {kind}", numbered(n)));
        assert_came(&counts, names, 4);
    }
    let pages = ["a last line without its feed", "a line longer than a block"];
    assert_came(&counts, pages.map(String::from), 5);
}

/// What the lines of the gate have, once at least: not of every layer, not every number of depths,
/// and of floats what a picture does not tell.
#[test]
fn the_lines_of_the_gate_have_every_kind() {
    let mut counts = Counts::new();
    let page = gate_lines();
    read_lines(&page)
        .iter()
        .for_each(|line| count(&mut counts, line_kinds(line, |_| "a layer".into())));
    show("lines of the gate by kind", &counts);
    assert_came(&counts, FORMS.map(String::from), 1);
    let words = (0..3).map(|register| format!("word {register} cleared"));
    let depths = [0, 1, 7].map(depths_name);
    let others =
        ["passes already", "one bit from passing", "answer 0", "answer 8"].map(String::from);
    assert_came(&counts, words.chain(depths).chain(others), 1);
    let floats = ["across past by one", "off for its width alone", "off for its height alone"];
    let floats = floats.map(|kind| format!("floats, {kind}"));
    let kinds = layer_names(1).into_iter().filter(|kind| !kind.starts_with("floats"));
    assert_came(&counts, kinds.chain(floats).map(|kind| format!("a layer: {kind}")), 1);
    assert!((20..=50).contains(&read_lines(&page).len()));
}
