//! The program that mends an image a line beside this display: both read the same pages, and must
//! print the same bytes. What it prints for its own images is asked of it alone.

use second::beside::{fewer, lines, mended, run, seed, seeds};
use second::cases::{border_page, digit_page, gate_lines, gen_page, LINES_A_PAGE, PAGES};
use second::host::IMAGE_LEN;
use second::mend::print_mended;
use std::fs;
use std::path::Path;

/// What a program prints for a page.
type Program<'a> = &'a dyn Fn(&[u8]) -> Vec<u8>;

/// Compares one page; a difference is told with the first line that differs and a smaller page that
/// differs too.
fn compare(name: &str, page: &[u8], other: Program) -> Result<(), String> {
    let (ours, theirs) = (print_mended(page), other(page));
    if ours == theirs {
        return Ok(());
    }
    let (ours, theirs) = (lines(&ours), lines(&theirs));
    let first = (0..).find(|&i| ours.get(i) != theirs.get(i)).expect("they differ");
    let differs = |lines: &[Vec<u8>]| print_mended(&lines.concat()) != other(&lines.concat());
    // A line is mended by itself, so the one that differs is tried alone first.
    let alone: Vec<Vec<u8>> = lines(page).into_iter().skip(first).take(1).collect();
    let small = if differs(&alone) { alone } else { fewer(lines(page), &differs) };
    let shown = |text: Vec<u8>| text.escape_ascii().to_string().replace("\\n", "\n");
    let told = [
        format!("{name} differs at line {} of {}", first + 1, ours.len()),
        format!("a small page that differs, of {} lines:", small.len()),
        shown(small.concat()),
        format!("we print for it\n{}", shown(print_mended(&small.concat()))),
        format!("it prints for it\n{}", shown(other(&small.concat()))),
    ];
    Err(told.join("\n"))
}

/// Pages whose form is the point. A page on which the two have ever differed gets a row here.
fn fixed() -> Vec<(&'static str, Vec<u8>)> {
    let good = "ABCDEF9876543210".repeat(IMAGE_LEN / 8);
    let page = |text: &str| text.replace("GOOD", &good).into_bytes();
    let low_bits = [256, 512, 65_536].map(|more| format!("GOOD{}\n", "0".repeat(more))).concat();
    vec![
        ("an empty page", page("")),
        ("a lone line feed", page("\n")),
        ("two line feeds and a bare digit", page("\n\n0")),
        ("a line", page("GOOD\n")),
        ("a line without its line feed", page("GOOD")),
        ("a line and a line feed", page("GOOD\n\n")),
        ("either case", page(&"GOOD\nGOOD".replace("GOOD", &good.to_lowercase()))),
        ("carriage returns", page("GOOD\r\nGOOD\n\r\nGOOD\r")),
        ("spaces, a NUL and a sign", page("GOOD \n GOOD\nGOOD\0\n+GOOD")),
        ("digits too few and too many", page("GOOD0\nGOOD00\nGOODGOOD\n0\n00")),
        ("lengths that are right in their low bits", page(&low_bits)),
        ("every byte", digit_page()),
        ("lines across the blocks", border_page()),
        ("many lines, the last without its line feed", page("GOOD\n".repeat(1_000).trim_end())),
        ("the lines of the gate", gate_lines()),
    ]
}

/// The files that the gate holds the program to are what `mend lines` and `mend stdout` print.
#[test]
fn the_lines_of_the_gate_are_made_here() {
    let folder = Path::new(env!("CARGO_MANIFEST_DIR")).join("../../crates/mend");
    let page = gate_lines();
    assert!(fs::read(folder.join("stdin")).expect("it is there") == page, "make stdin anew");
    let printed = print_mended(&page);
    assert!(fs::read(folder.join("stdout")).expect("it is there") == printed, "make stdout anew");
}

#[test]
fn the_program_prints_the_fixed_pages() {
    for (name, page) in fixed() {
        compare(name, &page, &mended).unwrap_or_else(|told| panic!("{told}"));
    }
}

#[test]
fn the_program_prints_the_generated_pages() {
    if let Some(seed) = seed() {
        let page = gen_page(seed, LINES_A_PAGE);
        println!("it reads\n{}", page.escape_ascii().to_string().replace("\\n", "\n"));
        println!("we print\n{}", String::from_utf8_lossy(&print_mended(&page)));
    }
    for seed in seeds("SPOONWING_IMAGES", LINES_A_PAGE, PAGES) {
        let page = gen_page(seed, LINES_A_PAGE);
        compare(&format!("the page of seed {seed}"), &page, &mended)
            .unwrap_or_else(|told| panic!("{told}"));
    }
}

/// "The result passes every start check, and an image which passes already comes back the same with
/// an empty list": given back to the program, its images are printed as they are.
fn is_mended_once(program: Program, page: &[u8]) -> Result<usize, String> {
    const PRINTED: usize = 2 + 2 * IMAGE_LEN;
    let printed = lines(&program(page));
    let images = printed.iter().filter(|line| line.starts_with(b"00") && line.len() > PRINTED);
    let again: Vec<Vec<u8>> = images.map(|line| [&line[..PRINTED], b"\n"].concat()).collect();
    let given: Vec<u8> = again.iter().flat_map(|line| &line[2..]).copied().collect();
    let left = lines(&program(&given));
    match (0..again.len()).find(|&i| left.get(i) != Some(&again[i])) {
        Some(i) => Err(format!("it mends again {}", again[i].escape_ascii())),
        None => Ok(again.len()),
    }
}

#[test]
fn the_program_mends_once() {
    let images = (0..PAGES).map(|seed| {
        is_mended_once(&mended, &gen_page(seed, LINES_A_PAGE))
            .unwrap_or_else(|told| panic!("the page of seed {seed}: {told}"))
    });
    let images: usize = images.sum();
    assert!(images > 2_000, "only {images} images are mended");
}

/// The comparison itself, on a program that is known to agree.
#[test]
fn our_own_program_agrees() {
    let own = Path::new(env!("CARGO_BIN_EXE_mend"));
    for (name, page) in fixed() {
        compare(name, &page, &|page| run(own, &["stdout"], page))
            .unwrap_or_else(|told| panic!("{told}"));
    }
}

/// What our program prints for a page that is read otherwise.
fn reading(read: fn(&str) -> String) -> impl Fn(&[u8]) -> Vec<u8> {
    // A byte is a letter here, so that none is lost.
    move |page| {
        let text: String = page.iter().map(|&byte| char::from(byte)).collect();
        print_mended(&read(&text).chars().map(|letter| letter as u8).collect::<Vec<u8>>())
    }
}

/// What our program prints, its lines printed otherwise.
fn printing(print: fn(&str) -> String) -> impl Fn(&[u8]) -> Vec<u8> {
    move |page| {
        let printed = String::from_utf8(print_mended(page)).expect("digits");
        printed.lines().map(|line| print(line) + "\n").collect::<String>().into_bytes()
    }
}

/// And on programs that are known not to.
#[test]
fn impostors_are_caught_and_their_pages_made_small() {
    let only_upper = reading(|text| text.replace(|c: char| c.is_ascii_lowercase(), "x"));
    let ends_by_cr = reading(|text| text.replace("\r\n", "\n"));
    let no_spaces = reading(|text| text.replace(' ', ""));
    let last_line_lost = reading(|text| text[..text.rfind('\n').map_or(0, |at| at + 1)].into());
    let cut_at_a_block = reading(|text| match text.len() {
        ..=65_536 => text.into(),
        _ => format!("{}\n{}", &text[..65_536], &text[65_536..]),
    });
    let lower_printed = printing(|line| line.to_lowercase());
    let no_list = printing(|line| line[..line.len().min(2 + 2 * IMAGE_LEN)].into());
    let new_first = printing(|line| match line.len() {
        ..=434 => line.into(),
        _ => format!("{}{}{}{}", &line[..420], &line[428..436], &line[420..428], &line[436..]),
    });
    let impostors: [Program; 8] = [
        &only_upper,
        &ends_by_cr,
        &no_spaces,
        &last_line_lost,
        &cut_at_a_block,
        &lower_printed,
        &no_list,
        &new_first,
    ];
    for (i, impostor) in impostors.into_iter().enumerate() {
        let caught = fixed().iter().find_map(|(name, page)| compare(name, page, impostor).err());
        let told = caught.unwrap_or_else(|| panic!("impostor {i} goes unseen"));
        // Only what is lost at the border of a block needs all lines before it.
        let small = (1..=2).any(|n| told.contains(&format!("differs, of {n} lines")));
        assert!(small || i == 4, "{told}");
    }
    // It leaves a reserved bit in the first word.
    let restless = printing(|line| line.replacen("0005", "0007", 1));
    assert!((0..5).any(|seed| is_mended_once(&restless, &gen_page(seed, 50)).is_err()));
}
