//! `mend lines` prints the lines of the gate, `mend lines SEED LINES` a page of a seed; `mend
//! stdout` reads lines and prints what the program that mends has to print for them.

use second::cases::{gate_lines, gen_page};
use second::mend::print_mended;
use std::io::{self, Read, Write};

fn main() -> io::Result<()> {
    let words: Vec<String> = std::env::args().skip(1).collect();
    let words: Vec<&str> = words.iter().map(String::as_str).collect();
    let text = match words[..] {
        ["lines"] => gate_lines(),
        ["lines", seed, lines] => match (seed.parse(), lines.parse()) {
            (Ok(seed), Ok(lines)) => gen_page(seed, lines),
            _ => return Err(io::Error::other("SEED and LINES are numbers")),
        },
        ["stdout"] => {
            let mut lines = Vec::new();
            io::stdin().read_to_end(&mut lines)?;
            print_mended(&lines)
        }
        _ => return Err(io::Error::other("usage: mend lines [SEED LINES] | mend stdout")),
    };
    io::stdout().write_all(&text)
}
