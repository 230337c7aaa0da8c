//! Prints the generated sheet of a seed: `gen SEED LINES`.

use second::cases::gen_sheet;
use std::io::{self, Write};
use std::process::ExitCode;

fn main() -> ExitCode {
    let numbers: Option<Vec<u64>> =
        std::env::args().skip(1).map(|argument| argument.parse().ok()).collect();
    let Some([seed, lines]) = numbers.as_deref() else {
        eprintln!("usage: gen SEED LINES");
        return ExitCode::FAILURE;
    };
    match io::stdout().write_all(&gen_sheet(*seed, *lines as usize)) {
        Ok(()) => ExitCode::SUCCESS,
        Err(_) => ExitCode::FAILURE,
    }
}
