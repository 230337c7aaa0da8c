//! `figures script` prints the script of the gate, `figures script SEED RECORDS` one of a seed;
//! `figures stdout` reads a script and prints what the figures program has to print for it.

use second::cases::{gate_script, gen_calls};
use second::script::{print_script, script_text};
use std::io::{self, Read, Write};

fn main() -> io::Result<()> {
    let words: Vec<String> = std::env::args().skip(1).collect();
    let words: Vec<&str> = words.iter().map(String::as_str).collect();
    let text = match words[..] {
        ["script"] => script_text(&gate_script()),
        ["script", seed, records] => match (seed.parse(), records.parse()) {
            (Ok(seed), Ok(records)) => script_text(&gen_calls(seed, records)),
            _ => return Err(io::Error::other("SEED and RECORDS are numbers")),
        },
        ["stdout"] => {
            let mut script = Vec::new();
            io::stdin().read_to_end(&mut script)?;
            print_script(&script)
        }
        _ => return Err(io::Error::other("usage: figures script [SEED RECORDS] | figures stdout")),
    };
    io::stdout().write_all(&text)
}
