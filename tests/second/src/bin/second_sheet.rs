//! Reads a sheet from its input and prints what this display makes of it (01 "Sheet program and
//! host entry").

use second::sheet::print_sheet;
use std::io::{self, Read, Write};

fn main() -> io::Result<()> {
    let mut text = Vec::new();
    io::stdin().read_to_end(&mut text)?;
    io::stdout().write_all(&print_sheet(&text))
}
