//! `frame DIR` paints a frame from the files that `spoonwing pack` leaves in a folder (image.bin,
//! frame.bin, tables.bin, pictures.bin) and prints its bytes; a refusal is the exit status.

use second::answers::DONE;
use second::host::{host_frame, image_words};
use std::io::{self, Write};
use std::path::Path;
use std::process::ExitCode;

fn main() -> io::Result<ExitCode> {
    let words: Vec<String> = std::env::args().skip(1).collect();
    let [folder] = &words[..] else {
        return Err(io::Error::other("usage: frame DIR"));
    };
    let left = |name: &str| std::fs::read(Path::new(folder).join(name));
    let (image, tables, pictures) =
        (left("image.bin")?, left("tables.bin")?, left("pictures.bin")?);
    let frame =
        left("frame.bin")?.try_into().map_err(|_| io::Error::other("frame.bin is no word"))?;
    let length = image_words(&image).map_or(0, |words| words.output_len() as usize);
    // What the output held does not count, so it does not begin as zeros.
    let mut output = vec![0xA5; length];
    let answer = host_frame(&image, u32::from_le_bytes(frame), &tables, &pictures, &mut output);
    if answer == DONE {
        io::stdout().write_all(&output)?;
    }
    Ok(ExitCode::from(answer as u8))
}
