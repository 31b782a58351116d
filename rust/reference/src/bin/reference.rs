//! Judges one image, from a file or from standard input, and prints the nine fields.
//!
//! Usage: reference [--program] [FILE]. With `--program` an image is too long from where it is for the
//! program `verdict`, not for the library.

use reference::checker::{check_within, limits};
use std::io::Read;

fn main() -> std::io::Result<()> {
    let mut arguments = std::env::args_os().skip(1).peekable();
    let program = arguments.next_if(|argument| argument == "--program").is_some();
    let most = if program { limits::PROGRAM_BYTES } else { limits::IMAGE_BYTES };
    let image = match arguments.next() {
        Some(path) => std::fs::read(path)?,
        None => {
            let mut bytes = Vec::new();
            std::io::stdin().read_to_end(&mut bytes)?;
            bytes
        }
    };
    println!("{}", check_within(&image, most));
    Ok(())
}
