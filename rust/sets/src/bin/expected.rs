//! Prints for each stored set the line that the proved program over it writes if no answer differs.
//!
//! Usage: expected FOLDER FILE...

use sets::vectors::expected::line;
use std::io::{Error, Result};
use std::path::Path;

fn main() -> Result<()> {
    let mut arguments = std::env::args().skip(1);
    let folder = arguments.next().ok_or_else(|| Error::other("usage: expected FOLDER FILE..."))?;
    for name in arguments {
        let bytes = std::fs::read(Path::new(&folder).join(&name))?;
        let line = line(&name, &bytes).ok_or_else(|| Error::other(format!("{name}: cut short")))?;
        println!("{line}");
    }
    Ok(())
}
