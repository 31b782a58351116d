//! The program `fuzz`: reads changed texts and images, and tells what ends the program or is misread.

use outline::build::build;
use outline::fuzz::{run, Seeds};
use outline::image::to_bytes;
use outline::text::parse_source::parse;
use std::path::Path;
use std::process::ExitCode;

const USAGE: &str = "usage: fuzz FOLDER FIRST RUNS   changes the outlines of FOLDER and their images, a run for each seed from FIRST on";

fn main() -> ExitCode {
    let args: Vec<String> = std::env::args().skip(1).collect();
    let numbers = |a: &str, b: &str| Some((a.parse::<u64>().ok()?, b.parse::<u64>().ok()?));
    let asked = match &args[..] {
        [folder, first, runs] => numbers(first, runs).map(|(first, runs)| (folder, first, runs)),
        _ => None,
    };
    let Some((folder, first, runs)) = asked else {
        eprintln!("{USAGE}");
        return ExitCode::from(2);
    };
    let seeds = match seeds(Path::new(folder)) {
        Ok(seeds) => seeds,
        Err(text) => {
            eprintln!("{text}");
            return ExitCode::from(2);
        }
    };
    let (mut read, mut failures) = (0, 0);
    for seed in first..first.saturating_add(runs) {
        match run(&seeds, seed) {
            Ok(is_read) => read += u64::from(is_read),
            Err(failure) => {
                failures += 1;
                let input = failure.input.escape_ascii();
                println!("seed {}: {}\n{input}", failure.seed, failure.told);
            }
        }
    }
    println!("{runs} runs, {read} of them read, {failures} failures");
    ExitCode::from(u8::from(failures > 0))
}

/// The outlines of a folder, those that `show` prints of them, and their images.
fn seeds(folder: &Path) -> Result<Seeds, String> {
    let told = |e: std::io::Error| format!("{}: {e}", folder.display());
    let entries = std::fs::read_dir(folder).map_err(told)?.collect::<Result<Vec<_>, _>>();
    let mut paths: Vec<_> = entries.map_err(told)?.into_iter().map(|entry| entry.path()).collect();
    paths.sort();
    paths.retain(|path| path.extension().is_some_and(|e| e == "outline"));
    let (mut texts, mut images) = (Vec::new(), Vec::new());
    for path in paths {
        let text =
            std::fs::read_to_string(&path).map_err(|e| format!("{}: {e}", path.display()))?;
        let source = parse(&text).map_err(|e| format!("{}: {e}", path.display()))?;
        let built = build(&source).map_err(|e| format!("{}: {e}", path.display()))?;
        let bytes = to_bytes(&built.image)?;
        texts.push(text);
        images.push(bytes);
    }
    let shown = images.iter().take(12).filter_map(|bytes| outline::image::read(bytes).ok());
    texts.extend(shown.map(|image| outline::text::show::show(&image)).collect::<Vec<String>>());
    Ok(Seeds { texts, images })
}
