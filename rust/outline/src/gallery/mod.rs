//! The tables of `examples/README.md`: every figure and every run in them is worked out here.

mod header;
pub mod inferred;
mod run;
pub mod times;
mod trimmed;

use crate::build::{build, Built, Open};
use crate::further::{self, Further};
use crate::image::to_bytes;
use crate::text::lex::Mistake;
use crate::text::parse_source::parse;
use crate::text::source::Source;
use crate::text::{counted, report};
pub use header::Header;
use reference::explore::Break;
use std::fmt::Write;
use std::path::{Path, PathBuf};

/// The marks in the page between which the tables stand.
const BEGIN: &str = "<!-- tables: by the program gallery -->\n\n";
const END: &str = "\n<!-- end of the tables -->\n";

/// An outline with what its header says and what building it gives.
struct Example {
    name: String,
    header: Header,
    source: Source,
    built: Built,
    bytes: usize,
    /// A shortest run that breaks a wrong variant.
    broken: Option<Break>,
}

impl Example {
    fn read(name: &str, text: &str) -> Result<Example, String> {
        let told = |e: crate::text::lex::Mistake| format!("{name}: {e}");
        let source = parse(text).map_err(told)?;
        let built = build(&source).map_err(told)?;
        let bytes = to_bytes(&built.image).map_err(|e| format!("{name}: {e}"))?.len();
        let header = Header::of(text).map_err(|e| format!("{name}: {e}"))?;
        let broken = variant_of(name).and_then(|_| run::breaking(&source));
        Ok(Example { name: name.into(), header, source, built, bytes, broken })
    }

    fn link(&self) -> String {
        format!("[`{0}`]({0}.outline)", self.name)
    }

    /// A wrong variant by its number, and in how many steps it breaks.
    fn brief(&self) -> String {
        let number = self.name.rsplit('-').next().unwrap_or_default();
        let steps = match self.broken.as_ref().map_or(0, |broken| broken.run.len()) {
            0 => "at the start".into(),
            steps => counted(steps, "step"),
        };
        format!("[{number}]({}.outline): {steps}", self.name)
    }

    /// Lines, formulas and bytes.
    fn size(&self) -> String {
        let image = &self.built.image;
        format!("{} | {} | {}", image.lines.len(), image.formulas.len(), self.bytes)
    }

    /// How many obligations and claims there are.
    fn goals(&self) -> [usize; 2] {
        [self.built.image.obligations.len(), self.built.image.claims.len()]
    }

    /// The first open obligation, in words.
    fn first_open(&self) -> String {
        let open: &Open = &self.built.open[0];
        let text = report::open(&self.source, open, false);
        text.trim().trim_start_matches("open: ").into()
    }
}

/// The program of which this is a wrong variant.
fn variant_of(name: &str) -> Option<&str> {
    name.split_once("-wrong-").map(|(program, _)| program)
}

/// The files of all outlines of a folder, by name.
fn outlines(folder: &Path) -> Result<Vec<PathBuf>, String> {
    let told = |e: std::io::Error| format!("{}: {e}", folder.display());
    let mut paths = Vec::new();
    for entry in std::fs::read_dir(folder).map_err(told)? {
        let path = entry.map_err(told)?.path();
        if path.extension().is_some_and(|e| e == "outline") {
            paths.push(path);
        }
    }
    paths.sort();
    Ok(paths)
}

/// Every outline of a folder, by name.
fn read_all(folder: &Path) -> Result<Vec<Example>, String> {
    let told = |e: std::io::Error| format!("{}: {e}", folder.display());
    let read = |path: &PathBuf| {
        let name = path.file_stem().expect("an outline has a name").to_string_lossy();
        Example::read(&name, &std::fs::read_to_string(path).map_err(told)?)
    };
    outlines(folder)?.iter().map(read).collect()
}

/// The tables about the outlines of a folder.
pub fn tables(folder: &Path) -> Result<String, String> {
    let all = read_all(folder)?;
    let (wrong, right): (Vec<&Example>, Vec<&Example>) =
        all.iter().partition(|e| variant_of(&e.name).is_some());
    let (beyond, proved): (Vec<&Example>, Vec<&Example>) =
        right.into_iter().partition(|e| !e.built.open.is_empty());
    let tables = [
        proved_table(&proved, &wrong),
        beyond_table(&beyond)?,
        wrong_table(&wrong)?,
        trimmed::table(&proved)?,
    ];
    Ok(tables.join("\n"))
}

fn proved_table(proved: &[&Example], wrong: &[&Example]) -> String {
    let mut text = String::from(
        "| Program | Source | Proved | Obligations | Claims | Lines | Formulas | Bytes | Wrong variants |\n\
         |---|---|---|---|---|---|---|---|---|\n",
    );
    for e in proved {
        let variants = wrong.iter().filter(|w| variant_of(&w.name) == Some(&e.name));
        let links: Vec<String> = variants.map(|w| w.brief()).collect();
        let (from, shown) = (&e.header.from, &e.header.shown);
        let [obligations, claims] = e.goals();
        let _ = writeln!(
            text,
            "| {} | {from} | {shown} | {obligations} | {claims} | {} | {} |",
            e.link(),
            e.size(),
            links.join(", ")
        );
    }
    text
}

/// Outlines that stay open, though they are true in every state that their programs reach.
fn beyond_table(beyond: &[&Example]) -> Result<String, String> {
    let mut text = String::from(
        "## True, and beyond the rules\n\n\
         Each of these is true in every run by a theorem of `crates/logic_further`, with rules beyond the published ones\n\
         (`docs/PROPOSALS.md`). `outline check --further` looks for a derivation by those rules too and says what it finds;\n\
         that is no verdict, and no image has it.\n\n\
         | Program | Source | True in every state | Theorem | With `--further` | Obligations | Lines | Formulas | Bytes | \
         First open obligation | Why |\n\
         |---|---|---|---|---|---|---|---|---|---|---|\n",
    );
    for e in beyond {
        if !run::is_true_in_all_states(&e.source) {
            return Err(format!("{}: not seen to be true in every state", e.name));
        }
        let (from, shown, why) = (&e.header.from, &e.header.shown, &e.header.open);
        let theorem = format!("`{}`", e.header.theorem.replace(" and ", "`, `"));
        let further =
            with_further(&e.source).map_err(|mistake| format!("{}: {mistake}", e.name))?;
        let count = format!("{} ({} open)", e.goals()[0], e.built.open.len());
        let _ = writeln!(
            text,
            "| {} | {from} | {shown} | {theorem} | {further} | {count} | {} | {} | {why} |",
            e.link(),
            e.size(),
            e.first_open()
        );
    }
    Ok(text)
}

/// Whether further rules meet everything, and which of them are used.
fn with_further(source: &Source) -> Result<String, Mistake> {
    let found = Further::of(source)?;
    let rules = further::named(&found.judgement.used);
    Ok(match found.is_accepted() {
        true => format!("accepted, {rules}"),
        false => format!("{} open, {rules}", found.built.open.len()),
    })
}

fn wrong_table(wrong: &[&Example]) -> Result<String, String> {
    let mut text = String::from(
        "## Wrong variants\n\n\
         | Program | What is wrong | Refused first | A shortest run that breaks it |\n\
         |---|---|---|---|\n",
    );
    for e in wrong {
        let broken = e.broken.as_ref().ok_or(format!("{}: no run breaks it", e.name))?;
        // A pair's bar would end the table's cell.
        let (what, run) = (&e.header.first, run::words(&e.source, broken).replace('|', "\\|"));
        let _ = writeln!(text, "| {} | {what} | {} | {run} |", e.link(), e.first_open());
    }
    Ok(text)
}

/// The table of what is inferred from the programs in the folder's own folder `infer`.
pub fn inferred(folder: &Path, seen: inferred::Seen) -> Result<String, String> {
    let all = read_all(folder)?;
    let proved: Vec<&Example> =
        all.iter().filter(|e| variant_of(&e.name).is_none() && e.built.open.is_empty()).collect();
    inferred::table(folder, &proved, seen)
}

/// The page with its tables made afresh.
pub fn page(text: &str, folder: &Path) -> Result<String, String> {
    let lacks = || "the page lacks the marks of the tables".to_string();
    let (front, rest) = text.split_once(BEGIN).ok_or_else(lacks)?;
    let (_, back) = rest.split_once(END).ok_or_else(lacks)?;
    Ok([front, BEGIN, &tables(folder)?, END, back].concat())
}
