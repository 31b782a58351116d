//! The commands by their names, and what is said of them.

use crate::command::{
    bill, build, check, draw, explain, explore, export, handover, import, infer, litmus, migrate,
    print, replay, report, same, serve, show, trim, Done, Status,
};
use crate::text::nearest::nearest;
use crate::{fmt, lsp, watch};

/// A command: how it is called, what it does, and the options that are its own.
struct Command {
    name: &'static str,
    usage: &'static [&'static str],
    about: &'static str,
    options: &'static [&'static str],
    run: fn(&[&str]) -> Done,
}

const BOUNDS: [&str; 4] = ["--steps", "--writes", "--starts", "--states"];

const COMMANDS: [Command; 21] = [
    Command {
        name: "build",
        usage: &[
            "build FILE.outline -o FILE.image [--partial] [--all] [--at THREAD:POINT] [--all-lines] [BOUNDS]",
            "build FILE.outline --further [-o FILE.image] [--all] [--at THREAD:POINT] [BOUNDS]",
        ],
        about: "finds a certificate, writes the image, says its verdict",
        options: &["--partial", "--all", "--all-lines", "--at", "--further", BOUNDS[0], BOUNDS[1], BOUNDS[2], BOUNDS[3]],
        run: build::run,
    },
    Command {
        name: "infer",
        usage: &["infer FILE -o OUTLINE [--image FILE.image] [--further] [--tries N]"],
        about: "finds the assertions where points have none or `{ ? }`, so that claims and given assertions are shown",
        options: &["--image", "--further", "--tries"],
        run: infer::run,
    },
    Command {
        name: "check",
        usage: &["check FILE|FOLDER.. [--further]"],
        about: "judges images and outlines, each by itself; of a folder those that are named .image or .outline",
        options: &["--further"],
        run: check::run,
    },
    Command {
        name: "show",
        usage: &["show FILE"],
        about: "an image as text, its verdict first",
        options: &[],
        run: show::run,
    },
    Command {
        name: "explain",
        usage: &["explain FILE"],
        about: "each obligation and claim with its line, rule and premises",
        options: &[],
        run: explain::run,
    },
    Command {
        name: "explore",
        usage: &[
            "explore FILE [BOUNDS] [--claims | --outcome \"a = 1 and b = 0\"]",
            "explore FILE [BOUNDS] --outcomes [--runs]",
        ],
        about: "every run within the bounds: is something false in one, can an outcome happen, which final states are there?",
        options: &["--claims", "--outcome", "--outcomes", "--runs", BOUNDS[0], BOUNDS[1], BOUNDS[2], BOUNDS[3]],
        run: explore::run,
    },
    Command {
        name: "litmus",
        usage: &["litmus FILE.litmus.. [--prove [--further] [-o OUTLINE] [--tries N]] [--runs] [--svg FILE.svg] [BOUNDS]"],
        about: "litmus tests of C: all final states and whether the condition is so, in herd7's form",
        options: &["--prove", "--further", "--runs", "--svg", "--tries", BOUNDS[0], BOUNDS[1], BOUNDS[2], BOUNDS[3]],
        run: litmus::run,
    },
    Command {
        name: "import",
        usage: &["import FILE.c -o OUTLINE [--threads NAME,NAME] [--cpp \"-DN=2 -Iinclude\"] [BOUNDS]"],
        about: "the threads of a C file as an outline with holes, labels from its lines and assertions from its comments",
        options: &["--threads", "--cpp", BOUNDS[0], BOUNDS[1], BOUNDS[2], BOUNDS[3]],
        run: import::run,
    },
    Command {
        name: "same",
        usage: &["same FILE.c IMAGE [--threads NAME,NAME] [--cpp \"-DN=2 -Iinclude\"] [BOUNDS]"],
        about: "is the image's program the program of the C file, instruction by instruction?",
        options: &["--threads", "--cpp", BOUNDS[0], BOUNDS[1], BOUNDS[2], BOUNDS[3]],
        run: same::run,
    },
    Command {
        name: "export",
        usage: &["export --litmus FILE [-o FILE.litmus] [--outcome \"a = 1 and x = 0\"] [BOUNDS]"],
        about: "the program as a litmus test that herd7 reads",
        options: &["--litmus", "--outcome", BOUNDS[0], BOUNDS[1], BOUNDS[2], BOUNDS[3]],
        run: export::run,
    },
    Command {
        name: "report",
        usage: &["report FILE -o FILE.html [--image FILE.image] [--date YYYY-MM-DD] [BOUNDS]"],
        about: "a page: verdict, program, obligations, a run that breaks it",
        options: &["--image", "--date", BOUNDS[0], BOUNDS[1], BOUNDS[2], BOUNDS[3]],
        run: report::run,
    },
    Command {
        name: "draw",
        usage: &["draw FILE -o FILE.svg [BOUNDS] [--outcome \"a = 1 and b = 0\"]"],
        about: "a run that breaks it, or that has the outcome, drawn",
        options: &["--outcome", BOUNDS[0], BOUNDS[1], BOUNDS[2], BOUNDS[3]],
        run: draw::run,
    },
    Command {
        name: "trim",
        usage: &["trim FILE -o FILE.image"],
        about: "an accepted image without lines and formulas that nothing rests on",
        options: &[],
        run: trim::run,
    },
    Command {
        name: "bill",
        usage: &["bill FILE|FOLDER.. --tariff TARIFF [--billed N]"],
        about: "what the checks cost in cents, by thread and together",
        options: &["--tariff", "--billed"],
        run: bill::run,
    },
    Command {
        name: "replay",
        usage: &["replay FILE TRACE [--given \"a = 1, b = 0\"] [--entries N] [-o FILE.svg]"],
        about: "the steps of a trace, run on an accepted image's machine; what a trace in words says has to be so",
        options: &["--given", "--entries"],
        run: replay::run,
    },
    Command {
        name: "handover",
        usage: &[
            "handover OLD NEW -o FILE.image --table TABLE [--map THREAD.POINT=POINT]..",
            "handover OLD NEW --table TABLE",
        ],
        about: "new code without a restart: finds a line for each old point, or judges a table that is there",
        options: &["--table", "--map"],
        run: handover::run,
    },
    Command {
        name: "serve",
        usage: &["serve FILE"],
        about: "calls of several callers to one service, in their order",
        options: &[],
        run: serve::run,
    },
    Command {
        name: "fmt",
        usage: &["fmt FILE.. [--check]"],
        about: "the usual layout of outlines, in place; comments stay, and a second time changes nothing",
        options: &["--check"],
        run: fmt::run,
    },
    Command {
        name: "watch",
        usage: &["watch FILE.. [--once]"],
        about: "judges outlines again at each save, the first thing to look at on top; ends on an interrupt",
        options: &["--once"],
        run: watch::run,
    },
    Command {
        name: "lsp",
        usage: &["lsp [--tries N]"],
        about: "a language server on standard input and output, for editors",
        options: &["--tries"],
        run: lsp::run,
    },
    Command {
        name: "migrate",
        usage: &["migrate STEP FILE.image -o FILE.image", "migrate STEP --set SET -o SET"],
        about: "an image of an earlier layout in the next one; steps, in their order: range, marks, actors; of a set also lengths",
        options: &["--set"],
        run: migrate::run,
    },
];

const OPTIONS: [(&str, &str); 30] = [
    ("--image", "writes the image that the page is about, or of what was inferred, too"),
    ("--tries", "N, a bound: ends the inference after so many tries; 1200000. Of lsp: the tries for each obligation; 20000"),
    ("--date", "the page's date; else that of SOURCE_DATE_EPOCH, else the clock's, in UTC"),
    ("--partial", "writes an image with open obligations and claims too"),
    ("--all", "tells all open obligations and claims in full"),
    ("--all-lines", "writes every line that the search found, dead ones too"),
    ("--at", "tells in full what is open at this point, by its number or its label"),
    ("--claims", "looks at the claims alone, whatever the assertions say"),
    (
        "--outcome",
        "can it be so when all threads have ended? Registers, also as THREAD:REGISTER, and words for their last\n              \
         values; and or /\\, or or \\/, not or ~; with exists, ~exists or forall in front",
    ),
    ("--outcomes", "all final states: registers, and the last value of each word"),
    ("--runs", "tells a shortest run to each final state"),
    ("--prove", "infers and judges an outline for what never happens, or always; -o writes it"),
    (
        "--further",
        "where the published rules do not suffice, searches and judges by further ones too (docs/PROPOSALS.md): such an\n              \
         answer is no verdict, says so in its first line with the rules used, and no image of it is written",
    ),
    ("--threads", "the functions that are threads, in their order; else all but main that name an atomic word"),
    ("--cpp", "words for the C compiler's preprocessor"),
    ("--litmus", "as a litmus test of C, in herd7's form"),
    ("--svg", "draws the run that decides the condition"),
    ("--steps", "N, a bound: steps of a run; 24 [24], at most 10000"),
    ("--writes", "N, a bound: writes in a word's row, the first among them; 6 [6], at most 200"),
    ("--starts", "N, a bound: start states, where registers are open; 4096 [64], at most 1048576"),
    (
        "--states",
        "N, a bound: states that are kept; 2000000 [30000], at most 8000000. Of bytes of states, 40 or so for each and for\n              \
         each write one more than there are words, 512 MiB are kept and no more: memory stays under 1 GB.\n              \
         Each number is for explore and draw --outcome (litmus, import, same: 100, 8, 1, 2000000), in brackets for a run that breaks something",
    ),
    ("--tariff", "lines `start 10`, `step 25`, `taken 25`, `interference 40`, `least 500`, in cents; # begins a comment"),
    ("--billed", "how many images are billed already (0)"),
    ("--given", "what open registers hold at the start (0)"),
    ("--entries", "room for so many writes (64)"),
    ("--table", "for each old point a new point and a line of the new image, three bytes"),
    ("--check", "writes nothing: the status is 1 if a file would change"),
    ("--once", "judges once and ends"),
    ("--set", "the file is a stored set of images with their verdicts"),
    ("--map", "where an old point goes on, points by number or label; the others are proposed"),
];

const NOTES: &str = "\
FILE, OLD and NEW are outlines or images; `-` is standard input, behind -o standard output. All but lsp take --json.
What is written replaces a file of its own kind, never an input but of fmt. Behind -- every word is a file.
Status: 0 accepted; true or never in all states. 1 refused, open, false or happens. 2 wrong use, or a file that cannot be
read or written. 3 no run was found, and a bound kept some state from being looked at; or nothing was inferred. 4 all is
met, but by further rules: no verdict.
`outline COMMAND --help` tells of one command.
";

/// Does what the words of the command line ask for.
pub fn done(words: &[&str]) -> Done {
    let said = |text: String| print(text).map(|()| Status::Accepted);
    match words {
        [] => Err(format!("usage:\n{}", about_all()).trim_end().into()),
        ["--help" | "-h" | "help"] => said(about_all()),
        ["--version"] => said(concat!("outline ", env!("CARGO_PKG_VERSION"), "\n").into()),
        ["help", name] => said(about_one(command(name)?)),
        [name, rest @ ..] => {
            let command = command(name)?;
            let mut before = rest.iter().take_while(|word| **word != "--");
            match before.any(|word| ["--help", "-h"].contains(word)) {
                true => said(about_one(command)),
                false => (command.run)(rest),
            }
        }
    }
}

/// The command with a name, or a word about one that is near.
fn command(name: &str) -> Result<&'static Command, String> {
    if let Some(command) = COMMANDS.iter().find(|command| command.name == name) {
        return Ok(command);
    }
    let meant = nearest(name, COMMANDS.iter().map(|command| command.name));
    Err(match meant {
        Some(meant) => format!("`{name}` is no command: is `{meant}` meant? See outline --help"),
        None => format!("`{name}` is no command; see outline --help"),
    })
}

fn about_all() -> String {
    let commands: String = COMMANDS.iter().map(usage).collect();
    let options: String = OPTIONS.iter().map(option).collect();
    format!("{commands}\n{options}\n{NOTES}")
}

fn about_one(command: &Command) -> String {
    let own = OPTIONS.iter().filter(|(name, _)| command.options.contains(name));
    let options: String = own.map(option).collect();
    let gap = if options.is_empty() { "" } else { "\n" };
    format!("{}{gap}{options}\n{NOTES}", usage(command))
}

fn usage(command: &Command) -> String {
    let calls = command.usage.iter().map(|call| format!("outline {call}\n"));
    calls.collect::<String>() + &format!("    {}\n", command.about)
}

fn option((name, text): &(&str, &str)) -> String {
    format!("  {name:<11} {text}\n")
}

#[cfg(test)]
mod tests {
    use super::*;

    #[test]
    fn every_option_is_told_once_and_by_some_command() {
        for (at, (name, text)) in OPTIONS.iter().enumerate() {
            assert!(OPTIONS[..at].iter().all(|(other, _)| other != name), "{name}");
            assert!(
                COMMANDS.iter().any(|command| command.options.contains(name)),
                "{name}: {text}"
            );
        }
        let told = |name: &&str| OPTIONS.iter().any(|(other, _)| other == name);
        assert!(COMMANDS.iter().all(|command| command.options.iter().all(told)));
    }
}
