//! A short run of the fuzzer, and what longer ones have found.

use outline::build::build;
use outline::fuzz::{file, image, run, text, Seeds};
use outline::image::to_bytes;
use outline::text::parse_source::parse;
use std::path::Path;

/// Some examples, small enough for a test.
fn seeds() -> Seeds {
    let folder = Path::new(env!("CARGO_MANIFEST_DIR")).join("../../examples");
    let names = ["message-passing", "polling", "boot", "peterson-claim", "tickets", "swap-race"];
    let read = |name: &str| std::fs::read_to_string(folder.join(format!("{name}.outline")));
    let texts: Vec<String> = names.iter().map(|name| read(name).expect("readable")).collect();
    let built = |text: &String| build(&parse(text).expect("a source")).expect("built").image;
    let images = texts.iter().map(|text| to_bytes(&built(text)).expect("an image")).collect();
    Seeds { texts, images }
}

#[test]
fn nothing_ends_the_program_or_is_misread() {
    let seeds = seeds();
    let (mut read, mut refused) = (0, 0);
    for seed in 0..1000 {
        match run(&seeds, seed) {
            Ok(true) => read += 1,
            Ok(false) => refused += 1,
            Err(failure) => panic!("seed {seed}: {}", failure.told),
        }
    }
    assert!(read >= 50 && refused >= 50, "{read} read, {refused} refused");
}

/// What is whole is read, what is not is refused.
#[test]
fn whole_inputs_are_read_and_others_refused() {
    assert!(text(b"\xFF").is_err(), "bytes that are no text");
    for bytes in [&b"\0"[..], b"\xFF", b"", b"word"] {
        assert_eq!(file(bytes), Ok(false), "{bytes:?}");
    }
    let seeds = seeds();
    for (bytes, source) in seeds.images.iter().zip(&seeds.texts) {
        assert_eq!(
            [image(bytes), file(bytes), text(source.as_bytes())],
            [Ok(true), Ok(true), Ok(true)]
        );
        assert_eq!(image(&bytes[1..]), Ok(false));
    }
}

/// Inputs that ended the program or were misread before they were mended.
#[test]
fn what_was_found_stays_mended() {
    let nested = format!("word x = 0\nthread a {{ {}true{} }}", "(".repeat(5000), ")".repeat(5000));
    let sum = format!("word x = 0\nthread a registers r {{ r{} = 0 }}", " + 1".repeat(100_000));
    let lets: String = (0..64).map(|n| format!("let P{} = P{n} and P{n}\n", n + 1)).collect();
    let doubled = format!("word x = 0\nlet P0 = a sees [x = 0]\n{lets}thread a {{ P64 }}");
    let front = "word x = 0\nthread a { true } x := 1 { true }\nproof\n";
    let step = format!("{front}step a 256: {{ true }} to {{ true }} by 272\n");
    for source in [nested, sum, doubled, step] {
        assert_eq!(text(source.as_bytes()), Ok(false));
        assert!(parse(&source).is_err());
    }
}
