//! Links the archive that `rt lib` writes in `crates/hidokpalu`; with the feature `exports` that of `crates/exports` too. An archive that
//! is not there is an error as soon as something is linked.

use std::process::Command;

/// The kit that proves and compiles, as it names itself; it is asked again whenever the archive changes.
fn kit() -> String {
    let answer = Command::new("rt").arg("version").output();
    let text = answer.ok().filter(|said| said.status.success());
    let text = text.map(|said| String::from_utf8_lossy(&said.stdout).trim().to_string());
    text.filter(|text| !text.is_empty() && !text.contains('\n'))
        .unwrap_or("of unknown version".into())
}

fn main() {
    let here = std::env::var("CARGO_MANIFEST_DIR").expect("cargo sets it");
    let mut linked = vec!["hidokpalu"];
    if std::env::var_os("CARGO_FEATURE_EXPORTS").is_some() {
        linked.push("exports");
    }
    for name in linked {
        let archives = format!("{here}/../../crates/{name}/out");
        println!("cargo:rustc-link-search=native={archives}");
        println!("cargo:rustc-link-lib=static={name}");
        println!("cargo:rerun-if-changed={archives}/lib{name}.a");
    }
    println!("cargo:rustc-env=HIDOKPALU_KIT={}", kit());
}
