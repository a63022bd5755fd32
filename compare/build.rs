//! With the feature `firmware`: links libfirmware.a from FIRMWARE_DIR, and warns where that is older than its sources; or else the one that
//! ../archive makes, which never is.

use std::process::{exit, Command, Stdio};

fn main() {
    println!("cargo:rerun-if-env-changed=FIRMWARE_DIR");
    if std::env::var_os("CARGO_FEATURE_FIRMWARE").is_none() {
        return;
    }
    let root = format!("{}/..", std::env::var("CARGO_MANIFEST_DIR").unwrap_or_default());
    let directory = match std::env::var("FIRMWARE_DIR").ok().filter(|directory| !directory.is_empty()) {
        Some(directory) => {
            let archive = format!("{directory}/libfirmware.a");
            let words = printed_by(Command::new(format!("{root}/tools/older")).arg(archive));
            words.lines().for_each(|line| println!("cargo:warning={line}"));
            directory
        }
        None => {
            printed_by(&mut Command::new(format!("{root}/archive")));
            format!("{root}/target/staticlib")
        }
    };
    let mut sources = vec![format!("{root}/crates.txt"), format!("{directory}/libfirmware.a")];
    // A crate's folder out/ changes with every check.
    for entry in std::fs::read_dir(format!("{root}/crates")).into_iter().flatten().flatten() {
        let parts = ["src", "specs", "proofs"].map(|part| entry.path().join(part));
        sources.extend(parts.iter().filter(|part| part.exists()).map(|part| part.display().to_string()));
    }
    sources.iter().for_each(|source| println!("cargo:rerun-if-changed={source}"));
    println!("cargo:rustc-link-search=native={directory}");
    println!("cargo:rustc-link-lib=static=firmware");
}

/// What the command prints. Where it fails, so does the build, with what it said.
fn printed_by(command: &mut Command) -> String {
    match command.stderr(Stdio::inherit()).output() {
        Ok(output) if output.status.success() => String::from_utf8_lossy(&output.stdout).into_owned(),
        result => {
            eprintln!("{command:?}: {result:?}");
            exit(1)
        }
    }
}
