//! Finds the static library, or says what is missing.
use std::env;
use std::path::{Path, PathBuf};
use std::process::exit;

const NAMED: &str = "ALTAIR_STATICLIB";

fn fail(text: &str) -> ! {
    eprintln!("altair-close: {text}");
    exit(1);
}

fn main() {
    println!("cargo:rerun-if-env-changed={NAMED}");
    println!("cargo:rerun-if-changed=build.rs");
    let here = PathBuf::from(env::var_os("CARGO_MANIFEST_DIR").expect("cargo sets it"));
    // in the repository, and beside an installed crate
    let places = ["../../target/altair/libaltair.a", "../../../lib/libaltair.a"].map(|place| here.join(place));
    let archive = match env::var_os(NAMED) {
        Some(path) => PathBuf::from(path),
        None => places.iter().find(|place| place.is_file()).unwrap_or(&places[0]).clone(),
    };
    println!("cargo:rerun-if-changed={}", archive.display());
    if !archive.is_file() {
        fail(&format!(
            "the static library is missing: there is no file {}\n\
             `make`, run in the repository, proves and makes it.\n\
             {NAMED}=PATH names one that stands elsewhere.",
            archive.display()
        ));
    }
    let arch = env::var("CARGO_CFG_TARGET_ARCH").unwrap_or_default();
    if arch != "x86_64" {
        fail(&format!("the static library is for x86-64, and this build is for {arch}"));
    }
    let name = archive.file_name().and_then(|n| n.to_str()).unwrap_or_default();
    let Some(name) = name.strip_prefix("lib").and_then(|n| n.strip_suffix(".a")) else {
        fail(&format!("{NAMED} names {}, and an archive is wanted, lib*.a", archive.display()));
    };
    let folder = archive.parent().unwrap_or(Path::new("."));
    println!("cargo:rustc-link-search=native={}", folder.display());
    println!("cargo:rustc-link-lib=static={name}");
}
