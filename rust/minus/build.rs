//! Finds the proved library: the archive in the folder `MINUS_C_LIB`, else in `lib` in this package, where a release has
//! it, else where `rt lib` leaves it in the repository.
//!
//! Without one this only warns, since no more than a program that is linked needs it.

use std::env;
use std::path::PathBuf;

const ARCHIVE: &str = "libminus_c.a";

/// How a program is linked where there is no archive.
const ADVICE: &str =
    "`rt lib` in crates/minus_c of the repository makes it, and a release has it in lib in this package";

/// The folders in which the archive is looked for, in this order.
fn folders() -> Vec<PathBuf> {
    println!("cargo::rerun-if-env-changed=MINUS_C_LIB");
    if let Some(folder) = env::var_os("MINUS_C_LIB") {
        return vec![folder.into()];
    }
    let package = PathBuf::from(env::var_os("CARGO_MANIFEST_DIR").expect("cargo says where the package is"));
    vec![package.join("lib"), package.join("../../crates/minus_c/out")]
}

fn main() {
    println!("cargo::rustc-link-lib=static=minus_c");
    let folders = folders();
    for folder in &folders {
        println!("cargo::rerun-if-changed={}", folder.join(ARCHIVE).display());
    }
    if let Some(folder) = folders.iter().find(|folder| folder.join(ARCHIVE).exists()) {
        println!("cargo::rustc-link-search=native={}", folder.display());
    } else {
        let folders: Vec<_> = folders.iter().map(|folder| folder.display().to_string()).collect();
        println!("cargo::warning=no program can be linked: {ARCHIVE} is not in {}", folders.join(", nor in "));
        println!("cargo::warning={ADVICE}; MINUS_C_LIB names any other folder of it");
    }
}
