//! Finds the archive libcurdmesa.a and links it.

use std::env;
use std::path::PathBuf;
use std::process::{self, Command};

/// The variable that names the archive's folder.
const VARIABLE: &str = "CURDMESA_LIB";

/// Returns the folder of an installed library.
fn installed() -> Option<PathBuf> {
    let asked = Command::new("pkg-config")
        .args(["--variable=libdir", "curdmesa"])
        .output();
    let told = asked.ok().filter(|told| told.status.success())?;
    Some(PathBuf::from(String::from_utf8(told.stdout).ok()?.trim()))
}

/// Returns the folders that may have the archive, in order: the one that is named; or that of the C
/// binding beside this crate, and that of an installed library.
fn folders() -> Vec<PathBuf> {
    match env::var_os(VARIABLE) {
        Some(folder) => vec![PathBuf::from(folder)],
        None => {
            let beside = PathBuf::from(env!("CARGO_MANIFEST_DIR")).join("../c");
            [Some(beside), installed()].into_iter().flatten().collect()
        }
    }
}

fn main() {
    println!("cargo:rerun-if-env-changed={VARIABLE}");
    let folders = folders();
    let found = folders
        .iter()
        .find(|folder| folder.join("libcurdmesa.a").is_file());
    let Some(folder) = found else {
        eprintln!("error: no libcurdmesa.a in any of {folders:?}.");
        eprintln!("`make` in bindings/c makes it; {VARIABLE} names another folder.");
        process::exit(1)
    };
    for file in [PathBuf::from("build.rs"), folder.join("libcurdmesa.a")] {
        println!("cargo:rerun-if-changed={}", file.display());
    }
    println!("cargo:rustc-link-search=native={}", folder.display());
    println!("cargo:rustc-link-lib=static=curdmesa");
}
