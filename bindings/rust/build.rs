//! Links the archive that `bindings/archive` writes.

use std::env;
use std::path::{Path, PathBuf};
use std::process;

const FOLDER_VARIABLE: &str = "SIMMEROTTER_ARCHIVE";

fn main() {
    println!("cargo:rerun-if-env-changed={}", FOLDER_VARIABLE);
    let folder = archive_folder();
    let archive = folder.join("libsimmerotter.a");
    println!("cargo:rerun-if-changed={}", archive.display());
    if !archive.is_file() {
        give_up(&archive);
    }
    println!("cargo:rustc-link-search=native={}", folder.display());
    println!("cargo:rustc-link-lib=static=simmerotter");
}

/// The folder that the variable names, or where `rt` writes the archive.
fn archive_folder() -> PathBuf {
    match env::var_os(FOLDER_VARIABLE) {
        Some(folder) => PathBuf::from(folder),
        None => manifest_folder().join("../../target/staticlib"),
    }
}

fn manifest_folder() -> PathBuf {
    PathBuf::from(env::var_os("CARGO_MANIFEST_DIR").unwrap_or_default())
}

fn give_up(archive: &Path) -> ! {
    eprintln!("simmerotter: there is no archive at {}", archive.display());
    eprintln!("run `bindings/archive` first, or set {} to the folder that holds libsimmerotter.a", FOLDER_VARIABLE);
    process::exit(1);
}
