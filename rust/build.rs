//! Finds the static library and links it: the folder that `COMPOSTHUM_LIB_DIR` names, else `crates/composthum/out` of this repository.

use std::path::PathBuf;
use std::process::exit;

const ARCHIVE: &str = "libcomposthum.a";
const FOLDER_VARIABLE: &str = "COMPOSTHUM_LIB_DIR";

fn main() {
    println!("cargo:rerun-if-env-changed={FOLDER_VARIABLE}");
    let folder = match std::env::var_os(FOLDER_VARIABLE) {
        Some(folder) => PathBuf::from(folder),
        None => PathBuf::from(env!("CARGO_MANIFEST_DIR")).join("../crates/composthum/out"),
    };
    let archive = folder.join(ARCHIVE);
    println!("cargo:rerun-if-changed={}", archive.display());
    if !archive.is_file() {
        eprintln!("{} is not there.", archive.display());
        eprintln!("Run `tools/prove composthum` at the head of the repository, which proves the library and writes it,");
        eprintln!("or set {FOLDER_VARIABLE} to the folder that has {ARCHIVE}.");
        exit(1);
    }
    println!("cargo:rustc-link-search=native={}", folder.display());
    println!("cargo:rustc-link-lib=static=composthum");
}
