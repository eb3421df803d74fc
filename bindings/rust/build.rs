//! Links `liblurmenize.a` from `$LURMENIZE_LIB_DIR`, or from where `tools/library` puts it in this repository.

use std::env;
use std::path::PathBuf;
use std::process::exit;

const VARIABLE: &str = "LURMENIZE_LIB_DIR";
const DEFAULT: &str = "../../target/staticlib"; // from this crate's folder, in which Cargo runs this

fn main() {
    let directory = env::var_os(VARIABLE).map_or_else(|| PathBuf::from(DEFAULT), PathBuf::from);
    let directory = directory.canonicalize().unwrap_or(directory);
    let archive = directory.join("liblurmenize.a");
    println!("cargo:rerun-if-env-changed={VARIABLE}");
    println!("cargo:rerun-if-changed={}", archive.display());
    if !archive.is_file() {
        eprintln!("lurmenize: {} is not there.", archive.display());
        eprintln!("Run `tools/library` at the top of the repository, or set {VARIABLE} to the folder that has liblurmenize.a.");
        exit(1);
    }
    println!("cargo:rustc-link-search=native={}", directory.display());
    println!("cargo:rustc-link-lib=static=lurmenize");
}
