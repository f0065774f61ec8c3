//! Finds the archive of the proved library, which `./build doorclover` writes
//! at the root of the repository.

use std::path::Path;
use std::process::exit;

fn main() {
    let folder = Path::new(env!("CARGO_MANIFEST_DIR")).join("../target/staticlib");
    let archive = folder.join("libdoorclover.a");
    println!("cargo:rerun-if-changed={}", archive.display());
    if !archive.is_file() {
        eprintln!("the proved library is not built: {}", archive.display());
        eprintln!("run `./build doorclover` at the root of the repository first");
        exit(1);
    }
    println!("cargo:rustc-link-search=native={}", folder.display());
    println!("cargo:rustc-link-lib=static=doorclover");
}
