//! Links libsildrokk.a, the proved build: from crates/sildrokk/out of the repository, or from the
//! folder that SILDROKK_LIB names.

use std::path::{Path, PathBuf};

fn main() {
    println!("cargo:rerun-if-env-changed=SILDROKK_LIB");
    let written = Path::new(env!("CARGO_MANIFEST_DIR")).join("../../crates/sildrokk/out");
    let folder = std::env::var_os("SILDROKK_LIB").map_or(written, PathBuf::from);
    let archive = folder.join("libsildrokk.a");
    println!("cargo:rerun-if-changed={}", archive.display());
    if !archive.is_file() {
        eprintln!("no {}", archive.display());
        eprintln!("This command proves and writes it, in crates/sildrokk: rt lib");
        std::process::exit(1);
    }
    println!("cargo:rustc-link-search=native={}", folder.display());
    println!("cargo:rustc-link-lib=static=sildrokk");
}
