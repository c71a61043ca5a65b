//! Links the archive of crates/reads_compared, which `scripts/build reads` builds.

use std::path::Path;

fn main() {
    let folder = Path::new(env!("CARGO_MANIFEST_DIR")).join("../../target/staticlib");
    let archive = folder.join("libreads_compared.a");
    println!("cargo:rerun-if-changed={}", archive.display());
    if !archive.is_file() {
        eprintln!(
            "libreads_compared.a is not in target/staticlib; build it: bash scripts/build reads"
        );
        std::process::exit(1);
    }
    let folder = folder.canonicalize().expect("a folder that can be named");
    println!("cargo:rustc-link-search=native={}", folder.display());
    println!("cargo:rustc-link-lib=static=reads_compared");
}
