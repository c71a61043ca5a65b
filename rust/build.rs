//! Finds the library: in the folder that COTTERLEAF_LIB names, else in target/staticlib of the repository that this
//! crate stands in, else where pkg-config finds the crate's own version installed.

use std::path::{Path, PathBuf};
use std::process::Command;

/// The folder that COTTERLEAF_LIB names. One that is not absolute counts from where the user is: the folder of the
/// shell (PWD), as a build script itself runs in its package's.
fn named() -> Option<PathBuf> {
    println!("cargo:rerun-if-env-changed=COTTERLEAF_LIB");
    let folder = std::env::var_os("COTTERLEAF_LIB")?;
    let user = std::env::var_os("PWD").unwrap_or_default();
    Some(Path::new(&user).join(folder))
}

/// The folder in the repository that this crate stands in, where the library has been built.
fn built() -> Option<PathBuf> {
    let folder = Path::new(env!("CARGO_MANIFEST_DIR")).join("../target/staticlib");
    let library = folder.join("libcotterleaf.a");
    println!("cargo:rerun-if-changed={}", library.display());
    library.is_file().then_some(folder)
}

/// The folder of the installed library, if its version is this crate's: its structs are then those of this crate.
fn installed() -> Option<PathBuf> {
    println!("cargo:rerun-if-env-changed=PKG_CONFIG_PATH");
    let same = concat!("cotterleaf = ", env!("CARGO_PKG_VERSION"));
    let output = Command::new("pkg-config")
        .args(["--variable=libdir", same])
        .output()
        .ok()?;
    let folder = String::from_utf8(output.stdout).ok()?;
    (output.status.success() && !folder.trim().is_empty()).then(|| folder.trim().into())
}

fn main() {
    let folder = named().or_else(built).or_else(installed);
    let library = folder.unwrap_or_default().join("libcotterleaf.a");
    if !library.is_file() {
        eprintln!(
            "libcotterleaf.a is not {}; build it in Cotterleaf's repository (bash scripts/build library), install it \
             (bash scripts/install PREFIX, with PREFIX/lib/pkgconfig in PKG_CONFIG_PATH), or name its folder in \
             COTTERLEAF_LIB",
            match named() {
                Some(folder) => format!("in {}", folder.display()),
                None => format!("to be found in version {}", env!("CARGO_PKG_VERSION")),
            }
        );
        std::process::exit(1);
    }
    println!("cargo:rerun-if-changed={}", library.display());
    let folder = library.parent().expect("a folder").canonicalize();
    let folder = folder.expect("a folder that can be named");
    println!("cargo:rustc-link-search=native={}", folder.display());
    println!("cargo:rustc-link-lib=static=cotterleaf");
}
