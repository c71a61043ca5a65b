//! Links an older library beside the present one, where COTTERLEAF_BEFORE names the folder of its libcotterleaf.a. Both
//! have functions of the same names, so those of the older one get `before_` in front, by nm and objcopy.

use std::path::{Path, PathBuf};
use std::process::Command;

/// What a command prints. One that fails ends the build.
fn output(command: &mut Command) -> String {
    let done = command.output();
    let done = done.unwrap_or_else(|fault| panic!("{command:?}: {fault}"));
    let said = String::from_utf8_lossy(&done.stderr);
    assert!(done.status.success(), "{command:?}: {said}");
    String::from_utf8(done.stdout).expect("names in UTF-8")
}

/// The names that an archive defines for others, each with its new one.
fn renamed(archive: &Path) -> String {
    let mut nm = Command::new("nm");
    let names = output(nm.args(["-g", "--defined-only", "-j"]).arg(archive));
    // Lines that end in a colon name the archive's members.
    let names = names
        .lines()
        .filter(|name| !name.is_empty() && !name.ends_with(':'));
    names
        .map(|name| format!("{name} before_{name}\n"))
        .collect()
}

fn main() {
    println!("cargo:rustc-check-cfg=cfg(before)");
    println!("cargo:rerun-if-env-changed=COTTERLEAF_BEFORE");
    println!("cargo:rerun-if-changed=build.rs");
    let folder = std::env::var_os("COTTERLEAF_BEFORE").unwrap_or_default();
    if folder.is_empty() {
        return;
    }
    let archive = Path::new(&folder).join("libcotterleaf.a");
    println!("cargo:rerun-if-changed={}", archive.display());
    let out = PathBuf::from(std::env::var_os("OUT_DIR").expect("cargo's folder"));
    let names = out.join("before.txt");
    std::fs::write(&names, renamed(&archive)).expect("a file that can be written");
    let mut objcopy = Command::new("objcopy");
    objcopy.arg("--redefine-syms").arg(names).arg(archive);
    output(objcopy.arg(out.join("libcotterleaf_before.a")));
    println!("cargo:rustc-link-search=native={}", out.display());
    println!("cargo:rustc-link-lib=static=cotterleaf_before");
    println!("cargo:rustc-cfg=before");
}
