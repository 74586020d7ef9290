//! Links the static library where the target is x86-64, which is all it is
//! made for: cfg `direct`.

use std::env;
use std::path::{Path, PathBuf};

fn main() {
    println!("cargo:rustc-check-cfg=cfg(direct)");
    let Some(folder) = folder() else { return };
    let archive = folder.join("libpetalbuzz.a");
    println!("cargo:rerun-if-changed={}", archive.display());
    if archive.is_file() {
        println!("cargo:rustc-link-search=native={}", folder.display());
        println!("cargo:rustc-link-lib=static=petalbuzz");
        println!("cargo:rustc-cfg=direct");
    }
}

/// The folder of a library for the target, if there can be one.
fn folder() -> Option<PathBuf> {
    let here = env::var_os("CARGO_MANIFEST_DIR").expect("set by cargo");
    let x86 = env::var("CARGO_CFG_TARGET_ARCH").is_ok_and(|arch| arch == "x86_64");
    x86.then(|| Path::new(&here).join("../crates/petalbuzz/out"))
}
