//! Links libgaloxumi.a, which `make archive` writes, from the folder that GALOXUMI_LIB names, or else from this
//! repository's target/staticlib. Where it is missing, says how to get it, and not only that the linker found none.

use std::path::{Path, PathBuf};

fn main() {
    println!("cargo::rerun-if-env-changed=GALOXUMI_LIB");
    let folder = match std::env::var_os("GALOXUMI_LIB") {
        Some(folder) => PathBuf::from(folder),
        None => Path::new(env!("CARGO_MANIFEST_DIR")).join("../../target/staticlib"),
    };
    let archive = folder.join("libgaloxumi.a");
    println!("cargo::rerun-if-changed={}", archive.display());
    if std::env::var("CARGO_CFG_TARGET_ARCH").as_deref() != Ok("x86_64") {
        println!("cargo::error=the archive is x86-64 code: build with --target x86_64-unknown-linux-gnu");
    } else if !archive.is_file() {
        println!("cargo::error=no {}: run make archive, or set GALOXUMI_LIB", archive.display());
    }
    println!("cargo::rustc-link-search=native={}", folder.display());
    println!("cargo::rustc-link-lib=static=galoxumi");
}
