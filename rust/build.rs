//! Links `libkenupatun.a`, which `tools/make archive` writes to `target/staticlib`
//! at the root of the repository. `KENUPATUN_LIB_DIR` names another folder.

use std::env;
use std::path::{Path, PathBuf};

fn main() {
    let folder = match env::var_os("KENUPATUN_LIB_DIR") {
        Some(folder) => PathBuf::from(folder),
        None => Path::new(env!("CARGO_MANIFEST_DIR")).join("../target/staticlib"),
    };
    let archive = folder.join("libkenupatun.a");
    println!("cargo:rerun-if-env-changed=KENUPATUN_LIB_DIR");
    println!("cargo:rerun-if-changed={}", archive.display());
    assert!(
        archive.is_file(),
        "there is no {}: run `tools/make archive` at the root of the repository first",
        archive.display()
    );
    println!("cargo:rustc-link-search=native={}", folder.display());
    println!("cargo:rustc-link-lib=static=kenupatun");
}
