//! Links libexports.a, which `tools/build exports` writes: from the folder that MILLRACER_LIB_DIR
//! names, or else from crates/exports/out of the repository that this package stands in.

use std::env;
use std::path::{Path, PathBuf};

fn main() {
    let folder = match env::var_os("MILLRACER_LIB_DIR") {
        Some(folder) => PathBuf::from(folder),
        None => {
            Path::new(&env::var_os("CARGO_MANIFEST_DIR").unwrap()).join("../../crates/exports/out")
        }
    };
    let archive = folder.join("libexports.a");
    assert!(
        archive.exists(),
        "{} is missing: run `tools/build exports`",
        archive.display()
    );
    println!("cargo:rerun-if-env-changed=MILLRACER_LIB_DIR");
    println!("cargo:rerun-if-changed={}", archive.display());
    println!("cargo:rustc-link-search=native={}", folder.display());
    println!("cargo:rustc-link-lib=static=exports");
}
