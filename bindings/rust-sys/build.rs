//! Finds the static library of the verified store, `libvekhturop.a`: in the folder that VEKHTUROP_LIB names, or where
//! `tools/library` puts it in the repository.

use std::env;
use std::path::{Path, PathBuf};

fn main() {
    println!("cargo:rerun-if-env-changed=VEKHTUROP_LIB");
    let here = env::var("CARGO_MANIFEST_DIR").expect("cargo sets it");
    let folder = match env::var_os("VEKHTUROP_LIB") {
        Some(folder) => PathBuf::from(folder),
        None => Path::new(&here).join("../../target/staticlib"),
    };
    let library = folder.join("libvekhturop.a");
    println!("cargo:rerun-if-changed={}", library.display());
    assert!(
        library.is_file(),
        "no libvekhturop.a in {}: run `tools/library` in the repository, or set VEKHTUROP_LIB to the library's folder",
        folder.display()
    );
    println!("cargo:rustc-link-search=native={}", folder.display());
    println!("cargo:rustc-link-lib=static=vekhturop");
}
