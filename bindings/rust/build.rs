//! Links the static library that `rt lib` writes in crates/exports.

use std::env;
use std::path::PathBuf;

fn main() {
    println!("cargo:rerun-if-changed=build.rs");
    println!("cargo:rerun-if-env-changed=MINTSHUTTLE_LIB");
    let root = PathBuf::from(env::var_os("CARGO_MANIFEST_DIR").expect("cargo names the package folder"));
    let folder = match env::var_os("MINTSHUTTLE_LIB") {
        Some(folder) => PathBuf::from(folder),
        None => root.join("../../crates/exports/out"),
    };
    let library = folder.join("libexports.a");
    assert!(
        library.exists(),
        "{} is not there: run `rt lib` in crates/exports, or name its folder in MINTSHUTTLE_LIB",
        library.display()
    );
    println!("cargo:rerun-if-changed={}", library.display());
    println!("cargo:rustc-link-search=native={}", folder.display());
    println!("cargo:rustc-link-lib=static=exports");
}
