//! Makes the Rust's text ready to be included, and the logarithm's tables.

use std::path::{Path, PathBuf};
use std::process::Command;
use std::{env, fs};

#[path = "src/series.rs"]
mod series;
#[path = "src/substitute.rs"]
mod substitute;

/// Float sums start at -0 in this release; another one has to be looked at first.
const RELEASE: &str = "rustc 1.95.0";

fn check_release() {
    let rustc = env::var("RUSTC").expect("cargo names the compiler");
    let output = Command::new(&rustc).arg("--version").output().expect("the compiler tells its version");
    let version = String::from_utf8_lossy(&output.stdout).trim().to_string();
    assert!(
        version == RELEASE || version.starts_with(&format!("{RELEASE} ")),
        "the reference is fixed to {RELEASE}, found {version}"
    );
}

fn write_tomography(out: &Path, root: &Path) {
    let folder = match env::var_os("TOMOGRAPHY_SRC") {
        Some(folder) => PathBuf::from(folder),
        None => root.join("../../shared/docs/src"),
    };
    let source = folder.join("quantum-tomography/src/lib.rs");
    println!("cargo:rerun-if-env-changed=TOMOGRAPHY_SRC");
    println!("cargo:rerun-if-changed={}", source.display());
    let text = fs::read_to_string(&source)
        .unwrap_or_else(|error| panic!("{}: {error} (set TOMOGRAPHY_SRC)", source.display()));
    let text = substitute::substitute(&text, substitute::SUBSTITUTIONS).unwrap_or_else(|error| panic!("{error}"));
    fs::write(out.join("tomography.rs"), text).expect("the changed text is written");
}

fn write_tables(out: &Path) {
    let tables = series::tables();
    let column = |name: &str, part: fn(&(u64, u64)) -> u64| {
        let entries: Vec<String> = tables.iter().map(|entry| part(entry).to_string()).collect();
        format!("pub const {name}: [i64; 257] = [{}];\n", entries.join(", "))
    };
    let text = column("QUOTIENTS", |entry| entry.0) + &column("REMAINDERS", |entry| entry.1);
    fs::write(out.join("tables.rs"), text).expect("the tables are written");
}

/// The port's static library, where it is asked for.
fn link_port(root: &Path) {
    println!("cargo:rerun-if-env-changed=MINTSHUTTLE_LIB");
    if env::var_os("CARGO_FEATURE_PORT").is_none() {
        return;
    }
    let folder = match env::var_os("MINTSHUTTLE_LIB") {
        Some(folder) => PathBuf::from(folder),
        None => root.join("../crates/exports/out"),
    };
    let library = folder.join("libexports.a");
    assert!(library.exists(), "{} is not there: run `rt lib` in crates/exports first", library.display());
    println!("cargo:rerun-if-changed={}", library.display());
    println!("cargo:rustc-link-search=native={}", folder.display());
    println!("cargo:rustc-link-lib=static=exports");
}

fn main() {
    println!("cargo:rerun-if-changed=build.rs");
    println!("cargo:rerun-if-changed=src/series.rs");
    println!("cargo:rerun-if-changed=src/substitute.rs");
    check_release();
    let root = PathBuf::from(env::var_os("CARGO_MANIFEST_DIR").expect("cargo names the package folder"));
    let out = PathBuf::from(env::var_os("OUT_DIR").expect("cargo names the output folder"));
    write_tomography(&out, &root);
    write_tables(&out);
    link_port(&root);
}
