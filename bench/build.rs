//! Compiles the plain C of `src/plain.c` with clang, as the port is: for SSE2, with -O3, no product and sum in one. Without
//! clang the bench is built without it.

use std::env;
use std::path::Path;
use std::process::Command;

fn main() {
    println!("cargo:rerun-if-changed=build.rs");
    println!("cargo:rerun-if-changed=src/plain.c");
    println!("cargo:rustc-check-cfg=cfg(plain)");
    let out = env::var("OUT_DIR").expect("cargo names a folder");
    let object = Path::new(&out).join("plain.o");
    let compiled = Command::new("clang")
        .args(["-O3", "-march=x86-64", "-ffp-contract=off", "-fPIC", "-c", "src/plain.c", "-o"])
        .arg(&object)
        .status();
    if !compiled.is_ok_and(|status| status.success()) {
        println!("cargo:warning=no plain C beside the Rust and the port: clang did not compile src/plain.c");
        return;
    }
    println!("cargo:rustc-link-arg={}", object.display());
    println!("cargo:rustc-cfg=plain");
}
