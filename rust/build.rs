//! Tells the linker where `libfriscurella.a` is: in `FRISCURELLA_LIB_DIR`, or where
//! `./staticlib` writes it in this repository.
use std::env;
use std::path::{Path, PathBuf};

fn main() {
    let dir = match env::var_os("FRISCURELLA_LIB_DIR") {
        Some(dir) => PathBuf::from(dir),
        None => Path::new(env!("CARGO_MANIFEST_DIR")).join("../target/staticlib"),
    };
    let archive = dir.join("libfriscurella.a");
    println!("cargo:rerun-if-env-changed=FRISCURELLA_LIB_DIR");
    println!("cargo:rerun-if-changed={}", archive.display());
    println!("cargo:rustc-link-search=native={}", dir.display());
    if !archive.exists() {
        println!(
            "cargo:warning={} is missing: `./staticlib` writes it, and \
             FRISCURELLA_LIB_DIR says where it is",
            archive.display()
        );
    }
    let target = env::var("CARGO_CFG_TARGET_ARCH").unwrap_or_default();
    if target != "x86_64" {
        println!("cargo:warning=libfriscurella.a is for x86-64 and does not link for {target}");
    }
}
