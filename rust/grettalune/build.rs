//! Links the archive that `tools/build` writes, or says in a sentence why that cannot be.

use std::path::Path;
use std::{env, process};

fn main() {
    let crate_folder = env::var("CARGO_MANIFEST_DIR").expect("cargo names the crate's folder");
    let root = Path::new(&crate_folder).ancestors().nth(2).expect("the crate stands in rust/");
    let folder = root.join("target/staticlib");
    let archive = folder.join("libgrettalune.a");
    println!("cargo:rerun-if-changed={}", archive.display());
    if !archive.is_file() {
        eprintln!("there is no {}: run `tools/build` in the repository's root first", archive.display());
        process::exit(1);
    }
    if env::var("CARGO_CFG_TARGET_ARCH").as_deref() != Ok("x86_64") {
        println!("cargo:warning=the archive is for x86-64 Linux, and links only for the target x86_64-unknown-linux-gnu");
    }
    println!("cargo:rustc-link-search=native={}", folder.display());
    println!("cargo:rustc-link-lib=static=grettalune");
}
