//! Finds the static library: in the folder that EXAMINER_LIB_DIR names, or else where `make staticlib` puts it.

use std::path::{Path, PathBuf};
use std::{env, process};

fn main() {
    println!("cargo:rerun-if-env-changed=EXAMINER_LIB_DIR");
    let folder = match env::var_os("EXAMINER_LIB_DIR") {
        Some(folder) => PathBuf::from(folder),
        None => Path::new(&env::var("CARGO_MANIFEST_DIR").expect("cargo sets it")).join("../../target/staticlib"),
    };
    let archive = folder.join("libexaminer.a");
    println!("cargo:rerun-if-changed={}", archive.display());
    if !archive.is_file() {
        eprintln!("no static library at {}", archive.display());
        eprintln!("run `make staticlib` in the repository, or set EXAMINER_LIB_DIR to the folder that has libexaminer.a");
        process::exit(1);
    }
    println!("cargo:rustc-link-search=native={}", folder.display());
    println!("cargo:rustc-link-lib=static=examiner");
}
