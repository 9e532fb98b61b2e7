//! Finds libpuddockle.a: in the directory that PUDDOCKLE_LIB_DIR names, else in target/staticlib at the
//! repository's root (../../target/staticlib from this crate).

use std::env;
use std::path::{Path, PathBuf};

fn main() {
    println!("cargo:rerun-if-env-changed=PUDDOCKLE_LIB_DIR");
    let directory = match env::var_os("PUDDOCKLE_LIB_DIR") {
        Some(directory) => PathBuf::from(directory),
        None => Path::new(env!("CARGO_MANIFEST_DIR")).join("../../target/staticlib"),
    };
    let library = directory.join("libpuddockle.a");
    println!("cargo:rerun-if-changed={}", library.display());
    if !library.is_file() {
        eprintln!("{} is not there.", library.display());
        eprintln!(
            "Build it with `tools/build library` at the repository's root, which leaves it in target/staticlib,"
        );
        eprintln!("or set PUDDOCKLE_LIB_DIR to the directory that has it (an absolute path).");
        std::process::exit(1);
    }
    let directory = directory.canonicalize().expect("the library's directory");
    println!("cargo:rustc-link-search=native={}", directory.display());
    println!("cargo:rustc-link-lib=static=puddockle");
}
