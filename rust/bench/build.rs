//! Notes the compiler and its settings, which the benchmark prints.

use std::env;
use std::process::Command;

fn main() {
    println!("cargo:rerun-if-changed=build.rs");
    let compiler = Command::new(env::var("RUSTC").expect("RUSTC")).arg("--version").output().expect("rustc");
    let compiler = String::from_utf8_lossy(&compiler.stdout).trim().to_string();
    println!("cargo:rustc-env=BENCH_COMPILER={compiler}");
    for name in ["OPT_LEVEL", "DEBUG", "TARGET"] {
        println!("cargo:rustc-env=BENCH_{name}={}", env::var(name).expect(name));
    }
}
