//! Passes on by how many bytes the library's code is shifted.

use std::env;

fn main() {
    println!("cargo::rerun-if-env-changed=BENCH_SHIFT");
    let shift = env::var("BENCH_SHIFT").unwrap_or_else(|_| "0".to_string());
    println!("cargo::rustc-env=BENCH_SHIFT={shift}");
}
