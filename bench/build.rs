//! The archive of crates/bench_exports lies in the folder that BENCH_EXPORTS names; bench/run sets it.
//! The program is told which rustc compiles it.
use std::process::Command;

fn main() {
    let rustc = std::env::var("RUSTC").expect("RUSTC: cargo sets it");
    let said = Command::new(rustc)
        .arg("--version")
        .output()
        .expect("rustc --version");
    let version = String::from_utf8_lossy(&said.stdout);
    println!("cargo:rustc-env=BENCH_RUSTC={}", version.trim());
    println!("cargo:rerun-if-env-changed=BENCH_EXPORTS");
    let folder = std::env::var("BENCH_EXPORTS").expect("BENCH_EXPORTS: run bench/run");
    println!("cargo:rerun-if-changed={folder}/libbench_exports.a");
    println!("cargo:rustc-link-search=native={folder}");
    println!("cargo:rustc-link-lib=static=bench_exports");
}
