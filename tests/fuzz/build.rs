//! Links the two targets with libFuzzer's runtime, as clang has it.

use std::env;
use std::path::PathBuf;
use std::process::Command;

/// The environment variable that names the runtime where clang does not.
const RUNTIME: &str = "ZEALFS_FUZZER_RUNTIME";

fn main() {
    println!("cargo:rerun-if-env-changed={RUNTIME}");
    let runtime = env::var_os(RUNTIME).map_or_else(runtime_of_clang, PathBuf::from);
    if !runtime.exists() {
        let runtime = runtime.display();
        panic!("{runtime} is not there; {RUNTIME} names another one (Debian: libclang-rt-14-dev)");
    }
    println!("cargo:rerun-if-changed={}", runtime.display());
    println!("cargo:rustc-link-arg-bins={}", runtime.display());
    println!("cargo:rustc-link-arg-bins=-lstdc++");
}

fn runtime_of_clang() -> PathBuf {
    let output = Command::new("clang").arg("-print-runtime-dir").output();
    let told = output.map(|output| output.stdout).unwrap_or_default();
    let directory = String::from_utf8_lossy(&told).trim().to_string();
    PathBuf::from(directory).join("libclang_rt.fuzzer-x86_64.a")
}
