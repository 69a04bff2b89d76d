//! Names the library to the linker: libzealfs.a, which `make library` writes to target/lib. Tells packages that use this one which features are on.

use std::env;
use std::path::PathBuf;

/// The environment variable that names another directory.
const DIRECTORY: &str = "ZEALFS_LIBRARY_DIR";

/// The requests that may not be in the library yet.
const FEATURES: [&str; 3] = ["links", "store", "tidy"];

fn main() {
    println!("cargo:rerun-if-env-changed={DIRECTORY}");
    let directory = env::var_os(DIRECTORY).map_or_else(usual_directory, PathBuf::from);
    let archive = directory.join("libzealfs.a");
    println!("cargo:rerun-if-changed={}", archive.display());
    if !archive.exists() {
        let archive = archive.display();
        println!("cargo:warning={archive} is not there: run `make library`, or let {DIRECTORY} name its directory");
    }
    println!("cargo:rustc-link-search=native={}", directory.display());
    println!("cargo:rustc-link-lib=static=zealfs");
    for feature in FEATURES {
        let is_on = env::var_os(format!("CARGO_FEATURE_{}", feature.to_uppercase())).is_some();
        println!("cargo:{feature}={is_on}");
    }
}

/// `../../target/lib`, counted from this package.
fn usual_directory() -> PathBuf {
    let package = env::var_os("CARGO_MANIFEST_DIR").expect("cargo names the package");
    PathBuf::from(package).join("../../target/lib")
}
