//! Names the C libraries of both versions to cargo when the feature `library` is
//! on.
//!
//! An archive may carry a runtime of its own: an allocator, what to do on a
//! panic. Linked as it is, its symbols would take the place of the tests' own,
//! and a failing test would end the process instead of telling why. So the
//! archive is joined into one object of which only the calls are seen.

use std::env;
use std::path::{Path, PathBuf};
use std::process::Command;

/// The environment variable that overrides the libraries' directory.
const DIRECTORY: &str = "ZEALFS_LIBRARY_DIR";

/// A library, and the calls that the tests make.
struct Library {
    name: &'static str,
    calls: &'static [&'static str],
}

const LIBRARIES: [Library; 2] = [
    Library {
        name: "zealfs_c",
        calls: &CALLS,
    },
    Library {
        name: "zealfs2_c",
        calls: &CALLS_OF_VERSION_2,
    },
];

const CALLS: [&str; 22] = [
    "zealfs_format",
    "zealfs_verdict",
    "zealfs_find",
    "zealfs_list",
    "zealfs_read",
    "zealfs_make_file",
    "zealfs_make_directory",
    "zealfs_write",
    "zealfs_remove_file",
    "zealfs_remove_directory",
    "zealfs_lock",
    "zealfs_unlock",
    "zealfs_store",
    "zealfs_repair",
    "zealfs_audit",
    "zealfs_propose",
    "zealfs_tidy",
    "zealfs_listing",
    "zealfs_links_read",
    "zealfs_links_write",
    "zealfs_links_find",
    "zealfs_links_check",
];

const CALLS_OF_VERSION_2: [&str; 13] = [
    "zealfs2_format",
    "zealfs2_verdict",
    "zealfs2_find",
    "zealfs2_list",
    "zealfs2_read",
    "zealfs2_make_file",
    "zealfs2_make_directory",
    "zealfs2_write",
    "zealfs2_remove_file",
    "zealfs2_remove_directory",
    "zealfs2_lock",
    "zealfs2_unlock",
    "zealfs2_entries",
];

fn main() {
    println!("cargo:rerun-if-env-changed={DIRECTORY}");
    if env::var_os("CARGO_FEATURE_LIBRARY").is_none() {
        return;
    }
    let directory = env::var_os(DIRECTORY).map_or_else(usual_directory, PathBuf::from);
    for library in LIBRARIES {
        link(&directory, &library);
    }
}

fn link(directory: &Path, library: &Library) {
    let archive = directory.join(format!("lib{}.a", library.name));
    println!("cargo:rerun-if-changed={}", archive.display());
    if !archive.exists() {
        let archive = archive.display();
        panic!("{archive} is not there; {DIRECTORY} names another directory, and --no-default-features goes without");
    }
    let out = PathBuf::from(env::var_os("OUT_DIR").expect("cargo names a directory"));
    let isolated = format!("{}_isolated", library.name);
    let (directory, name) = match isolate(&archive, library.calls, &out, &isolated) {
        Ok(()) => (out.as_path(), isolated.as_str()),
        Err(reason) => {
            let name = library.name;
            println!("cargo:warning={name} is linked as it is: {reason}");
            (directory, name)
        }
    };
    println!("cargo:rustc-link-search=native={}", directory.display());
    println!("cargo:rustc-link-lib=static={name}");
}

/// `../target/staticlib`, counted from this package.
fn usual_directory() -> PathBuf {
    let package = env::var_os("CARGO_MANIFEST_DIR").expect("cargo names the package");
    PathBuf::from(package).join("../target/staticlib")
}

/// Makes an archive of that name in which only the calls are global.
fn isolate(archive: &Path, calls: &[&str], out: &Path, name: &str) -> Result<(), String> {
    let object = out.join(format!("{name}.o"));
    let isolated = out.join(format!("lib{name}.a"));
    let mut join = Command::new("ld");
    join.args(["-r", "--force-group-allocation", "-o"]);
    join.arg(&object);
    join.args(calls.iter().map(|call| format!("--undefined={call}")));
    run(join.arg(archive))?;
    let mut hide = Command::new("objcopy");
    hide.args(
        calls
            .iter()
            .map(|call| format!("--keep-global-symbol={call}")),
    );
    // Bitcode of a runtime, which `ar` may stumble over; nothing needs it.
    hide.args(["--remove-section=.llvmbc", "--remove-section=.llvmcmd"]);
    run(hide.arg(&object))?;
    // An archive that is there already would be added to.
    let _ = std::fs::remove_file(&isolated);
    run(Command::new("ar").arg("rcs").arg(&isolated).arg(&object))
}

fn run(command: &mut Command) -> Result<(), String> {
    let output = command
        .output()
        .map_err(|error| format!("{command:?}: {error}"))?;
    if output.status.success() {
        return Ok(());
    }
    let told = String::from_utf8_lossy(&output.stderr);
    let first_line = told.lines().next().unwrap_or("no reason told");
    Err(format!("{:?}: {first_line}", command.get_program()))
}
