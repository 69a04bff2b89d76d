//! What the environment may set. Everything has a fixed default, so that two
//! runs do the same.

use std::env;
use std::io::Write;

/// The seed of the first list; list `i` has the seed `seed() + i`.
pub fn seed() -> u64 {
    number("ZEALFS_SEED", 0x5A01)
}

/// How many random lists are run.
pub fn lists() -> u64 {
    number("ZEALFS_LISTS", 100_000)
}

/// How many random lists of version 2 are run: as many as version 1's where that
/// is asked for.
pub fn lists_of_version_2() -> u64 {
    number("ZEALFS_LISTS", 24_000)
}

/// How many randomly damaged images of version 2 are tried.
pub fn damaged_images_of_version_2() -> u64 {
    number("ZEALFS_DAMAGED", 100_000)
}

/// How many randomly damaged images are tried.
pub fn damaged_images() -> u64 {
    number("ZEALFS_DAMAGED", 200_000)
}

/// Tells what runs next, if ZEALFS_TRACE is set. It names the list if the
/// library ends the whole process or never comes back, so that it goes past
/// what the test runner holds back.
pub fn trace(origin: &str) {
    if env::var_os("ZEALFS_TRACE").is_some() {
        let _ = writeln!(std::io::stderr(), "{origin}");
    }
}

/// The program that lists an image from standard input, if one is given.
pub fn listing_program() -> Option<std::path::PathBuf> {
    env::var_os("ZEALFS_LISTING").map(Into::into)
}

fn number(variable: &str, default: u64) -> u64 {
    let Ok(text) = env::var(variable) else {
        return default;
    };
    let parsed = match text.strip_prefix("0x") {
        Some(digits) => u64::from_str_radix(digits, 16),
        None => text.parse(),
    };
    parsed.unwrap_or_else(|_| panic!("{variable} is not a number: {text}"))
}
