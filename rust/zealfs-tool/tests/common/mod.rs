//! A folder of images for a test, and the tool run in it.
#![allow(dead_code)] // each test file uses its part

use std::fs;
use std::path::{Path, PathBuf};
use std::process::{Command, Output, Stdio};
use std::sync::atomic::{AtomicUsize, Ordering};

pub const TOOL: &str = env!("CARGO_BIN_EXE_zealfs");
pub const DATE: &str = "2026-11-15 12:00:00";

/// The paper's example: /0042 of 256 bytes on pages 1 and 2, /A on page 3, and the empty /A/7 on page 4.
pub fn example() -> Vec<u8> {
    fs::read(concat!(env!("CARGO_MANIFEST_DIR"), "/../../samples/example.img")).expect("the sample")
}

/// The example with one byte changed, by the number that it is then given.
pub const DAMAGES: [(u8, usize, u8); 7] = [(2, 0, 0), (16, 65, b'/'), (17, 81, 0), (18, 113, 1), (19, 4, 0x3F), (20, 4, 0x0F), (3, 3, 4)];

pub fn damaged(number: u8) -> Vec<u8> {
    let (_, at, byte) = DAMAGES.iter().find(|damage| damage.0 == number).expect("a damage of that number");
    let mut image = example();
    image[*at] = *byte;
    image
}

/// Version 2: /0042 of 300 bytes on pages 2 and 3, /A on page 4, and the empty /A/7 on page 5; the table of links is page 1.
pub fn example_two() -> Vec<u8> {
    fs::read(concat!(env!("CARGO_MANIFEST_DIR"), "/../../samples/version2.img")).expect("the sample")
}

/// That example with one byte changed, by the number that it is then given.
pub const DAMAGES_TWO: [(u8, usize, u8); 8] =
    [(26, 6, 1), (16, 33, b'/'), (17, 49, 1), (17, 256, 1), (18, 81, 2), (19, 7, 0x7F), (20, 7, 0x1F), (3, 4, 3)];

pub struct Folder(pub PathBuf);

impl Drop for Folder {
    fn drop(&mut self) {
        let _ = fs::remove_dir_all(&self.0);
    }
}

static FOLDERS: AtomicUsize = AtomicUsize::new(0);

impl Folder {
    pub fn new() -> Self {
        let number = FOLDERS.fetch_add(1, Ordering::Relaxed);
        let path = std::env::temp_dir().join(format!("zealfs-tool-{}-{number}", std::process::id()));
        fs::create_dir(&path).expect("a folder of its own");
        Self(path)
    }

    /// A folder with the example as loan.img.
    pub fn with_example() -> Self {
        let folder = Self::new();
        folder.write("loan.img", &example());
        folder
    }

    /// A folder with version 2's example as loan.img.
    pub fn with_example_two() -> Self {
        let folder = Self::new();
        folder.write("loan.img", &example_two());
        folder
    }

    pub fn path(&self, name: &str) -> PathBuf {
        self.0.join(name)
    }

    pub fn write(&self, name: &str, bytes: &[u8]) {
        fs::write(self.path(name), bytes).expect("a file for the test");
    }

    pub fn read(&self, name: &str) -> Vec<u8> {
        fs::read(self.path(name)).unwrap_or_else(|error| panic!("{name}: {error}"))
    }

    pub fn has(&self, name: &str) -> bool {
        self.path(name).exists()
    }

    /// The names in it, sorted.
    pub fn names(&self) -> Vec<String> {
        let entries = fs::read_dir(&self.0).expect("the folder").flatten();
        let mut names: Vec<String> = entries.map(|entry| entry.file_name().to_string_lossy().into_owned()).collect();
        names.sort();
        names
    }

    pub fn command(&self, words: &[&str]) -> Command {
        let mut command = Command::new(TOOL);
        command.args(words).current_dir(&self.0).stdin(Stdio::null());
        command
    }

    pub fn run(&self, words: &[&str]) -> Ran {
        Ran::of(self.command(words).output().expect("the tool runs"))
    }

    /// Runs the tool and checks its status and what it tells.
    pub fn expect(&self, words: &[&str], status: i32, out: &str, err: &str) {
        let ran = self.run(words);
        assert_eq!((ran.status, ran.out.as_str(), ran.err.as_str()), (Some(status), out, err), "{words:?}");
    }

    /// Runs the tool, which is to be done without a word.
    pub fn done(&self, words: &[&str]) {
        self.expect(words, 0, "", "");
    }

    /// Runs the tool and checks its status alone.
    pub fn status(&self, words: &[&str], status: i32) -> Ran {
        let ran = self.run(words);
        assert_eq!(ran.status, Some(status), "{words:?}: {}{}", ran.out, ran.err);
        ran
    }
}

#[derive(Debug)]
pub struct Ran {
    /// None after a signal.
    pub status: Option<i32>,
    pub out: String,
    pub err: String,
}

impl Ran {
    pub fn of(output: Output) -> Self {
        let text = |bytes| String::from_utf8(bytes).expect("plain text");
        Self { status: output.status.code(), out: text(output.stdout), err: text(output.stderr) }
    }
}

pub fn exists(path: &Path) -> bool {
    path.exists()
}
