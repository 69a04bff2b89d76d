//! The words of a command.

use crate::trouble::{file, words, Outcome};
use std::ffi::{OsStr, OsString};
use std::os::unix::ffi::OsStrExt;
use zealfs::Date;

/// A command as it was given: its options and its other words, in order.
#[derive(Default)]
pub struct Given {
    pub json: bool,
    pub help: bool,
    pub version: bool,
    flags: Vec<String>,
    date: Option<Date>,
    page: Option<String>,
    pub words: Vec<OsString>,
}

impl Given {
    /// Options may stand anywhere before a `--`.
    pub fn read(all: impl Iterator<Item = OsString>) -> Outcome<Self> {
        let mut given = Self::default();
        let mut all = all;
        while let Some(word) = all.next() {
            match word.to_str() {
                Some("--") => {
                    given.words.extend(all);
                    break;
                }
                Some("--json") => given.json = true,
                Some("--help" | "-h") => given.help = true,
                Some("--version" | "-V") => given.version = true,
                Some("--date") => {
                    let Some(date) = all.next() else { return words("--date wants a date after it") };
                    given.date = Some(read_date(&date)?);
                }
                Some("--page") => {
                    let Some(size) = all.next() else { return words("--page wants a page size after it") };
                    given.page = Some(named(&size));
                }
                Some(word) if word.starts_with("--page=") => given.page = Some(word[7..].to_owned()),
                Some(word) if word.starts_with("--date=") => given.date = Some(read_date(OsStr::new(&word[7..]))?),
                Some(word) if word.len() > 1 && word.starts_with('-') => given.flags.push(word.to_owned()),
                _ => given.words.push(word),
            }
        }
        Ok(given)
    }

    pub fn has(&self, flag: &str) -> bool {
        self.flags.iter().any(|given| given == flag)
    }

    /// The options that were given and the command does not know.
    pub fn unknown(&self, known: &[&str]) -> Option<String> {
        if self.date.is_some() && !known.contains(&"--date") {
            return Some("--date".to_owned());
        }
        if self.page.is_some() && !known.contains(&"--page") {
            return Some("--page".to_owned());
        }
        self.flags.iter().find(|flag| !known.contains(&flag.as_str())).cloned()
    }

    /// The image, which is the first word.
    pub fn image(&self) -> &OsStr {
        &self.words[0]
    }

    /// A word as the bytes of a path in the image.
    pub fn path(&self, number: usize) -> &[u8] {
        self.words[number].as_bytes()
    }

    /// The path of that number, or the root.
    pub fn path_or_root(&self, number: usize) -> &[u8] {
        self.words.get(number).map_or(b"/", |word| word.as_bytes())
    }

    /// The page size that was given, as it was written.
    pub fn page(&self) -> Option<&str> {
        self.page.as_deref()
    }

    /// The date that was given, or now.
    pub fn date(&self) -> Outcome<Date> {
        match self.date.or_else(crate::clock::now) {
            Some(date) => Ok(date),
            None => file("the clock", Err(std::io::Error::other("its date cannot be told; use --date"))),
        }
    }
}

fn read_date(word: &OsStr) -> Outcome<Date> {
    let text = word.to_string_lossy();
    text.parse().or_else(|error| words(format!("{text}: {error}")))
}

/// A word as text for a message.
pub fn named(word: &OsStr) -> String {
    crate::output::shown(word.as_bytes())
}
