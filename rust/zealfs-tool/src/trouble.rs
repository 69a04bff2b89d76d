//! What can go wrong, the words for it, and the status that the tool ends with.

use crate::output::{shown, Object};
use std::io;
use zealfs::{Answer, Refusal};

/// The statuses, as bits: of several images they are or-ed.
pub const DONE: u8 = 0;
pub const MENDED: u8 = 1;
pub const REFUSED: u8 = 2;
pub const NOT_IN_ORDER: u8 = 4;
pub const NO_FILE: u8 = 8;
pub const WRONG_WORDS: u8 = 16;

/// Why a command was not done.
pub enum Trouble {
    /// The command is not written as it must be.
    Words(String),
    /// A file could not be read or written, or is held by another program.
    File(String, io::Error),
    /// Standard output could not be written.
    Output(io::Error),
    /// What only version 1 has was asked of an image of version 2.
    Version { image: String, what: &'static str },
    /// The library refused, for the image or for the path.
    Refused { image: String, path: String, refusal: Refusal },
}

pub type Outcome<T> = Result<T, Trouble>;

impl Trouble {
    pub fn status(&self) -> u8 {
        match self {
            Self::Words(_) => WRONG_WORDS,
            Self::File(..) | Self::Output(_) => NO_FILE,
            Self::Refused { refusal, .. } if refusal.is_of_the_image() => NOT_IN_ORDER,
            Self::Refused { .. } | Self::Version { .. } => REFUSED,
        }
    }

    /// The line, or for a refusal the two lines, for standard error.
    pub fn text(&self) -> String {
        match self {
            Self::Words(what) => format!("zealfs: {what}\n"),
            Self::File(name, error) => format!("zealfs: {name}: {error}\n"),
            Self::Output(error) => format!("zealfs: standard output: {error}\n"),
            Self::Version { image, what } => format!("zealfs: {image}: {}\n", of_version_one(what)),
            Self::Refused { image, path, refusal } if path.is_empty() => {
                format!("zealfs: {image}: {refusal}\n  what to do: {}\n", refusal.advice())
            }
            Self::Refused { image, path, refusal } => {
                format!("zealfs: {image}: {path}: {refusal}\n  what to do: {}\n", refusal.advice())
            }
        }
    }

    pub fn object(&self) -> Object {
        let status = Object::default().number("status", self.status().into());
        match self {
            Self::Words(what) => status.text("error", what),
            Self::File(name, error) => status.text("file", name).text("error", &error.to_string()),
            Self::Output(error) => status.text("file", "standard output").text("error", &error.to_string()),
            Self::Version { image, what } => status.text("image", image).text("error", &of_version_one(what)),
            Self::Refused { image, path, refusal } => {
                let told = status.text("image", image).number("number", refusal.number().into());
                let told = if path.is_empty() { told } else { told.text("path", path) };
                told.text("error", refusal.text()).text("advice", refusal.advice())
            }
        }
    }
}

fn of_version_one(what: &str) -> String {
    format!("a version 2 image; {what} is for version 1 alone, and nothing was done")
}

pub fn words<T>(what: impl Into<String>) -> Outcome<T> {
    Err(Trouble::Words(what.into()))
}

/// The outcome of something done with a file.
pub fn file<T>(name: &str, done: io::Result<T>) -> Outcome<T> {
    done.map_err(|error| Trouble::File(name.to_owned(), error))
}

/// The outcome of a call on an image, with the part of the path that a refusal points to.
pub fn asked<T>(image: &str, path: &[u8], answer: Answer<T>) -> Outcome<T> {
    answer.map_err(|refusal| {
        let part = match refusal {
            Refusal::NoSuchName { byte } | Refusal::NotADirectory { byte } => {
                let from = usize::from(byte).min(path.len());
                let end = path[from..].iter().position(|&byte| byte == b'/').map_or(path.len(), |length| from + length);
                &path[..end]
            }
            _ if refusal.is_of_the_image() => &[],
            _ => path,
        };
        Trouble::Refused { image: image.to_owned(), path: shown(part), refusal }
    })
}
