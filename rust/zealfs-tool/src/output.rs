//! What is told: lines of text, or with --json one object a line.

use crate::trouble::{Outcome, Trouble};
use std::fmt::Write as _;
use std::io::{self, BufWriter, StdoutLock, Write};

/// Bytes as text in which no byte can do harm on a terminal: what is no printable character is shown as its number.
pub fn shown(bytes: &[u8]) -> String {
    let mut text = String::new();
    for part in bytes.utf8_chunks() {
        for letter in part.valid().chars() {
            if letter.is_control() {
                let _ = write!(text, "{}", letter.escape_default());
            } else {
                text.push(letter);
            }
        }
        for byte in part.invalid() {
            let _ = write!(text, "\\x{byte:02x}");
        }
    }
    text
}

/// A JSON object on one line.
#[derive(Default)]
pub struct Object(String);

impl Object {
    fn member(mut self, key: &str, value: &str) -> Self {
        let comma = if self.0.is_empty() { "" } else { "," };
        let _ = write!(self.0, "{comma}\"{key}\":{value}");
        self
    }

    pub fn text(self, key: &str, value: &str) -> Self {
        let mut quoted = String::from("\"");
        for letter in value.chars() {
            match letter {
                '"' | '\\' => quoted.extend(['\\', letter]),
                letter if letter < ' ' => {
                    let _ = write!(quoted, "\\u{:04x}", letter as u32);
                }
                letter => quoted.push(letter),
            }
        }
        quoted.push('"');
        self.member(key, &quoted)
    }

    pub fn number(self, key: &str, value: u64) -> Self {
        self.member(key, &value.to_string())
    }

    pub fn flag(self, key: &str, value: bool) -> Self {
        self.member(key, if value { "true" } else { "false" })
    }

    pub fn line(&self) -> String {
        format!("{{{}}}", self.0)
    }
}

/// Standard output.
pub struct Output {
    pub json: bool,
    out: BufWriter<StdoutLock<'static>>,
}

impl Output {
    pub fn new(json: bool) -> Self {
        Self { json, out: BufWriter::new(io::stdout().lock()) }
    }

    pub fn bytes(&mut self, bytes: &[u8]) -> Outcome<()> {
        self.out.write_all(bytes).map_err(Trouble::Output)
    }

    pub fn line(&mut self, text: &str) -> Outcome<()> {
        writeln!(self.out, "{text}").map_err(Trouble::Output)
    }

    /// The object, or the text in its stead.
    pub fn tell(&mut self, object: impl FnOnce() -> Object, text: impl FnOnce() -> String) -> Outcome<()> {
        let line = if self.json { object().line() } else { text() };
        self.line(&line)
    }

    pub fn flush(&mut self) -> Outcome<()> {
        self.out.flush().map_err(Trouble::Output)
    }
}
