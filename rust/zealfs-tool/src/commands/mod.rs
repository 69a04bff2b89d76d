//! The commands, one table for help, completion and the call.

mod change;
mod judge;
mod look;

#[cfg(has_links)]
mod links;
#[cfg(has_store)]
mod stores;
#[cfg(has_tidy)]
mod tidy;

use crate::args::{named, Given};
use crate::either::only_one;
use crate::image;
use crate::output::Output;
use crate::trouble::{file, words, Outcome};

pub struct Command {
    pub name: &'static str,
    /// Its words and options, as the help shows them.
    pub usage: &'static str,
    pub help: &'static str,
    options: &'static [&'static str],
    /// The least and the most words after the name.
    count: (usize, usize),
    run: fn(&Given, &mut Output) -> Outcome<u8>,
}

const MANY: usize = usize::MAX;

pub fn all() -> Vec<Command> {
    let mut all = judge::COMMANDS.to_vec();
    all.extend(look::COMMANDS.iter().cloned());
    all.extend(change::COMMANDS.iter().cloned());
    #[cfg(has_links)]
    all.extend(links::COMMANDS.iter().cloned());
    #[cfg(has_tidy)]
    all.extend(tidy::COMMANDS.iter().cloned());
    #[cfg(has_store)]
    all.extend(stores::COMMANDS.iter().cloned());
    all
}

impl Clone for Command {
    fn clone(&self) -> Self {
        Self { ..*self }
    }
}

impl Command {
    pub fn run(&self, given: &Given, out: &mut Output) -> Outcome<u8> {
        let usage = format!("usage: zealfs {} {}", self.name, self.usage);
        if let Some(option) = given.unknown(self.options) {
            return words(format!("{}: no option {option}\n{usage}", self.name));
        }
        let count = given.words.len();
        if count < self.count.0 {
            return words(format!("{}: too few words\n{usage}", self.name));
        }
        if count > self.count.1 {
            return words(format!("{}: too many words\n{usage}", self.name));
        }
        (self.run)(given, out)
    }
}

/// The image that a command looks at, and its name.
fn looked_at(given: &Given) -> Outcome<(String, Vec<u8>)> {
    let name = named(given.image());
    let bytes = file(&name, image::read(given.image()))?;
    Ok((name, bytes))
}

/// The same for what only version 1 has.
fn looked_at_one(given: &Given, what: &'static str) -> Outcome<(String, Vec<u8>)> {
    let (name, bytes) = looked_at(given)?;
    only_one(&name, &bytes, what)?;
    Ok((name, bytes))
}
