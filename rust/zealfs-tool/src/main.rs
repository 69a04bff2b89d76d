//! The registrar's tool over ZealFS images. What looks at an image's bytes is behind the proved calls of the crate `zealfs`; this does words and files.

mod args;
mod blame;
mod clock;
mod commands;
mod either;
mod image;
mod output;
mod paths;
mod trouble;

use args::{named, Given};
use output::{Object, Output};
use std::io::Write;
use std::process::ExitCode;
use trouble::{words, Outcome, Trouble, DONE};

const ENDS: &str = "\
`zealfs help NUMBER` tells what a number says and what to do. `zealfs COMMAND --help` tells of one command.
--json before or after the command: one object a line. `-` for IMAGE, where a command only looks, and for FILE is standard input or output.
status: 0 done, 1 mended, 2 refused and nothing changed, 4 the image is not in order, 8 a file could not be read or written or is held by
another program, 16 wrong words; of several images the sum of what was met";

fn usage() -> String {
    let mut text = String::from("usage: zealfs COMMAND IMAGE ..\n");
    for command in commands::all() {
        text += &format!("  {:<7} {:<38} {}\n", command.name, command.usage, command.help);
    }
    text + ENDS
}

/// All commands, or the words of a number.
fn help(given: &Given, out: &mut Output) -> Outcome<u8> {
    let Some(word) = given.words.get(1) else {
        out.line(&usage())?;
        return Ok(DONE);
    };
    let number = word.to_str().and_then(|word| word.parse::<u8>().ok());
    let Some(&(number, _, text, advice)) = number.and_then(|number| zealfs::WORDS.iter().find(|words| words.0 == number)) else {
        return words(format!("help: there is no number {}", named(word)));
    };
    let told = || Object::default().number("number", number.into()).text("error", text).text("advice", advice);
    out.tell(told, || format!("{number}: {text}\n  what to do: {advice}"))?;
    Ok(DONE)
}

fn run(mut given: Given, out: &mut Output) -> Outcome<u8> {
    if given.version {
        out.line(concat!("zealfs ", env!("CARGO_PKG_VERSION")))?;
        return Ok(DONE);
    }
    if given.words.is_empty() && !given.help {
        return words(format!("no command\n{}", usage()));
    }
    if given.words.is_empty() || given.words[0] == "help" {
        return help(&given, out);
    }
    let all = commands::all();
    // for the completion of the shell
    if given.words[0] == "commands" {
        all.iter().try_for_each(|command| out.line(command.name))?;
        return Ok(DONE);
    }
    let name = given.words.remove(0);
    let Some(command) = all.iter().find(|command| name == command.name) else {
        return words(format!("no command {}; `zealfs help` tells which there are", named(&name)));
    };
    if given.help {
        out.line(&format!("usage: zealfs {} {}\n{}", command.name, command.usage, command.help))?;
        return Ok(DONE);
    }
    command.run(&given, out)
}

/// To standard error, where nothing can be done about an error any more.
fn tell(trouble: &Trouble, json: bool) {
    // who closed the pipe, as head does, knows
    if matches!(trouble, Trouble::Output(error) if error.kind() == std::io::ErrorKind::BrokenPipe) {
        return;
    }
    let text = if json { trouble.object().line() + "\n" } else { trouble.text() };
    let _ = std::io::stderr().write_all(text.as_bytes());
}

fn main() -> ExitCode {
    let given = Given::read(std::env::args_os().skip(1));
    let mut out = Output::new(given.as_ref().is_ok_and(|given| given.json));
    let outcome = given.and_then(|given| run(given, &mut out)).and_then(|status| out.flush().map(|()| status));
    let status = outcome.unwrap_or_else(|trouble| {
        let _ = out.flush();
        tell(&trouble, out.json);
        trouble.status()
    });
    ExitCode::from(status)
}
