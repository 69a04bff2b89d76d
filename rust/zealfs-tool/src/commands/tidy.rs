//! tidy: the pages of each file moved together (paper 02 §13).

use super::change::judge_again;
use super::Command;
use crate::args::{named, Given};
use crate::either::only_one;
use crate::image::{self, Held};
use crate::output::{Object, Output};
use crate::trouble::{asked, file, Outcome, DONE};
use std::path::Path;
use zealfs::tidy::{propose, tidy};

pub const COMMANDS: &[Command] = &[Command {
    name: "tidy",
    usage: "[-n] IMAGE",
    help: "move the pages of each file together, in order (-n: only say how many would move); the image before is kept as IMAGE~",
    options: &["-n"],
    count: (1, 1),
    run,
}];

/// The image with its pages in their new places, and how many have moved.
fn tidied(name: &str, bytes: &[u8]) -> Outcome<(Vec<u8>, usize)> {
    only_one(name, bytes, "tidy")?;
    let space = asked(name, b"", zealfs::verdict(bytes))?;
    let mut places = vec![0; space.pages];
    asked(name, b"", propose(bytes, &mut places))?;
    let mut target = vec![0; bytes.len()];
    asked(name, b"", tidy(bytes, &places, &mut target))?;
    let moved = places.iter().enumerate().filter(|&(page, &place)| page != usize::from(place)).count();
    Ok((target, moved))
}

fn run(given: &Given, out: &mut Output) -> Outcome<u8> {
    let name = named(given.image());
    if given.has("-n") {
        let bytes = file(&name, image::read(given.image()))?;
        let (_, moved) = tidied(&name, &bytes)?;
        out.tell(
            || Object::default().text("image", &name).number("would_move", moved as u64),
            || format!("{name}: {moved} pages would move"),
        )?;
        return Ok(DONE);
    }
    let held = file(&name, Held::hold(Path::new(given.image())))?;
    let (target, moved) = tidied(&name, &held.bytes)?;
    judge_again(&name, &target)?;
    if target == held.bytes {
        out.tell(|| Object::default().text("image", &name).number("moved", 0), || format!("{name}: tidy, nothing to move"))?;
        return Ok(DONE);
    }
    let kept = format!("{name}{}", file(&format!("{name}~"), held.keep())?);
    file(&name, held.replace(&target))?;
    let told = || Object::default().text("image", &name).number("moved", moved as u64).text("kept", &kept);
    out.tell(told, || format!("{name}: {moved} pages moved; the image as it was is kept as {kept}"))?;
    Ok(DONE)
}
