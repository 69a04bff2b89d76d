//! check and repair: what is in order, and what can be mended.

use super::{Command, MANY};
use crate::args::{named, Given};
use crate::either::{self, is_two, only_one};
use crate::image::{self, Held};
use crate::output::{Object, Output};
use crate::trouble::{file, Outcome, Trouble, DONE, MENDED, NOT_IN_ORDER};
use crate::{blame, tell};
use std::ffi::OsStr;
use std::path::Path;
use zealfs::{Refusal, Space};

pub const COMMANDS: &[Command] = &[
    Command {
        name: "check",
        usage: "IMAGE..",
        help: "say of each image whether it is in order, by all its judges, and its first fault",
        options: &[],
        count: (1, MANY),
        run: |given, out| each(given, out, check),
    },
    Command {
        name: "repair",
        usage: "[-n] IMAGE..",
        help: "win back lost pages and mend the count of free ones (-n: only say so); the image before is kept as IMAGE~",
        options: &["-n"],
        count: (1, MANY),
        run: |given, out| each(given, out, if given.has("-n") { would_repair } else { repair }),
    },
];

/// Does it for every image, whatever becomes of the others, and or-s the statuses.
fn each(given: &Given, out: &mut Output, run: fn(&OsStr, &mut Output) -> Outcome<u8>) -> Outcome<u8> {
    let mut status = DONE;
    for image in &given.words {
        status |= match run(image, out) {
            Ok(status) => status,
            Err(trouble @ Trouble::Output(_)) => return Err(trouble),
            Err(trouble) => {
                out.flush()?;
                tell(&trouble, out.json);
                trouble.status()
            }
        };
    }
    Ok(status)
}

fn check(image: &OsStr, out: &mut Output) -> Outcome<u8> {
    let name = named(image);
    let bytes = file(&name, image::read(image))?;
    let first = either::verdict(&bytes);
    // version 2 has no second judge
    let second = if is_two(&bytes) { first.is_ok() } else { zealfs::audit(&bytes).is_some() };
    let status = match first {
        Ok(space) if second => in_order(&name, space, out),
        Err(refusal) if !second => not_in_order(&name, &bytes, refusal, out),
        first => disagree(&name, first.is_ok(), out),
    }?;
    if image != image::STANDARD {
        for left in image::leftovers(image) {
            let text = format!("{} is left of a run that was stopped, which changed nothing; it can be removed", left.display());
            out.tell(|| Object::default().text("image", &name).text("left", &left.to_string_lossy()), || format!("  {text}"))?;
        }
    }
    Ok(status)
}

fn in_order(name: &str, space: Space, out: &mut Output) -> Outcome<u8> {
    let Space { pages, free } = space;
    let told = || Object::default().text("image", name).flag("in_order", true).number("pages", pages as u64).number("free", free as u64);
    out.tell(told, || format!("{name}: in order, {pages} pages, {free} free"))?;
    Ok(DONE)
}

/// That both say the same is proved; so it is the machine that failed, or a file of this program.
fn disagree(name: &str, is_sound: bool, out: &mut Output) -> Outcome<u8> {
    let text = "the two judges disagree, which cannot be: this machine or this program is damaged; check the image elsewhere";
    let told = || Object::default().text("image", name).flag("in_order", false).flag("first", is_sound).text("error", text);
    out.tell(told, || format!("{name}: {text}"))?;
    Ok(NOT_IN_ORDER)
}

fn fault(name: &str, bytes: &[u8], refusal: Refusal) -> (Object, String) {
    let (place, paths) = (blame::place(bytes, refusal), blame::paths(bytes, refusal));
    let mut object = Object::default().text("image", name).flag("in_order", false).number("number", refusal.number().into());
    let mut text = format!("{name}: not in order, number {}", refusal.number());
    if let Some(place) = &place {
        object = object.text("place", place);
        text += &format!(", {place}");
    }
    for (key, path) in ["path", "other"].iter().zip(&paths) {
        object = object.text(key, path);
    }
    if !paths.is_empty() {
        text += &format!(" ({})", paths.join(" and "));
    }
    let (what, advice) = (refusal.text(), refusal.advice());
    (object.text("error", what).text("advice", advice), format!("{text}: {what}\n  what to do: {advice}"))
}

fn not_in_order(name: &str, bytes: &[u8], refusal: Refusal, out: &mut Output) -> Outcome<u8> {
    let (object, text) = fault(name, bytes, refusal);
    out.tell(|| object, || text)?;
    Ok(NOT_IN_ORDER)
}

fn nothing_to_mend(name: &str, out: &mut Output) -> Outcome<u8> {
    let told = || Object::default().text("image", name).flag("in_order", true).flag("mended", false);
    out.tell(told, || format!("{name}: in order, nothing to mend"))?;
    Ok(DONE)
}

/// What is wrong and can be mended: 19 and 3. Anything else the repair refuses.
fn would_repair(image: &OsStr, out: &mut Output) -> Outcome<u8> {
    let name = named(image);
    let bytes = file(&name, image::read(image))?;
    only_one(&name, &bytes, "repair")?;
    let Err(refusal) = zealfs::verdict(&bytes) else { return nothing_to_mend(&name, out) };
    if zealfs::repair(&mut bytes.clone()).is_err() {
        return not_in_order(&name, &bytes, refusal, out);
    }
    let (object, _) = fault(&name, &bytes, refusal);
    let (number, what) = (refusal.number(), refusal.text());
    out.tell(|| object.flag("mendable", true), || format!("{name}: can be mended, number {number}: {what}"))?;
    Ok(NOT_IN_ORDER)
}

fn repair(image: &OsStr, out: &mut Output) -> Outcome<u8> {
    let name = named(image);
    let held = file(&name, Held::hold(Path::new(image)))?;
    only_one(&name, &held.bytes, "repair")?;
    let Err(refusal) = zealfs::verdict(&held.bytes) else { return nothing_to_mend(&name, out) };
    let mut mended = held.bytes.clone();
    if zealfs::repair(&mut mended).is_err() {
        return not_in_order(&name, &held.bytes, refusal, out);
    }
    super::change::judge_again(&name, &mended)?;
    let kept = format!("{name}{}", file(&format!("{name}~"), held.keep())?);
    file(&name, held.replace(&mended))?;
    let (number, what) = (refusal.number(), refusal.text());
    let told = || Object::default().text("image", &name).flag("mended", true).number("number", number.into()).text("kept", &kept);
    out.tell(told, || format!("{name}: mended, number {number}: {what}\n  the image as it was is kept as {kept}"))?;
    Ok(MENDED)
}
