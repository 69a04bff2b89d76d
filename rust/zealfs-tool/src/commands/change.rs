//! Commands that change an image: each works on a copy in memory, all of it or nothing, and puts the copy in the image's place.

use super::{Command, MANY};
use crate::args::{named, Given};
use crate::either::{self, is_in_order, LONGEST};
use crate::image::{self, Held};
use crate::output::{Object, Output};
use crate::trouble::{asked, file, words, Outcome, DONE};
use std::ffi::OsStr;
use std::io::ErrorKind;
use std::path::Path;
use zealfs::v2::{self, PageSize};
use zealfs::Answer;

pub const COMMANDS: &[Command] = &[
    Command {
        name: "put",
        usage: "[-o] [--date DATE] IMAGE FILE|- PATH",
        help: "put a file in (-o: in the place of one that is there)",
        options: &["-o", "--date"],
        count: (3, 3),
        run: put,
    },
    Command {
        name: "mkdir",
        usage: "[--date DATE] IMAGE PATH..",
        help: "make directories",
        options: &["--date"],
        count: (2, MANY),
        run: |given, _| {
            let date = given.date()?;
            change_each(given, |bytes, path| either::make_directory(bytes, path, date))
        },
    },
    Command {
        name: "rm",
        usage: "IMAGE PATH..",
        help: "remove files; a locked one is not removed",
        options: &[],
        count: (2, MANY),
        run: |given, _| change_each(given, either::remove_file),
    },
    Command {
        name: "rmdir",
        usage: "IMAGE PATH..",
        help: "remove empty directories",
        options: &[],
        count: (2, MANY),
        run: |given, _| change_each(given, either::remove_directory),
    },
    Command {
        name: "lock",
        usage: "IMAGE PATH..",
        help: "lock files: they are then neither written nor removed",
        options: &[],
        count: (2, MANY),
        run: |given, _| change_each(given, either::lock),
    },
    Command {
        name: "unlock",
        usage: "IMAGE PATH..",
        help: "unlock files",
        options: &[],
        count: (2, MANY),
        run: |given, _| change_each(given, either::unlock),
    },
    Command {
        name: "format",
        usage: "[-f] [--v2 [--page BYTES]] IMAGE SIZE",
        help: "make an empty image of SIZE bytes, as 8192 or 8k (-f: in the place of one that is there, which is kept as IMAGE~; \
               --v2: of version 2, up to 1m)",
        options: &["-f", "--v2", "--page"],
        count: (2, 2),
        run: format,
    },
];

/// What is about to take an image's place is judged once more: the calls promise it, this guards against the machine.
pub fn judge_again(name: &str, bytes: &[u8]) -> Outcome<()> {
    if is_in_order(bytes) {
        return Ok(());
    }
    let text = "the new image is not in order, which cannot be: this machine or this program is damaged; nothing was written";
    file(name, Err(std::io::Error::new(ErrorKind::InvalidData, text)))
}

/// Holds the image, changes a copy of it, and puts the copy in its place.
pub fn change(image: &OsStr, work: impl FnOnce(&str, &mut Vec<u8>) -> Outcome<()>) -> Outcome<u8> {
    let name = named(image);
    let held = file(&name, Held::hold(Path::new(image)))?;
    let mut bytes = held.bytes.clone();
    work(&name, &mut bytes)?;
    judge_again(&name, &bytes)?;
    // what changed nothing, as to lock a locked file, is done already
    if bytes != held.bytes {
        file(&name, held.replace(&bytes))?;
    }
    Ok(DONE)
}

/// One call for each path, all of them or none.
fn change_each(given: &Given, call: impl Fn(&mut [u8], &[u8]) -> Answer<()>) -> Outcome<u8> {
    change(given.image(), |name, bytes| {
        (1..given.words.len()).map(|number| given.path(number)).try_for_each(|path| asked(name, path, call(bytes, path)))
    })
}

fn put(given: &Given, _: &mut Output) -> Outcome<u8> {
    let (source, path, date) = (&given.words[1], given.path(2), given.date()?);
    let content = file(&named(source), image::read_content(source))?;
    let is_over = given.has("-o");
    change(given.image(), |name, bytes| {
        if is_over && either::find(bytes, path).is_ok() {
            asked(name, path, either::remove_file(bytes, path))?;
        }
        asked(name, path, either::make_file(bytes, path, date))?;
        asked(name, path, either::write(bytes, path, 0, &content))
    })
}

/// A length: a number of bytes, or of KiB or MiB with a k or an m behind it.
fn read_size(text: &str) -> Option<usize> {
    let (number, unit) = match text.char_indices().next_back()? {
        (end, 'k' | 'K') => (&text[..end], 1024),
        (end, 'm' | 'M') => (&text[..end], 1024 * 1024),
        _ => (text, 1),
    };
    number.parse::<usize>().ok()?.checked_mul(unit).filter(|&size| size <= LONGEST)
}

/// An empty image of version 1.
fn new_one(size: &str) -> Outcome<Vec<u8>> {
    let image = read_size(size).map(|size| vec![0; size]).and_then(|mut image| zealfs::format(&mut image).is_ok().then_some(image));
    let text =
        || format!("format: {size} is no cartridge's length: 2,048 to 65,536 bytes (2k to 64k), a multiple of 2,048; with --v2 up to 1m");
    image.map_or_else(|| words(text()), Ok)
}

/// An empty image of version 2, with pages of the size that is given, or of the smallest that the format has for the length.
fn new_two(size: &str, page: Option<&str>) -> Outcome<Vec<u8>> {
    let Some(length) = read_size(size) else {
        return words(format!(
            "format: {size} is no version 2 cartridge's length: 2,048 to 1,048,576 bytes (2k to 1m), a multiple of 2,048"
        ));
    };
    let given = page.map_or(Some(PageSize::for_length(length)), |page| read_size(page).and_then(PageSize::of_bytes));
    let Some(pages) = given else {
        return words(format!("format: {} is no page size: 256, 512 or 1024", page.unwrap_or_default()));
    };
    let mut image = vec![0; length];
    match v2::format(&mut image, pages) {
        Ok(()) => Ok(image),
        Err(refusal) => words(format!("format: {size} with pages of {} bytes: {}", pages.bytes(), refusal.text())),
    }
}

fn format(given: &Given, out: &mut Output) -> Outcome<u8> {
    let (name, size) = (named(given.image()), named(&given.words[1]));
    if given.page().is_some() && !given.has("--v2") {
        return words("format: --page is for version 2: give --v2 too");
    }
    let image = if given.has("--v2") { new_two(&size, given.page()) } else { new_one(&size) }?;
    let path = Path::new(given.image());
    if !given.has("-f") || !path.exists() {
        file(&name, image::create(path, &image))?;
        return Ok(DONE);
    }
    let held = file(&name, Held::hold(path))?;
    let kept = format!("{name}{}", file(&name, held.keep())?);
    file(&name, held.replace(&image))?;
    let told = || Object::default().text("image", &name).text("kept", &kept);
    out.tell(told, || format!("{name}: formatted; the image as it was is kept as {kept}"))?;
    Ok(DONE)
}
