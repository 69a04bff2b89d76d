//! Commands that only look.

use super::{looked_at, looked_at_one, Command, MANY};
use crate::args::{named, Given};
use crate::either::{self, is_two};
use crate::image;
use crate::output::{shown, Object, Output};
use crate::paths::{all_below, content, rows, Paths, Row};
use crate::trouble::{asked, file, Outcome, DONE};
use std::ffi::OsString;
use std::os::unix::ffi::OsStringExt;
use std::path::Path;
use zealfs::{Kind, Owner};

pub const COMMANDS: &[Command] = &[
    Command { name: "info", usage: "IMAGE", help: "how much is on it, and how much still fits", options: &[], count: (1, 1), run: info },
    Command { name: "map", usage: "IMAGE", help: "the pages and whose they are", options: &[], count: (1, 1), run: map },
    Command {
        name: "ls",
        usage: "[-l] IMAGE [PATH]",
        help: "what a directory holds (-l: with kind, lock, size and date)",
        options: &["-l"],
        count: (1, 2),
        run: ls,
    },
    Command {
        name: "tree",
        usage: "IMAGE [PATH]",
        help: "everything, a line each: the listing of document 01",
        options: &[],
        count: (1, 2),
        run: tree,
    },
    Command { name: "cat", usage: "IMAGE PATH..", help: "what files hold, to standard output", options: &[], count: (2, MANY), run: cat },
    Command {
        name: "get",
        usage: "[-o] IMAGE PATH [FILE|-]",
        help: "take a file out (-o: over a file that is there)",
        options: &["-o"],
        count: (2, 3),
        run: get,
    },
];

/// How many entries the root of version 1 has.
const ROOT_ENTRIES: usize = 6;

fn info(given: &Given, out: &mut Output) -> Outcome<u8> {
    let (name, bytes) = looked_at(given)?;
    let space = asked(&name, b"", either::verdict(&bytes))?;
    let all = asked(&name, b"/", all_below(&bytes, b"/"))?;
    let count = |is: fn(Kind) -> bool| all.iter().filter(|row| is(row.found.kind)).count() as u64;
    let (directories, locked) = (count(Kind::is_directory), count(Kind::is_locked));
    let files = all.len() as u64 - directories;
    let content: usize = all.iter().filter(|row| !row.found.kind.is_directory()).map(|row| row.found.kind.size()).sum();
    let root = asked(&name, b"/", rows(&bytes, b"/"))?.len();
    let (length, pages, free) = (bytes.len(), space.pages as u64, space.free as u64);
    let two = is_two(&bytes);
    let (version, page) = (if two { 2 } else { 1 }, length as u64 / pages);
    // in version 1 the first byte of a page is its link; in version 2 a directory that is full takes a page too
    let (room, less) = if two { (free * page, ", a page less where its directory is full") } else { (free * (page - 1), "") };
    let taken = match (two, root) {
        (false, root) => format!("{root} of {ROOT_ENTRIES} entries"),
        (true, 1) => "1 entry".to_owned(),
        (true, root) => format!("{root} entries"),
    };
    let told = || {
        let told = Object::default().text("image", &name).number("version", version).number("page_size", page);
        let told = told.number("bytes", length as u64).number("pages", pages).number("free", free);
        let told = told.number("files", files).number("content", content as u64).number("locked", locked);
        told.number("directories", directories).number("root", root as u64).number("room", room)
    };
    let text = || {
        format!(
            "{name}\n\
             version      {version}, pages of {page} bytes\n\
             length       {length} bytes\n\
             pages        {pages}, of which {free} free\n\
             files        {files} with {content} bytes, of which {locked} locked\n\
             directories  {directories}\n\
             root         {taken} taken\n\
             room         {room} bytes for a new file{less}"
        )
    };
    out.tell(told, text)?;
    Ok(DONE)
}

/// Neighbouring pages of one owner are one line.
fn map(given: &Given, out: &mut Output) -> Outcome<u8> {
    let (name, bytes) = looked_at_one(given, "map")?;
    let space = asked(&name, b"", zealfs::verdict(&bytes))?;
    let Some(owners) = zealfs::audit(&bytes) else {
        return file(&name, Err(std::io::Error::other("the two judges disagree; run check")));
    };
    let mut paths = Paths::new(&bytes, &owners);
    let mut first = 0;
    for next in 1..=space.pages {
        if next < space.pages && owners.of(next) == owners.of(first) {
            continue;
        }
        let owner = match owners.of(first) {
            Owner::Header => "header".to_owned(),
            Owner::Nobody => "free".to_owned(),
            Owner::Entry { .. } => shown(&paths.of_page(first).unwrap_or_default()),
        };
        let range = if next == first + 1 { first.to_string() } else { format!("{first}-{}", next - 1) };
        let told = || Object::default().number("first", first as u64).number("last", next as u64 - 1).text("owner", &owner);
        out.tell(told, || format!("{range:>7}  {owner}"))?;
        first = next;
    }
    Ok(DONE)
}

fn row_object(row: &Row) -> Object {
    let kind = if row.found.kind.is_directory() { "directory" } else { "file" };
    let told = Object::default().text("path", &shown(&row.path)).text("kind", kind).number("size", row.found.kind.size() as u64);
    told.flag("locked", row.found.kind.is_locked()).text("date", &row.found.date.to_string())
}

fn letter(kind: Kind) -> char {
    if kind.is_directory() {
        'D'
    } else {
        'F'
    }
}

/// Sizes are as wide as the longest, and as any of version 1.
fn long_line(row: &Row, width: usize) -> String {
    let kind = row.found.kind;
    let lock = if kind.is_locked() { "locked" } else { "-" };
    let mark = if kind.is_directory() { "/" } else { "" };
    format!("{} {lock:6} {:>width$} {} {}{mark}", letter(kind), kind.size(), row.found.date, shown(row.name()))
}

fn ls(given: &Given, out: &mut Output) -> Outcome<u8> {
    let (name, bytes) = looked_at(given)?;
    let path = given.path_or_root(1);
    let found = asked(&name, path, either::find(&bytes, path))?;
    let listed = if found.kind.is_directory() { asked(&name, path, rows(&bytes, path))? } else { vec![Row { path: path.to_vec(), found }] };
    let width = listed.iter().map(|row| row.found.kind.size().to_string().len()).max().unwrap_or(0).max(5);
    for row in &listed {
        let mark = if row.found.kind.is_directory() { "/" } else { "" };
        let short = || format!("{}{mark}", shown(row.name()));
        out.tell(|| row_object(row), || if given.has("-l") { long_line(row, width) } else { short() })?;
    }
    Ok(DONE)
}

/// Of a whole image of version 1 this is the proved text, byte for byte; of one of version 2 lines of the same form, by its entries; of a part of
/// either the lines of that part.
fn tree(given: &Given, out: &mut Output) -> Outcome<u8> {
    let (name, bytes) = looked_at(given)?;
    let space = asked(&name, b"", either::verdict(&bytes))?;
    let is_text = given.words.len() == 1 && !out.json;
    if is_text && is_two(&bytes) {
        out.line(&format!("pages {} free {}", space.pages, space.free))?;
    } else if is_text {
        for window in zealfs::listing(&bytes) {
            out.bytes(&window)?;
        }
        return Ok(DONE);
    }
    let path = given.path_or_root(1);
    for row in asked(&name, path, all_below(&bytes, path))? {
        let kind = row.found.kind;
        out.tell(|| row_object(&row), || format!("{} {} {}", letter(kind), kind.size(), shown(&row.path)))?;
    }
    Ok(DONE)
}

fn cat(given: &Given, out: &mut Output) -> Outcome<u8> {
    let (name, bytes) = looked_at(given)?;
    let paths = (1..given.words.len()).map(|number| given.path(number));
    let contents: Outcome<Vec<_>> = paths.map(|path| asked(&name, path, content(&bytes, path))).collect();
    for content in contents? {
        out.bytes(&content)?;
    }
    Ok(DONE)
}

/// Without a FILE it is that of the same name, here.
fn get(given: &Given, out: &mut Output) -> Outcome<u8> {
    let (name, bytes) = looked_at(given)?;
    let path = given.path(1);
    let content = asked(&name, path, content(&bytes, path))?;
    // in this folder, also where the name is `-`
    let own_name = path.rsplit(|&byte| byte == b'/').next().unwrap_or_default();
    let here = || OsString::from_vec([b"./", own_name].concat());
    let target = given.words.get(2).cloned().unwrap_or_else(here);
    if target == image::STANDARD {
        out.bytes(&content)?;
        return Ok(DONE);
    }
    let write = if given.has("-o") { image::write_over } else { image::write_new };
    file(&named(&target), write(Path::new(&target), &content))?;
    Ok(DONE)
}
