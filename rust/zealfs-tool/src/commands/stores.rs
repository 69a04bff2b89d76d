//! store: the page stores of a put, for the programmer of boards (paper 02 §11). The image stays as it is.

use super::{looked_at_one, Command};
use crate::args::{named, Given};
use crate::image;
use crate::output::{Object, Output};
use crate::trouble::{asked, file, Outcome, DONE};
use std::fs;
use std::path::Path;
use zealfs::store::store;
use zealfs::Refusal;

pub const COMMANDS: &[Command] = &[Command {
    name: "store",
    usage: "[--date DATE] IMAGE FILE|- PATH DIRECTORY",
    help: "the page stores, in order, that put a file in so that the cartridge may be pulled: one file each in a new DIRECTORY",
    options: &["--date"],
    count: (4, 4),
    run,
}];

fn run(given: &Given, out: &mut Output) -> Outcome<u8> {
    let (name, bytes) = looked_at_one(given, "store")?;
    let (source, path, date) = (&given.words[1], given.path(2), given.date()?);
    let content = file(&named(source), image::read_content(source))?;
    let mut stores = Vec::new();
    loop {
        match store(&bytes, path, date, &content, stores.len() as u64) {
            Err(Refusal::PastTheEnd) if !stores.is_empty() => break,
            answer => stores.push(asked(&name, path, answer)?),
        }
    }
    let directory = Path::new(&given.words[3]);
    file(&named(&given.words[3]), fs::create_dir(directory))?;
    for (number, store) in stores.iter().enumerate() {
        let target = directory.join(format!("store-{number:03}-page-{:03}.bin", store.page));
        let shown = target.display().to_string();
        file(&shown, image::write_new(&target, &store.bytes))?;
        let told = || Object::default().number("store", number as u64).number("page", store.page as u64).text("file", &shown);
        out.tell(told, || format!("store {number}: page {} {shown}", store.page))?;
    }
    Ok(DONE)
}
