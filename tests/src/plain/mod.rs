//! The plain implementation: an image is judged and read into a tree, the call
//! is performed on the tree, and what it grants is then written to the bytes.

pub mod links;
pub mod path;
pub mod reader;
pub mod tree;
pub mod writer;

use crate::calls::{Answer, Audit, Base, Call, Calls, Kind, Refusal};
use tree::{Shape, Tree};

/// Bytes of a page.
pub const PAGE: usize = 256;
/// Bytes of content that a page of a file carries; the first byte is the link.
pub const CONTENT: usize = PAGE - 1;
/// Bytes of an entry.
pub const ENTRY: usize = 32;
/// Where the root's entries begin in the header page.
pub const ROOT_ENTRIES_AT: usize = 64;
pub const ROOT_ENTRIES: usize = 6;
pub const DIRECTORY_ENTRIES: usize = 8;
/// Where the bitmap begins in the header page.
pub const BITMAP_AT: usize = 4;

/// The shape of version 1's trees.
pub const VERSION_1: Shape = Shape {
    aside: 1,
    page: PAGE,
    content: CONTENT,
    root_entries: ROOT_ENTRIES,
    page_entries: DIRECTORY_ENTRIES,
    grows: false,
};

/// The pages that a file of `size` bytes has; an empty one has a page too.
pub fn pages_of_file(size: usize) -> usize {
    VERSION_1.pages_of_file(size)
}

/// N of an image of `length` bytes, or refusal 1.
pub fn pages_of_image(length: usize) -> Result<usize, Refusal> {
    let allowed = (2048..=65_536).contains(&length) && length.is_multiple_of(2048);
    if allowed {
        Ok(length / PAGE)
    } else {
        Err(Refusal::number(1))
    }
}

/// Refusal 29 for a store's buffer that is not a page.
fn check_page(page: &[u8]) -> Result<(), Refusal> {
    if page.len() != PAGE {
        return Err(Refusal::number(29));
    }
    Ok(())
}

/// The implementation by way of the tree.
pub struct Plain;

impl Plain {
    fn make(image: &mut [u8], path: &[u8], date: &[u8], kind: Kind) -> Result<Answer, Refusal> {
        let mut tree = reader::judge(image)?;
        tree.make(path, date, kind)?;
        writer::make(image, path, date, kind);
        Ok(Answer::granted())
    }

    fn remove(image: &mut [u8], path: &[u8], kind: Kind) -> Result<Answer, Refusal> {
        let mut tree = reader::judge(image)?;
        tree.remove(path, kind)?;
        writer::remove(image, path);
        Ok(Answer::granted())
    }

    fn set_lock(image: &mut [u8], path: &[u8], locked: bool) -> Result<Answer, Refusal> {
        let mut tree = reader::judge(image)?;
        tree.set_lock(path, locked)?;
        writer::set_lock(image, path, locked);
        Ok(Answer::granted())
    }

    /// A granted writing is a removal, a make and a write in turn.
    fn write_links(
        image: &mut [u8],
        directory: &[u8],
        date: &[u8],
        numbers: &[u64],
    ) -> Result<Answer, Refusal> {
        let mut tree = reader::judge(image)?;
        let path = links::path_in(directory);
        let is_there = tree.find(&path).is_ok();
        tree.links_write(directory, date, numbers)?;
        if is_there {
            writer::remove(image, &path);
        }
        writer::make(image, &path, date, Kind::File);
        writer::write(
            image,
            &path,
            0,
            &links::file_of(&links::rows_to_write(numbers)?),
        );
        Ok(Answer::granted())
    }
}

impl Base for Plain {
    fn verdict(&self, image: &[u8]) -> Answer {
        reader::judge(image).map(|tree| tree.verdict()).into()
    }

    fn find(&self, image: &[u8], path: &[u8]) -> Answer {
        reader::judge(image).and_then(|tree| tree.find(path)).into()
    }

    fn list(&self, image: &[u8], path: &[u8], entry: u64) -> Answer {
        reader::judge(image)
            .and_then(|tree| tree.list(path, entry))
            .into()
    }

    fn read(&self, image: &[u8], path: &[u8], position: u64, buffer: &mut [u8]) -> Answer {
        reader::judge(image)
            .and_then(|tree| tree.read(path, position, buffer))
            .into()
    }

    fn make_file(&self, image: &mut [u8], path: &[u8], date: &[u8]) -> Answer {
        Plain::make(image, path, date, Kind::File).into()
    }

    fn make_directory(&self, image: &mut [u8], path: &[u8], date: &[u8]) -> Answer {
        Plain::make(image, path, date, Kind::Directory).into()
    }

    fn write(&self, image: &mut [u8], path: &[u8], position: u64, bytes: &[u8]) -> Answer {
        let granted = reader::judge(image).and_then(|mut tree| tree.write(path, position, bytes));
        if granted.is_ok() {
            writer::write(image, path, position as usize, bytes);
        }
        granted.into()
    }

    fn remove_file(&self, image: &mut [u8], path: &[u8]) -> Answer {
        Plain::remove(image, path, Kind::File).into()
    }

    fn remove_directory(&self, image: &mut [u8], path: &[u8]) -> Answer {
        Plain::remove(image, path, Kind::Directory).into()
    }

    fn lock(&self, image: &mut [u8], path: &[u8]) -> Answer {
        Plain::set_lock(image, path, true).into()
    }

    fn unlock(&self, image: &mut [u8], path: &[u8]) -> Answer {
        Plain::set_lock(image, path, false).into()
    }
}

impl Calls for Plain {
    fn format(&self, image: &mut [u8]) -> Answer {
        match pages_of_image(image.len()) {
            Ok(pages) => {
                writer::format(image, pages);
                Answer::granted()
            }
            Err(refusal) => Answer::refused(refusal),
        }
    }

    fn store(
        &self,
        image: &[u8],
        path: &[u8],
        date: &[u8],
        content: &[u8],
        number: u64,
        page: &mut [u8],
    ) -> Answer {
        let granted = check_page(page)
            .and_then(|()| reader::judge(image))
            .and_then(|tree| tree.store(path, date, content, number));
        if let Err(refusal) = granted {
            return Answer::refused(refusal);
        }
        let stores = writer::stores(image, path, date, content);
        let (at, bytes) = &stores[number as usize];
        page.copy_from_slice(bytes);
        Answer::page(*at as u64)
    }

    fn repair(&self, image: &mut [u8]) -> Answer {
        let granted = reader::tree_and_owned(image).map(|(_, owned)| {
            writer::repair(image, &owned);
            Answer::granted()
        });
        granted.into()
    }

    fn audit(&self, image: &[u8]) -> Audit {
        reader::owner_row(image).map_or_else(|_| Audit::no(), Audit::sound)
    }

    fn links_read(&self, image: &[u8], directory: &[u8], numbers: &mut [u64]) -> Answer {
        reader::judge(image)
            .and_then(|tree| tree.links_read(directory, numbers))
            .into()
    }

    fn links_write(
        &self,
        image: &mut [u8],
        directory: &[u8],
        date: &[u8],
        numbers: &[u64],
    ) -> Answer {
        Plain::write_links(image, directory, date, numbers).into()
    }

    fn links_find(&self, image: &[u8], directory: &[u8], count: u64, value: u64) -> Answer {
        reader::judge(image)
            .and_then(|tree| tree.links_find(directory, count, value))
            .into()
    }

    fn links_check(&self, image: &[u8], directory: &[u8]) -> Answer {
        reader::judge(image)
            .and_then(|tree| tree.links_check(directory))
            .into()
    }
}

/// The replay of a list of calls on the tree alone: it sees the tree of the
/// starting image, the image's length and the calls' arguments, and no byte of
/// any later image.
pub struct Replay {
    pub tree: Tree,
    length: usize,
}

impl Replay {
    /// None if the starting image is not sound.
    pub fn of(image: &[u8]) -> Option<Replay> {
        let tree = reader::judge(image).ok()?;
        Some(Replay {
            tree,
            length: image.len(),
        })
    }

    /// A tree to begin with, of an image of that length.
    pub fn from(tree: Tree, length: usize) -> Replay {
        Replay { tree, length }
    }

    /// An image of an allowed length, right after format.
    pub fn formatted(length: usize) -> Replay {
        let pages = pages_of_image(length).expect("an allowed length");
        Replay {
            tree: Tree::empty(pages),
            length,
        }
    }

    /// Performs one call on the tree.
    pub fn step(&mut self, call: &mut Call) -> Answer {
        let tree = &mut self.tree;
        let result = match call {
            Call::Format => pages_of_image(self.length).map(|pages| {
                *tree = Tree::empty(pages);
                Answer::granted()
            }),
            // Which page and which bytes is nothing that the tree knows.
            Call::Store(path, date, content, number, page) => {
                check_page(page).and_then(|()| tree.store(path, date, content, *number))
            }
            Call::LinksRead(directory, numbers) => tree.links_read(directory, numbers),
            Call::LinksWrite(directory, date, numbers) => {
                tree.links_write(directory, date, numbers)
            }
            Call::LinksFind(directory, count, value) => tree.links_find(directory, *count, *value),
            Call::LinksCheck(directory) => tree.links_check(directory),
            // On a sound image there is nothing to mend.
            Call::Repair => Ok(Answer::granted()),
            _ => tree.step(call),
        };
        result.into()
    }
}
