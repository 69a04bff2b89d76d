//! The judge: reads an image into the tree, or tells its first fault, in the
//! order of document 02 §2 with what §12 says of version 2.

use super::Lay;
use crate::calls::{Refusal, DATE_BYTES, NAME_BYTES};
use crate::plain::reader::stored_name;
use crate::plain::tree::{Directory, Entry, File, Node, Tree};
use crate::v2::layout::{check_length, Layout, BITMAP_BYTES, CODE, DATE_AT, ENTRY, NAME_AT};

/// What stands for an entry's number where the root's own links are at fault.
const ROOT_LINKS: usize = 255;

/// The tree that a sound image means, and its layout; else refusal 1, 2, 26, 3
/// or 16 to 20.
pub fn judge(image: &[u8], lay: Lay) -> Result<(Tree, Layout), Refusal> {
    let layout = judge_header(image, lay)?;
    let mut reader = Reader {
        image,
        layout,
        is_owned: vec![false; layout.pages],
    };
    let root = reader.root()?;
    reader.judge_lost_pages()?;
    reader.judge_counts()?;
    let tree = Tree {
        pages: layout.pages,
        shape: layout.shape(),
        root,
    };
    Ok((tree, layout))
}

/// Lines 1, 2 and 26.
fn judge_header(image: &[u8], lay: Lay) -> Result<Layout, Refusal> {
    check_length(image.len())?;
    if image[..2] != [0x5A, 2] {
        return Err(Refusal::number(2));
    }
    let layout = lay(image.len(), CODE.of(image) as u64)?;
    if BITMAP_BYTES.of(image) != layout.pages / 8 {
        return Err(Refusal::number(26));
    }
    Ok(layout)
}

/// Where an entry is: its own page, and its number there.
#[derive(Clone, Copy)]
struct Place {
    page: usize,
    number: usize,
}

impl Place {
    fn bad_entry(self) -> Refusal {
        Refusal::at_entry(self.page, self.number)
    }

    fn bad_chain(self, passed: usize) -> Refusal {
        Refusal::at_chain(self.page, self.number, passed)
    }
}

struct Reader<'a> {
    image: &'a [u8],
    layout: Layout,
    /// Whether the root or an entry has been found to own each page.
    is_owned: Vec<bool>,
}

impl Reader<'_> {
    fn link(&self, page: usize) -> usize {
        self.layout.link(page).of(self.image)
    }

    /// The root: its links after page 0, then its entries.
    fn root(&mut self) -> Result<Directory, Refusal> {
        let place = Place {
            page: 0,
            number: ROOT_LINKS,
        };
        let first = self.link(0);
        let mut pages = vec![0];
        if first != 0 {
            pages.extend(self.chain_to_end(first, place)?);
        }
        self.entries(&pages)
    }

    /// The pages of a directory, which go on to a link that is 0.
    fn chain_to_end(&mut self, start: usize, place: Place) -> Result<Vec<usize>, Refusal> {
        let mut pages = Vec::new();
        let mut page = start;
        loop {
            self.own(page, place, pages.len())?;
            pages.push(page);
            page = self.link(page);
            if page == 0 {
                return Ok(pages);
            }
        }
    }

    /// The pages of a file: as many as its size wants, and no more.
    fn chain_of(
        &mut self,
        start: usize,
        count: usize,
        place: Place,
    ) -> Result<Vec<usize>, Refusal> {
        let mut pages = Vec::new();
        let mut page = start;
        while pages.len() < count {
            // A chain that ends early comes to page 0, which is out of range.
            self.own(page, place, pages.len())?;
            pages.push(page);
            page = self.link(page);
        }
        let last_link = page;
        if last_link != 0 {
            return Err(place.bad_chain(count));
        }
        Ok(pages)
    }

    /// Takes a page for an owner, of whose pages so many have passed.
    fn own(&mut self, page: usize, place: Place, passed: usize) -> Result<(), Refusal> {
        let in_range = self.layout.aside..self.layout.pages;
        if !in_range.contains(&page) {
            return Err(place.bad_chain(passed));
        }
        if self.is_owned[page] {
            return Err(Refusal::at_page(18, page));
        }
        if !self.layout.is_allocated(self.image, page) {
            return Err(Refusal::at_page(20, page));
        }
        self.is_owned[page] = true;
        Ok(())
    }

    /// The directory on these pages.
    fn entries(&mut self, pages: &[usize]) -> Result<Directory, Refusal> {
        let mut entries = Vec::new();
        for &page in pages {
            for (number, at) in self.layout.entry_places(page).enumerate() {
                let entry = self.entry(Place { page, number }, at, &entries)?;
                entries.push(entry);
            }
        }
        Ok(Directory { entries })
    }

    /// The entry there, after the `earlier` ones of its directory.
    fn entry(
        &mut self,
        place: Place,
        at: usize,
        earlier: &[Option<Entry>],
    ) -> Result<Option<Entry>, Refusal> {
        let bytes = &self.image[at..at + ENTRY];
        let is_occupied = bytes[0] & 0x80 != 0;
        if !is_occupied {
            return Ok(None);
        }
        let name = &bytes[NAME_AT..NAME_AT + NAME_BYTES];
        let name = stored_name(name).ok_or(place.bad_entry())?;
        if earlier.iter().flatten().any(|other| other.name == name) {
            return Err(place.bad_entry());
        }
        let start = self.layout.start.of(bytes);
        let size = self.layout.size.of(bytes);
        let date = &bytes[DATE_AT..DATE_AT + DATE_BYTES];
        let date = date.try_into().expect("a date has 8 bytes");
        let is_directory = bytes[0] & 0x01 != 0;
        let node = if is_directory {
            if size != self.layout.directory_size {
                return Err(place.bad_entry());
            }
            let pages = self.chain_to_end(start, place)?;
            Node::Directory(self.entries(&pages)?)
        } else {
            let count = self.layout.shape().pages_of_file(size);
            let pages = self.chain_of(start, count, place)?;
            Node::File(File {
                content: self.content(&pages, size),
                locked: bytes[0] & 0x40 != 0,
            })
        };
        Ok(Some(Entry { name, date, node }))
    }

    /// The content of a file on these pages.
    fn content(&self, pages: &[usize], size: usize) -> Vec<u8> {
        let mut content = Vec::with_capacity(size);
        for page in pages {
            let wanted = (size - content.len()).min(self.layout.content);
            let from = page * self.layout.page;
            content.extend_from_slice(&self.image[from..from + wanted]);
        }
        content
    }

    /// After the walk every page that is marked has an owner. Pages set aside
    /// are never lost.
    fn judge_lost_pages(&self) -> Result<(), Refusal> {
        let is_lost =
            |&page: &usize| self.layout.is_allocated(self.image, page) && !self.is_owned[page];
        match (self.layout.aside..self.layout.pages).find(is_lost) {
            Some(page) => Err(Refusal::at_page(19, page)),
            None => Ok(()),
        }
    }

    /// The bits of the pages set aside, and the count.
    fn judge_counts(&self) -> Result<(), Refusal> {
        let is_allocated = |&page: &usize| self.layout.is_allocated(self.image, page);
        let are_marked = (0..self.layout.aside).all(|page| is_allocated(&page));
        let zero_bits = (0..self.layout.pages).filter(|page| !is_allocated(page));
        if are_marked && zero_bits.count() == self.layout.free.of(self.image) {
            Ok(())
        } else {
            Err(Refusal::number(3))
        }
    }
}
