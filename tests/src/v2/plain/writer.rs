//! The bytes of an image after a granted call. The image is sound and the tree
//! has granted the call beforehand; every byte not named here stays.

use crate::calls::{Kind, DATE_BYTES, NAME_BYTES};
use crate::plain::path::{parse, Name};
use crate::plain::writer::has_name;
use crate::v2::layout::{Layout, BITMAP_AT, BITMAP_BYTES, CODE, DATE_AT, ENTRY, NAME_AT};

const GRANTED: &str = "the tree has granted the call";

/// An image and its layout.
pub struct Writer<'a> {
    pub image: &'a mut [u8],
    pub layout: Layout,
}

impl Writer<'_> {
    /// Writes the header page and the table of an empty image.
    pub fn format(&mut self) {
        let Layout {
            pages, page, aside, ..
        } = self.layout;
        self.image[..aside * page].fill(0);
        self.image[..2].copy_from_slice(&[0x5A, 2]);
        BITMAP_BYTES.put(self.image, pages / 8);
        CODE.put(self.image, self.layout.code);
        self.layout.free.put(self.image, pages - aside);
        for page in 0..aside {
            self.image[BITMAP_AT + page / 8] += 1 << (page % 8);
        }
    }

    /// Fills the lowest empty entry of the parent, which gets a page more if it
    /// has none: that page comes before the entry's own.
    pub fn make(&mut self, path: &[u8], date: &[u8], kind: Kind) {
        let names = parse(path).expect(GRANTED);
        let (last, parents) = names.split_last().expect(GRANTED);
        let pages = self.directory_pages(parents);
        let mut places = self.places(&pages);
        let at = match places.find(|&at| !self.is_occupied(at)) {
            Some(at) => at,
            None => {
                let page = self.join(*pages.last().expect("a directory has a page"));
                self.layout.entries_at(page)
            }
        };
        let (flags, size) = match kind {
            Kind::File => (0x80, 0),
            Kind::Directory => (0x81, self.layout.directory_size),
        };
        let start = self.allocate();
        let entry = &mut self.image[at..at + ENTRY];
        entry.fill(0);
        entry[0] = flags;
        entry[NAME_AT..NAME_AT + last.bytes.len()].copy_from_slice(last.bytes);
        self.layout.start.put(entry, start);
        self.layout.size.put(entry, size);
        entry[DATE_AT..DATE_AT + DATE_BYTES].copy_from_slice(date);
    }

    /// Replaces bytes of a file and lengthens it.
    pub fn write(&mut self, path: &[u8], position: usize, bytes: &[u8]) {
        if bytes.is_empty() {
            return;
        }
        let at = self.entry_at(path);
        let entry = &self.image[at..at + ENTRY];
        let size = self.layout.size.of(entry);
        let new_size = size.max(position + bytes.len());
        let mut chain = self.chain(self.layout.start.of(entry));
        let pages = self.layout.shape().pages_of_file(new_size);
        while chain.len() < pages {
            let page = self.join(*chain.last().expect("a file has a page"));
            chain.push(page);
        }
        let content = self.layout.content;
        for (offset, &byte) in bytes.iter().enumerate() {
            let place = position + offset;
            self.image[chain[place / content] * self.layout.page + place % content] = byte;
        }
        let entry = &mut self.image[at..at + ENTRY];
        self.layout.size.put(entry, new_size);
    }

    /// Empties the entry of a file or an empty directory and frees its pages,
    /// which keep their bytes and links.
    pub fn remove(&mut self, path: &[u8]) {
        let at = self.entry_at(path);
        let start = self.layout.start.of(&self.image[at..at + ENTRY]);
        for page in self.chain(start) {
            self.release(page);
        }
        self.image[at] = 0;
    }

    /// Sets or clears bit 6 of a file's flags.
    pub fn set_lock(&mut self, path: &[u8], locked: bool) {
        let at = self.entry_at(path);
        let others = self.image[at] & !0x40;
        self.image[at] = others | if locked { 0x40 } else { 0 };
    }

    /// Where the entry of the path is, which is not the root's.
    pub fn entry_at(&self, path: &[u8]) -> usize {
        self.entry_of(&parse(path).expect(GRANTED))
    }

    /// The pages of the directory at the path.
    pub fn pages_at(&self, path: &[u8]) -> Vec<usize> {
        self.directory_pages(&parse(path).expect(GRANTED))
    }

    /// Takes the lowest free page, zeroes it and gives it link 0.
    pub fn allocate(&mut self) -> usize {
        let mut pages = 0..self.layout.pages;
        let page = pages.find(|&page| !self.layout.is_allocated(self.image, page));
        let page = page.expect(GRANTED);
        let from = page * self.layout.page;
        self.image[from..from + self.layout.page].fill(0);
        self.image[BITMAP_AT + page / 8] |= 1 << (page % 8);
        self.count(-1);
        self.layout.link(page).put(self.image, 0);
        page
    }

    /// Takes a page to follow the last one of a chain.
    pub fn join(&mut self, last: usize) -> usize {
        let page = self.allocate();
        self.layout.link(last).put(self.image, page);
        page
    }

    /// Marks a page as free.
    pub fn release(&mut self, page: usize) {
        self.image[BITMAP_AT + page / 8] &= !(1 << (page % 8));
        self.count(1);
    }

    fn count(&mut self, more: isize) {
        let free = self.layout.free.of(self.image);
        let free = free.wrapping_add_signed(more);
        self.layout.free.put(self.image, free);
    }

    fn is_occupied(&self, at: usize) -> bool {
        self.image[at] & 0x80 != 0
    }

    /// The pages from `start` on to a link that is 0.
    pub fn chain(&self, start: usize) -> Vec<usize> {
        let mut pages = vec![start];
        let mut page = self.layout.link(start).of(self.image);
        while page != 0 {
            pages.push(page);
            page = self.layout.link(page).of(self.image);
        }
        pages
    }

    /// The pages of the directory at the end of the walk.
    fn directory_pages(&self, names: &[Name]) -> Vec<usize> {
        if names.is_empty() {
            return self.chain(0);
        }
        let at = self.entry_of(names);
        self.chain(self.layout.start.of(&self.image[at..at + ENTRY]))
    }

    /// Where the entries of a directory on these pages begin.
    fn places<'p>(&self, pages: &'p [usize]) -> impl Iterator<Item = usize> + 'p {
        let layout = self.layout;
        pages
            .iter()
            .flat_map(move |&page| layout.entry_places(page))
    }

    /// Where the entry at the end of the walk is.
    fn entry_of(&self, names: &[Name]) -> usize {
        let (last, parents) = names.split_last().expect(GRANTED);
        let pages = self.directory_pages(parents);
        let mut places = self.places(&pages);
        let named = |&at: &usize| {
            let name = &self.image[at + NAME_AT..at + NAME_AT + NAME_BYTES];
            self.is_occupied(at) && has_name(name, last)
        };
        places.find(named).expect(GRANTED)
    }
}
