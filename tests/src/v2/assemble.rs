//! A sound image of any tree of version 2, with its pages in any order and noise
//! wherever the paper leaves bytes free: what a foreign board might have written.

use super::layout::{laid_out, Layout, BITMAP_AT, BITMAP_BYTES, CODE, DATE_AT, ENTRY, NAME_AT};
use crate::assemble::Order;
use crate::calls::{DATE_BYTES, NAME_BYTES};
use crate::plain::tree::{Directory, Entry, Node, Tree};
use crate::random::Random;

/// Assembles an image of the tree.
pub fn assemble(tree: &Tree, order: Order, random: &mut Random) -> Vec<u8> {
    let page = tree.shape.page;
    let code = page.trailing_zeros() as usize - 8;
    let layout = laid_out(tree.pages * page, code);
    let mut image = vec![0; tree.pages * page];
    // An erased chip, a fresh one, or leftovers of earlier use: links of free
    // pages, of the table's own and past N are among them.
    match random.below(3) {
        0 => image.fill(0xFF),
        1 => {}
        _ => random.fill(&mut image),
    }
    let mut pages: Vec<usize> = (layout.aside..layout.pages).rev().collect();
    if order == Order::Scattered {
        random.shuffle(&mut pages);
    }
    let mut assembly = Assembly {
        image,
        layout,
        unused: pages,
        random,
    };
    let beside_header =
        (tree.root.entries.len() - tree.shape.root_entries) / tree.shape.page_entries;
    let mut chain = vec![0];
    chain.extend((0..beside_header).map(|_| assembly.take_page()));
    assembly.directory(&chain, &tree.root);
    assembly.header();
    assembly.image
}

struct Assembly<'a> {
    image: Vec<u8>,
    layout: Layout,
    /// Pages not yet owned; the next one is the last.
    unused: Vec<usize>,
    random: &'a mut Random,
}

impl Assembly<'_> {
    fn header(&mut self) {
        let pages = self.layout.pages;
        self.image[..2].copy_from_slice(&[0x5A, 2]);
        BITMAP_BYTES.put(&mut self.image, pages / 8);
        CODE.put(&mut self.image, self.layout.code);
        self.layout.free.put(&mut self.image, self.unused.len());
        self.image[BITMAP_AT..BITMAP_AT + pages / 8].fill(0xFF);
        for page in &self.unused {
            self.image[BITMAP_AT + page / 8] &= !(1 << (page % 8));
        }
    }

    fn take_page(&mut self) -> usize {
        self.unused.pop().expect("the tree fits its pages")
    }

    /// Links the pages, the last one with 0.
    fn chain(&mut self, pages: &[usize]) {
        let links = pages.iter().skip(1).copied().chain([0]);
        for (&page, link) in pages.iter().zip(links) {
            self.layout.link(page).put(&mut self.image, link);
        }
    }

    /// Writes a directory to these pages.
    fn directory(&mut self, pages: &[usize], directory: &Directory) {
        self.chain(pages);
        let layout = self.layout;
        let places = pages.iter().flat_map(|&page| layout.entry_places(page));
        let (mut occupied, mut free) = (Vec::new(), Vec::new());
        for (at, entry) in places.zip(&directory.entries) {
            match entry {
                Some(entry) => {
                    self.entry(at, entry);
                    occupied.push(at);
                }
                None => free.push(at),
            }
        }
        for at in free {
            // It may hold anything, also what an occupied one does.
            if !occupied.is_empty() && self.random.chance(1, 3) {
                let other = *self.random.pick(&occupied);
                self.image.copy_within(other..other + ENTRY, at);
            }
            self.image[at] &= 0x7F;
        }
    }

    fn entry(&mut self, at: usize, entry: &Entry) {
        let (kind_bit, start, size) = match &entry.node {
            Node::File(file) => (0, self.content(&file.content), file.content.len()),
            Node::Directory(directory) => {
                let count = directory.entries.len() / self.layout.shape().page_entries;
                let pages: Vec<usize> = (0..count).map(|_| self.take_page()).collect();
                self.directory(&pages, directory);
                (1, pages[0], self.layout.directory_size)
            }
        };
        let mut reserved_flags = match self.random.below(3) {
            0 => self.random.byte() & 0x7E,
            _ => 0,
        };
        // Bit 6 is the lock of a file; a directory's means nothing.
        if let Node::File(file) = &entry.node {
            reserved_flags = reserved_flags & !0x40 | u8::from(file.locked) << 6;
        }
        let bytes = &mut self.image[at..at + ENTRY];
        bytes[0] = 0x80 | reserved_flags | kind_bit;
        bytes[NAME_AT..NAME_AT + NAME_BYTES].copy_from_slice(&entry.padded_name());
        self.layout.start.put(bytes, start);
        self.layout.size.put(bytes, size);
        bytes[DATE_AT..DATE_AT + DATE_BYTES].copy_from_slice(&entry.date);
    }

    /// Writes the content of a file and answers its start page.
    fn content(&mut self, content: &[u8]) -> usize {
        let count = self.layout.shape().pages_of_file(content.len());
        let chain: Vec<usize> = (0..count).map(|_| self.take_page()).collect();
        self.chain(&chain);
        for (piece, &page) in content.chunks(self.layout.content).zip(&chain) {
            let from = page * self.layout.page;
            self.image[from..from + piece.len()].copy_from_slice(piece);
        }
        chain[0]
    }
}

#[cfg(test)]
mod tests {
    use super::*;
    use crate::v2::generate::{random_size, random_tree};
    use crate::v2::layout::layout;
    use crate::v2::plain::reader::judge;

    #[test]
    fn an_assembled_image_means_its_tree() {
        let mut random = Random::new(3);
        for _ in 0..300 {
            let (length, code) = random_size(&mut random);
            let tree = random_tree(length, code, &mut random);
            for order in [Order::Rising, Order::Scattered] {
                let image = assemble(&tree, order, &mut random);
                let (read, _) = judge(&image, layout).expect("sound");
                assert_eq!(read, tree);
            }
        }
    }
}
