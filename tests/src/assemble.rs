//! A sound image of any tree, with its pages in any order and noise wherever
//! the paper leaves bytes free: what a foreign board might have written.

use crate::plain::tree::{Directory, Entry, Node, Tree};
use crate::plain::{
    pages_of_file, BITMAP_AT, CONTENT, DIRECTORY_ENTRIES, ENTRY, PAGE, ROOT_ENTRIES_AT, VERSION_1,
};
use crate::random::Random;

/// Where the pages of an assembled image lie.
#[derive(Clone, Copy, PartialEq, Eq)]
pub enum Order {
    /// The lowest pages first, in the order of the tree.
    Rising,
    Scattered,
}

/// Assembles an image of the tree.
pub fn assemble(tree: &Tree, order: Order, random: &mut Random) -> Vec<u8> {
    let mut image = vec![0; tree.pages * PAGE];
    // An erased chip, a fresh one, or leftovers of earlier use.
    match random.below(3) {
        0 => image.fill(0xFF),
        1 => {}
        _ => random.fill(&mut image),
    }
    let mut pages: Vec<usize> = (1..tree.pages).rev().collect();
    if order == Order::Scattered {
        random.shuffle(&mut pages);
    }
    let mut assembly = Assembly {
        image,
        unused: pages,
        random,
    };
    assembly.directory(ROOT_ENTRIES_AT, &tree.root);
    assembly.header(tree.pages);
    assembly.image
}

struct Assembly<'a> {
    image: Vec<u8>,
    /// Pages not yet owned; the next one is the last.
    unused: Vec<usize>,
    random: &'a mut Random,
}

impl Assembly<'_> {
    fn header(&mut self, pages: usize) {
        let first = [0x5A, 1, (pages / 8) as u8, self.unused.len() as u8];
        self.image[..4].copy_from_slice(&first);
        self.image[BITMAP_AT..BITMAP_AT + pages / 8].fill(0xFF);
        for page in &self.unused {
            self.image[BITMAP_AT + page / 8] &= !(1 << (page % 8));
        }
    }

    fn take_page(&mut self) -> usize {
        self.unused.pop().expect("the tree fits its pages")
    }

    fn directory(&mut self, at: usize, directory: &Directory) {
        let places = (at..).step_by(ENTRY);
        let (mut occupied, mut free) = (Vec::new(), Vec::new());
        for (at, entry) in places.zip(&directory.entries) {
            match entry {
                Some(entry) => {
                    self.entry(at, entry);
                    occupied.push(at);
                }
                None => free.push(at),
            }
        }
        for at in free {
            // It may hold anything, also what an occupied one does.
            if !occupied.is_empty() && self.random.chance(1, 3) {
                let other = *self.random.pick(&occupied);
                self.image.copy_within(other..other + ENTRY, at);
            }
            self.image[at] &= 0x7F;
        }
    }

    fn entry(&mut self, at: usize, entry: &Entry) {
        let (kind_bit, start) = match &entry.node {
            Node::File(file) => (0, self.content(&file.content)),
            Node::Directory(directory) => {
                let page = self.take_page();
                self.directory(page * PAGE, directory);
                (1, page)
            }
        };
        let mut reserved_flags = match self.random.below(3) {
            0 => self.random.byte() & 0x7E,
            _ => 0,
        };
        // Bit 6 is the lock of a file; a directory's means nothing.
        if let Node::File(file) = &entry.node {
            reserved_flags = reserved_flags & !0x40 | u8::from(file.locked) << 6;
        }
        let bytes = &mut self.image[at..at + ENTRY];
        bytes[0] = 0x80 | reserved_flags | kind_bit;
        bytes[1..17].copy_from_slice(&entry.padded_name());
        bytes[17] = start as u8;
        bytes[18..20].copy_from_slice(&(entry.node.size(&VERSION_1) as u16).to_le_bytes());
        bytes[20..28].copy_from_slice(&entry.date);
    }

    /// Writes the chain of a file and answers its start page.
    fn content(&mut self, content: &[u8]) -> usize {
        let pages = pages_of_file(content.len());
        let chain: Vec<usize> = (0..pages).map(|_| self.take_page()).collect();
        let links = chain.iter().skip(1).copied().chain([0]);
        for (&page, link) in chain.iter().zip(links) {
            self.image[page * PAGE] = link as u8;
        }
        for (piece, &page) in content.chunks(CONTENT).zip(&chain) {
            let from = page * PAGE + 1;
            self.image[from..from + piece.len()].copy_from_slice(piece);
        }
        chain[0]
    }
}

/// A tree that is a nest of `depth` directories, each the only entry of the
/// one above, all of names of `name_length` bytes.
pub fn nest(pages: usize, depth: usize, name_length: usize) -> Tree {
    let mut tree = Tree::empty(pages);
    let mut directory = &mut tree.root;
    for _ in 0..depth {
        directory.entries[0] = Some(Entry {
            name: vec![b'D'; name_length],
            date: [0; 8],
            node: Node::Directory(Directory::empty(DIRECTORY_ENTRIES)),
        });
        directory = match &mut directory.entries[0] {
            Some(Entry {
                node: Node::Directory(below),
                ..
            }) => below,
            _ => unreachable!("it was just made a directory"),
        };
    }
    tree
}

#[cfg(test)]
mod tests {
    use super::*;
    use crate::generate::random_tree;
    use crate::plain::reader::judge;

    #[test]
    fn an_assembled_image_means_its_tree() {
        let mut random = Random::new(3);
        for round in 0..500 {
            let pages = 8 * random.between(1, 32);
            let tree = match round % 10 {
                0 => nest(pages, pages - 1, 16),
                _ => random_tree(pages, &mut random),
            };
            for order in [Order::Rising, Order::Scattered] {
                let image = assemble(&tree, order, &mut random);
                assert_eq!(judge(&image), Ok(tree.clone()));
            }
        }
    }
}
