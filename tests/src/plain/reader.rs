//! The judge: reads an image into the tree, or tells its first fault, in the
//! order of document 02 §2.

use super::path::is_legal_name;
use super::tree::{Directory, Entry, File, Node, Tree};
use super::{pages_of_file, pages_of_image, VERSION_1};
use super::{BITMAP_AT, CONTENT, DIRECTORY_ENTRIES, ENTRY, PAGE, ROOT_ENTRIES, ROOT_ENTRIES_AT};
use crate::calls::{Refusal, NAME_BYTES, OWNERS};

/// The tree that a sound image means; else refusal 1, 2, 3 or 16 to 20.
pub fn judge(image: &[u8]) -> Result<Tree, Refusal> {
    judge_all(image).map(|(tree, _)| tree)
}

/// Who owns each page of a sound image: 1 the header, else where the owner's
/// entry begins, and 0 for nobody.
pub fn owner_row(image: &[u8]) -> Result<[u64; OWNERS], Refusal> {
    let (_, reader) = judge_all(image)?;
    let mut row = [0; OWNERS];
    for (number, owner) in row.iter_mut().zip(reader.owners) {
        *number = owner.map_or(0, |entry| entry.at() as u64);
    }
    row[0] = 1;
    Ok(row)
}

/// The walk and what comes after it.
fn judge_all(image: &[u8]) -> Result<(Tree, Reader<'_>), Refusal> {
    let (tree, reader) = walk(image)?;
    reader.judge_lost_pages()?;
    reader.judge_header()?;
    Ok((tree, reader))
}

/// The tree of an image whose walk is clean, and which pages entries own,
/// whatever other pages, bit 0 and byte 3 are; else refusal 1, 2, 16, 17, 18
/// or 20.
pub fn tree_and_owned(image: &[u8]) -> Result<(Tree, Vec<bool>), Refusal> {
    let (tree, reader) = walk(image)?;
    let owned = (0..tree.pages).map(|page| reader.is_owned(page));
    Ok((tree, owned.collect()))
}

fn walk(image: &[u8]) -> Result<(Tree, Reader<'_>), Refusal> {
    let pages = pages_of_image(image.len())?;
    let in_use = (pages / 8) as u8;
    if image[..3] != [0x5A, 1, in_use] {
        return Err(Refusal::number(2));
    }
    let mut reader = Reader {
        image,
        owners: vec![None; pages],
    };
    let root = reader.directory(0)?;
    let shape = VERSION_1;
    Ok((Tree { pages, shape, root }, reader))
}

/// Whether the page is allocated by the bitmap.
pub fn is_allocated(image: &[u8], page: usize) -> bool {
    image[BITMAP_AT + page / 8] >> (page % 8) & 1 == 1
}

/// Which entry it is: the page of its directory, 0 for the root, and its
/// number there.
#[derive(Clone, Copy)]
struct Place {
    directory: usize,
    number: usize,
}

impl Place {
    /// Where the entry begins.
    fn at(self) -> usize {
        let entries_at = match self.directory {
            0 => ROOT_ENTRIES_AT,
            page => page * PAGE,
        };
        entries_at + self.number * ENTRY
    }

    /// The 32 bytes of the entry.
    fn bytes(self, image: &[u8]) -> &[u8] {
        &image[self.at()..self.at() + ENTRY]
    }

    fn bad_entry(self) -> Refusal {
        Refusal::at_entry(self.directory, self.number)
    }

    fn bad_chain(self, passed: usize) -> Refusal {
        Refusal::at_chain(self.directory, self.number, passed)
    }
}

struct Reader<'a> {
    image: &'a [u8],
    /// The entry that has been found to own each page of the image, if one has.
    owners: Vec<Option<Place>>,
}

impl Reader<'_> {
    fn is_owned(&self, page: usize) -> bool {
        self.owners[page].is_some()
    }

    /// The directory on that page.
    fn directory(&mut self, page: usize) -> Result<Directory, Refusal> {
        let count = match page {
            0 => ROOT_ENTRIES,
            _ => DIRECTORY_ENTRIES,
        };
        let mut entries = Vec::with_capacity(count);
        for number in 0..count {
            let place = Place {
                directory: page,
                number,
            };
            let entry = self.entry(place, &entries)?;
            entries.push(entry);
        }
        Ok(Directory { entries })
    }

    /// The entry there, after the `earlier` ones of its directory.
    fn entry(&mut self, place: Place, earlier: &[Option<Entry>]) -> Result<Option<Entry>, Refusal> {
        let bytes = place.bytes(self.image);
        let is_occupied = bytes[0] & 0x80 != 0;
        if !is_occupied {
            return Ok(None);
        }
        let name = stored_name(&bytes[1..1 + NAME_BYTES]).ok_or(place.bad_entry())?;
        if earlier.iter().flatten().any(|other| other.name == name) {
            return Err(place.bad_entry());
        }
        let start = usize::from(bytes[17]);
        let size = usize::from(u16::from_le_bytes([bytes[18], bytes[19]]));
        let date = bytes[20..28].try_into().expect("a date has 8 bytes");
        let is_directory = bytes[0] & 0x01 != 0;
        let node = if is_directory {
            if size != 0x0100 {
                return Err(place.bad_entry());
            }
            self.own(start, place, 0)?;
            Node::Directory(self.directory(start)?)
        } else {
            Node::File(File {
                content: self.content(start, size, place)?,
                locked: bytes[0] & 0x40 != 0,
            })
        };
        Ok(Some(Entry { name, date, node }))
    }

    /// Takes a page for the entry, of whose pages so many have passed.
    fn own(&mut self, page: usize, place: Place, passed: usize) -> Result<(), Refusal> {
        let in_range = 1..self.owners.len();
        if !in_range.contains(&page) {
            return Err(place.bad_chain(passed));
        }
        if self.is_owned(page) {
            return Err(Refusal::at_page(18, page));
        }
        if !is_allocated(self.image, page) {
            return Err(Refusal::at_page(20, page));
        }
        self.owners[page] = Some(place);
        Ok(())
    }

    /// The content of a file, by its chain of pages.
    fn content(&mut self, start: usize, size: usize, place: Place) -> Result<Vec<u8>, Refusal> {
        let mut content = Vec::with_capacity(size);
        let count = pages_of_file(size);
        let mut page = start;
        for passed in 0..count {
            // A chain that ends early comes to page 0, which is out of range.
            self.own(page, place, passed)?;
            let bytes = &self.image[page * PAGE..(page + 1) * PAGE];
            let wanted = (size - content.len()).min(CONTENT);
            content.extend_from_slice(&bytes[1..1 + wanted]);
            page = usize::from(bytes[0]);
        }
        let last_link = page;
        if last_link != 0 {
            return Err(place.bad_chain(count));
        }
        Ok(content)
    }

    /// After the walk every page that is marked has an owner. Page 0 is the
    /// header's, whatever its bit says.
    fn judge_lost_pages(&self) -> Result<(), Refusal> {
        let is_lost = |&page: &usize| is_allocated(self.image, page) && !self.is_owned(page);
        match (1..self.owners.len()).find(is_lost) {
            Some(page) => Err(Refusal::at_page(19, page)),
            None => Ok(()),
        }
    }

    /// Bit 0 and byte 3.
    fn judge_header(&self) -> Result<(), Refusal> {
        let pages = 0..self.owners.len();
        let zero_bits = pages.filter(|&page| !is_allocated(self.image, page));
        let is_counted = zero_bits.count() == usize::from(self.image[3]);
        if is_counted && is_allocated(self.image, 0) {
            Ok(())
        } else {
            Err(Refusal::number(3))
        }
    }
}

/// The name in the 16 name bytes, without its padding; None if it isn't legal.
pub fn stored_name(bytes: &[u8]) -> Option<Vec<u8>> {
    let length = bytes.iter().position(|&byte| byte == 0);
    let (name, padding) = bytes.split_at(length.unwrap_or(bytes.len()));
    let is_good = is_legal_name(name) && padding.iter().all(|&byte| byte == 0);
    is_good.then(|| name.to_vec())
}
