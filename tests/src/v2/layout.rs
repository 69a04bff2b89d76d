//! Where things stand in an image of version 2, by its length and page code:
//! document 001's second edition and document 02 §12 in numbers.

use crate::calls::Refusal;
use crate::plain::tree::Shape;

/// Bytes of an entry.
pub const ENTRY: usize = 32;
/// Where an entry's name stands in it, in 16 bytes.
pub const NAME_AT: usize = 1;
/// Where an entry's date stands in it, in 8 bytes.
pub const DATE_AT: usize = 23;
/// Where the bitmap begins in the header.
pub const BITMAP_AT: usize = 7;

/// A number in some bytes, the low one first.
#[derive(Clone, Copy, Debug, PartialEq, Eq)]
pub struct Field {
    pub at: usize,
    pub bytes: usize,
}

impl Field {
    /// The number that stands in this field of `bytes`.
    pub fn of(self, bytes: &[u8]) -> usize {
        let digits = bytes[self.at..self.at + self.bytes].iter().rev();
        digits.fold(0, |number, &byte| number * 256 + usize::from(byte))
    }

    /// Puts a number there.
    pub fn put(self, bytes: &mut [u8], number: usize) {
        let digits = &number.to_le_bytes()[..self.bytes];
        bytes[self.at..self.at + self.bytes].copy_from_slice(digits);
    }
}

/// The bitmap's bytes, in the header.
pub const BITMAP_BYTES: Field = Field { at: 2, bytes: 2 };
/// The page code, in the header.
pub const CODE: Field = Field { at: 6, bytes: 1 };

/// The layout of an image.
#[derive(Clone, Copy, Debug, PartialEq, Eq)]
pub struct Layout {
    /// N.
    pub pages: usize,
    pub code: usize,
    /// Bytes of a page.
    pub page: usize,
    /// The header page and the table's.
    pub aside: usize,
    /// Where the table of links begins.
    pub table_at: usize,
    /// Bytes of a link.
    pub link_bytes: usize,
    /// Bytes from one link to the next.
    pub link_step: usize,
    /// Where the root's entries begin in page 0.
    pub root_at: usize,
    /// Bytes of content on a page of a file.
    pub content: usize,
    /// The size in a directory's entry.
    pub directory_size: usize,
    /// The number of free pages, in the header.
    pub free: Field,
    /// The start page, in an entry.
    pub start: Field,
    /// The size, in an entry.
    pub size: Field,
}

/// Refusal 1 for a length that no image of version 2 has.
pub fn check_length(length: usize) -> Result<(), Refusal> {
    let allowed = (2048..=1_048_576).contains(&length) && length.is_multiple_of(2048);
    if allowed {
        Ok(())
    } else {
        Err(Refusal::number(1))
    }
}

/// The layout of an image of an allowed length with that page code; or refusal
/// 26 for a code that does not go with the length.
pub fn layout(length: usize, code: u64) -> Result<Layout, Refusal> {
    let least = match length {
        0..=65_536 => 0,
        65_537..=262_144 => 1,
        _ => 2,
    };
    let is_code = (least..=2).contains(&code);
    let page = if is_code { 256 << code } else { 256 };
    if !is_code || !length.is_multiple_of(8 * page) {
        return Err(Refusal::number(26));
    }
    Ok(laid_out(length, code as usize))
}

/// The same numbers for any code, also for one that does not go with it.
pub fn laid_out(length: usize, code: usize) -> Layout {
    let page = 256 << code;
    let pages = length / page;
    let is_wide = length > 65_536;
    let link_bytes = if is_wide { 2 } else { 1 };
    Layout {
        pages,
        code,
        page,
        aside: if is_wide { 3 } else { 2 },
        table_at: page,
        link_bytes,
        link_step: link_bytes,
        root_at: (BITMAP_AT + pages / 8).next_multiple_of(ENTRY),
        content: page,
        directory_size: page,
        free: Field { at: 4, bytes: 2 },
        start: Field { at: 17, bytes: 2 },
        size: Field { at: 19, bytes: 4 },
    }
}

impl Layout {
    /// The link of a page.
    pub fn link(&self, page: usize) -> Field {
        Field {
            at: self.table_at + page * self.link_step,
            bytes: self.link_bytes,
        }
    }

    /// Where the entries of a page of a directory begin; page 0 is the root's.
    pub fn entries_at(&self, page: usize) -> usize {
        match page {
            0 => self.root_at,
            _ => page * self.page,
        }
    }

    /// Where each of those entries begins.
    pub fn entry_places(&self, page: usize) -> impl Iterator<Item = usize> {
        (self.entries_at(page)..(page + 1) * self.page).step_by(ENTRY)
    }

    /// Whether the bitmap marks the page as allocated.
    pub fn is_allocated(&self, image: &[u8], page: usize) -> bool {
        image[BITMAP_AT + page / 8] >> (page % 8) & 1 == 1
    }

    /// The shape of the tree of such an image.
    pub fn shape(&self) -> Shape {
        Shape {
            aside: self.aside,
            page: self.directory_size,
            content: self.content,
            root_entries: (self.page - self.root_at) / ENTRY,
            page_entries: self.page / ENTRY,
            grows: true,
        }
    }
}
