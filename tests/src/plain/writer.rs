//! The bytes of an image after a granted call. The image is sound and the tree
//! has granted the call beforehand; every byte not named here stays.

use super::path::{parse, Name};
use super::reader::is_allocated;
use super::{
    pages_of_file, BITMAP_AT, CONTENT, DIRECTORY_ENTRIES, ENTRY, PAGE, ROOT_ENTRIES,
    ROOT_ENTRIES_AT,
};
use crate::calls::Kind;
use std::ops::Range;

const GRANTED: &str = "the tree has granted the call";

/// Writes the header page of an empty image.
pub fn format(image: &mut [u8], pages: usize) {
    let header = &mut image[..PAGE];
    header.fill(0);
    let first = [0x5A, 1, (pages / 8) as u8, (pages - 1) as u8, 1];
    header[..first.len()].copy_from_slice(&first);
}

/// Fills the lowest empty entry of the parent.
pub fn make(image: &mut [u8], path: &[u8], date: &[u8], kind: Kind) {
    let names = parse(path).expect(GRANTED);
    let (last, parents) = names.split_last().expect(GRANTED);
    let entries = entries_of(image, parents);
    let mut places = entry_places(entries);
    let at = places.find(|&at| !is_occupied(image, at)).expect(GRANTED);
    let (flags, start, size) = match kind {
        Kind::File => (0x80, allocate(image), 0),
        Kind::Directory => (0x81, allocate(image), 0x0100_u16),
    };
    let entry = &mut image[at..at + ENTRY];
    entry.fill(0);
    entry[0] = flags;
    entry[1..1 + last.bytes.len()].copy_from_slice(last.bytes);
    entry[17] = start as u8;
    entry[18..20].copy_from_slice(&size.to_le_bytes());
    entry[20..28].copy_from_slice(date);
}

/// Replaces bytes of a file and lengthens it.
pub fn write(image: &mut [u8], path: &[u8], position: usize, bytes: &[u8]) {
    if bytes.is_empty() {
        return;
    }
    let at = entry_at(image, path);
    let size = size_of(image, at);
    let new_size = size.max(position + bytes.len());
    let mut chain = chain_of(image, at);
    while chain.len() < pages_of_file(new_size) {
        let page = allocate(image);
        let last = chain.last().expect("a file has a page");
        image[last * PAGE] = page as u8;
        chain.push(page);
    }
    for (offset, &byte) in bytes.iter().enumerate() {
        let place = position + offset;
        image[chain[place / CONTENT] * PAGE + 1 + place % CONTENT] = byte;
    }
    image[at + 18] = (new_size % 256) as u8;
    image[at + 19] = (new_size / 256) as u8;
}

/// The stores of a new file, in order, each a page and its bytes: what make and
/// write leave on the pages of its chain, on the header and on the parent's.
pub fn stores(
    image: &[u8],
    path: &[u8],
    date: &[u8],
    content: &[u8],
) -> Vec<(usize, Vec<u8>)> {
    let mut after = image.to_vec();
    make(&mut after, path, date, Kind::File);
    write(&mut after, path, 0, content);
    let at = entry_at(&after, path);
    let mut pages = chain_of(&after, at);
    pages.push(0);
    if at / PAGE != 0 {
        pages.push(at / PAGE);
    }
    let bytes_of = |page: usize| after[page * PAGE..(page + 1) * PAGE].to_vec();
    pages.into_iter().map(|page| (page, bytes_of(page))).collect()
}

/// Empties the entry of a file or an empty directory and frees its pages.
pub fn remove(image: &mut [u8], path: &[u8]) {
    let at = entry_at(image, path);
    let freed = if is_directory(image, at) {
        vec![usize::from(image[at + 17])]
    } else {
        chain_of(image, at)
    };
    for page in freed {
        image[BITMAP_AT + page / 8] -= 1 << (page % 8);
        image[3] += 1;
    }
    image[at] = 0;
}

/// Where the entry of the path is, which is not the root's.
pub fn entry_at(image: &[u8], path: &[u8]) -> usize {
    entry_of(image, &parse(path).expect(GRANTED))
}

/// Sets or clears bit 6 of a file's flags.
pub fn set_lock(image: &mut [u8], path: &[u8], locked: bool) {
    let at = entry_at(image, path);
    let others = image[at] & !0x40;
    image[at] = others | if locked { 0x40 } else { 0 };
}

/// Sets the bit of each page to whether it is the header or owned, and counts
/// the zero bits.
pub fn repair(image: &mut [u8], owned: &[bool]) {
    let mut free = 0;
    for (page, &is_owned) in owned.iter().enumerate() {
        let bit = 1 << (page % 8);
        let byte = &mut image[BITMAP_AT + page / 8];
        if page == 0 || is_owned {
            *byte |= bit;
        } else {
            *byte &= !bit;
            free += 1;
        }
    }
    image[3] = free;
}

/// Takes the lowest free page and zeroes it.
fn allocate(image: &mut [u8]) -> usize {
    let mut pages = 0..image.len() / PAGE;
    let page = pages.find(|&page| !is_allocated(image, page));
    let page = page.expect(GRANTED);
    image[page * PAGE..(page + 1) * PAGE].fill(0);
    image[BITMAP_AT + page / 8] += 1 << (page % 8);
    image[3] -= 1;
    page
}

fn is_occupied(image: &[u8], at: usize) -> bool {
    image[at] & 0x80 != 0
}

fn is_directory(image: &[u8], at: usize) -> bool {
    image[at] & 0x01 != 0
}

fn size_of(image: &[u8], at: usize) -> usize {
    usize::from(image[at + 18]) + 256 * usize::from(image[at + 19])
}

/// The pages of the file whose entry is at `at`.
fn chain_of(image: &[u8], at: usize) -> Vec<usize> {
    let mut chain = Vec::new();
    let mut page = usize::from(image[at + 17]);
    while page != 0 {
        chain.push(page);
        page = usize::from(image[page * PAGE]);
    }
    chain
}

/// The bytes that hold the entries of the directory at the end of the walk.
fn entries_of(image: &[u8], names: &[Name]) -> Range<usize> {
    if names.is_empty() {
        return ROOT_ENTRIES_AT..ROOT_ENTRIES_AT + ROOT_ENTRIES * ENTRY;
    }
    let start = usize::from(image[entry_of(image, names) + 17]) * PAGE;
    start..start + DIRECTORY_ENTRIES * ENTRY
}

fn entry_places(entries: Range<usize>) -> impl Iterator<Item = usize> {
    entries.step_by(ENTRY)
}

/// Where the entry at the end of the walk is.
fn entry_of(image: &[u8], names: &[Name]) -> usize {
    let (last, parents) = names.split_last().expect(GRANTED);
    let mut places = entry_places(entries_of(image, parents));
    let named = |&at: &usize| is_occupied(image, at) && has_name(&image[at + 1..at + 17], last);
    places.find(named).expect(GRANTED)
}

/// Whether the 16 name bytes are that name and its padding.
pub fn has_name(stored: &[u8], name: &Name) -> bool {
    let (begin, padding) = stored.split_at(name.bytes.len());
    begin == name.bytes && padding.iter().all(|&byte| byte == 0)
}
