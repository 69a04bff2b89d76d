//! The calls on the image bytes directly: judge, walk, do. No tree and no
//! allocation; this is what the benchmark measures the library by.
//!
//! [`behind`] has the same calls as functions that C could call, which is how
//! the benchmark calls them; `links` and `tidy` are there for it alone.

pub mod behind;
mod links;
mod tidy;

use crate::calls::{
    Answer, Audit, Base, Calls, Kind, Refusal, DATE_BYTES, DIRECTORY_SIZE, NAME_BYTES, OWNERS,
};

const PAGE: usize = 256;
const CONTENT: usize = 255;
pub(crate) const ENTRY: usize = 32;
const ROOT_AT: usize = 64;
const BITMAP_AT: usize = 4;
pub(crate) const OCCUPIED: u8 = 0x80;
pub(crate) const DIRECTORY: u8 = 0x01;
pub(crate) const LOCKED: u8 = 0x40;
const START: usize = 17;
const SIZE: usize = 18;
const DATE: usize = 20;

pub(crate) type Padded = [u8; NAME_BYTES];

/// The implementation on bytes.
pub struct Direct;

/// What the judge learns of a sound image.
#[derive(Clone, Copy)]
struct Sound {
    pages: usize,
    free: usize,
}

pub(crate) fn refuse<T>(number: u8) -> Result<T, Refusal> {
    Err(Refusal::number(number))
}

// Judging

fn pages_of(length: usize) -> Result<usize, Refusal> {
    if length == 0 || length > 65_536 || !length.is_multiple_of(8 * PAGE) {
        return refuse(1);
    }
    Ok(length / PAGE)
}

/// N, if length and header are right.
fn judge_header(image: &[u8]) -> Result<usize, Refusal> {
    let pages = pages_of(image.len())?;
    if image[0] != 0x5A || image[1] != 1 || usize::from(image[2]) != pages / 8 {
        return refuse(2);
    }
    Ok(pages)
}

fn judge(image: &[u8]) -> Result<Sound, Refusal> {
    let pages = judge_header(image)?;
    let free = judge_pages(image, pages)?;
    Ok(Sound { pages, free })
}

/// The pages, and how many are free.
fn verdict(image: &[u8]) -> Result<[u64; 2], Refusal> {
    judge(image).map(|sound| [sound.pages as u64, sound.free as u64])
}

/// Judges the tree and then the bitmap; answers the number of free pages.
fn judge_pages(image: &[u8], pages: usize) -> Result<usize, Fault> {
    let bitmap = &image[BITMAP_AT..BITMAP_AT + pages / 8];
    let lost = lost_pages(image, pages)?;
    if let Some(byte) = lost.iter().position(|&byte| byte != 0) {
        let bit = lost[byte].trailing_zeros() as usize;
        return Err(Fault::Lost((byte * 8 + bit) as u8));
    }
    let free: u32 = bitmap.iter().map(|byte| byte.count_zeros()).sum();
    if bitmap[0] & 1 == 0 || free != u32::from(image[3]) {
        return Err(Fault::Header);
    }
    Ok(free as usize)
}

/// Judges the tree; answers the bits of the pages that are marked and that
/// nobody owns.
fn lost_pages(image: &[u8], pages: usize) -> Result<[u8; 32], Fault> {
    let bitmap = &image[BITMAP_AT..BITMAP_AT + pages / 8];
    let mut unclaimed = [0; 32];
    unclaimed[..bitmap.len()].copy_from_slice(bitmap);
    // The header's own page is never lost.
    unclaimed[0] &= !1;
    let mut judge = Judge {
        image,
        pages,
        unclaimed,
    };
    judge.directory(0)?;
    Ok(judge.unclaimed)
}

/// The first fault of the tree or the bitmap, in few bytes: every step of the
/// judge hands one up or none.
#[derive(Clone, Copy)]
enum Fault {
    Entry {
        directory: u8,
        number: u8,
    },
    Chain {
        directory: u8,
        number: u8,
        passed: u16,
    },
    OwnedTwice(u8),
    Lost(u8),
    MarkedFree(u8),
    Header,
}

impl From<Fault> for Refusal {
    fn from(fault: Fault) -> Refusal {
        match fault {
            Fault::Entry { directory, number } => {
                Refusal::at_entry(directory.into(), number.into())
            }
            Fault::Chain {
                directory,
                number,
                passed,
            } => Refusal::at_chain(directory.into(), number.into(), passed.into()),
            Fault::OwnedTwice(page) => Refusal::at_page(18, page.into()),
            Fault::Lost(page) => Refusal::at_page(19, page.into()),
            Fault::MarkedFree(page) => Refusal::at_page(20, page.into()),
            Fault::Header => Refusal::number(3),
        }
    }
}

struct Judge<'a> {
    image: &'a [u8],
    pages: usize,
    /// The image's bitmap, less the pages that have found their owner.
    unclaimed: [u8; 32],
}

impl Judge<'_> {
    /// Gives a page its owner; `outside` is the fault if it isn't one of the
    /// pages that may have one.
    fn claim(&mut self, page: u8, outside: Fault) -> Result<(), Fault> {
        let at = usize::from(page);
        if page == 0 || at >= self.pages {
            return Err(outside);
        }
        let (byte, bit) = (at / 8, 1 << (at % 8));
        if self.unclaimed[byte] & bit == 0 {
            // A page that is marked free never found an owner before this one.
            return Err(match self.image[BITMAP_AT + byte] & bit {
                0 => Fault::MarkedFree(page),
                _ => Fault::OwnedTwice(page),
            });
        }
        self.unclaimed[byte] &= !bit;
        Ok(())
    }

    /// Judges the entries of the directory on that page.
    fn directory(&mut self, directory: u8) -> Result<(), Fault> {
        let image = self.image;
        let Entries { from, to } = match directory {
            0 => ROOT,
            page => Entries::of_page(page),
        };
        let entries = &image[from..to];
        for (number, entry) in entries.chunks_exact(ENTRY).enumerate() {
            if entry[0] & OCCUPIED == 0 {
                continue;
            }
            let name = &entry[1..=NAME_BYTES];
            let before = entries[..number * ENTRY].chunks_exact(ENTRY);
            let mut before = before.filter(|other| other[0] & OCCUPIED != 0);
            let is_taken = before.any(|other| other[1..=NAME_BYTES] == *name);
            let number = number as u8;
            if is_taken || !is_padded_name(name) {
                return Err(Fault::Entry { directory, number });
            }
            self.entry(directory, number, entry)?;
        }
        Ok(())
    }

    /// Judges what is behind the name: the pages, and a directory's contents.
    fn entry(&mut self, directory: u8, number: u8, entry: &[u8]) -> Result<(), Fault> {
        let after = |passed| Fault::Chain {
            directory,
            number,
            passed,
        };
        let start = entry[START];
        let size = size_of(entry);
        if entry[0] & DIRECTORY != 0 {
            if size != PAGE {
                return Err(Fault::Entry { directory, number });
            }
            self.claim(start, after(0))?;
            return self.directory(start);
        }
        let wanted = pages_of_file(size) as u16;
        let mut page = start;
        for passed in 0..wanted {
            self.claim(page, after(passed))?;
            page = self.image[usize::from(page) * PAGE];
        }
        match page {
            0 => Ok(()),
            _ => Err(after(wanted)),
        }
    }
}

/// The pages of a file; an empty one has a page too.
fn pages_of_file(size: usize) -> usize {
    size.div_ceil(CONTENT).max(1)
}

pub(crate) fn is_padded_name(name: &[u8]) -> bool {
    let length = name
        .iter()
        .position(|&byte| byte == 0)
        .unwrap_or(name.len());
    let (name, padding) = name.split_at(length);
    !name.is_empty() && name.iter().all(is_name_byte) && padding.iter().all(|&byte| byte == 0)
}

fn is_name_byte(byte: &u8) -> bool {
    matches!(byte, b' '..=b'.' | b'0'..=b'~')
}

fn size_of(entry: &[u8]) -> usize {
    usize::from(u16::from_le_bytes([entry[SIZE], entry[SIZE + 1]]))
}

// Paths and dates

/// A well formed path; the root has no names.
#[derive(Clone, Copy)]
pub(crate) struct Path<'a>(pub(crate) &'a [u8]);

impl<'a> Path<'a> {
    pub(crate) fn check(path: &'a [u8]) -> Result<Path<'a>, Refusal> {
        match path {
            [b'/'] => Ok(Path(&[])),
            [b'/', rest @ ..] => {
                let mut names = rest.split(|&byte| byte == b'/');
                let legal = names.all(|name| {
                    (1..=NAME_BYTES).contains(&name.len()) && name.iter().all(is_name_byte)
                });
                if legal {
                    Ok(Path(path))
                } else {
                    refuse(4)
                }
            }
            _ => refuse(4),
        }
    }

    /// The path without its last name, and where that name begins.
    pub(crate) fn split_last(self) -> Option<(Path<'a>, usize, Padded)> {
        let slash = self.0.iter().rposition(|&byte| byte == b'/')?;
        let name = pad(&self.0[slash + 1..]);
        Some((Path(&self.0[..slash]), slash + 1, name))
    }
}

pub(crate) fn pad(name: &[u8]) -> Padded {
    let mut padded = [0; NAME_BYTES];
    padded[..name.len()].copy_from_slice(name);
    padded
}

pub(crate) fn check_date(date: &[u8]) -> Result<(), Refusal> {
    let is_bcd = |byte: &u8| byte >> 4 <= 9 && byte & 15 <= 9;
    if date.len() != DATE_BYTES || !date.iter().all(is_bcd) {
        return refuse(11);
    }
    // BCD pairs stand in the order of the numbers they mean.
    let day = (0x01..=last_day(date)).contains(&date[3]);
    if day && date[5] <= 0x23 && date[6] <= 0x59 && date[7] <= 0x59 {
        Ok(())
    } else {
        refuse(11)
    }
}

/// The last day of a date's month, in BCD; 0 if there is no such month.
fn last_day(date: &[u8]) -> u8 {
    // The century decides where the year in it is 0. Ten is 2 in fours.
    let years = if date[1] == 0 { date[0] } else { date[1] };
    let is_leap = ((years >> 4) * 2 + (years & 15)) % 4 == 0;
    match date[2] {
        0x02 => 0x28 + u8::from(is_leap),
        0x04 | 0x06 | 0x09 | 0x11 => 0x30,
        0x01..=0x12 => 0x31,
        _ => 0,
    }
}

// Walking

/// The bytes that hold a directory's entries.
#[derive(Clone, Copy)]
struct Entries {
    from: usize,
    to: usize,
}

const ROOT: Entries = Entries {
    from: ROOT_AT,
    to: PAGE,
};

impl Entries {
    fn of_page(page: u8) -> Entries {
        let from = usize::from(page) * PAGE;
        Entries {
            from,
            to: from + PAGE,
        }
    }

    /// Where the entry of that name is.
    fn position(self, image: &[u8], name: &Padded) -> Option<usize> {
        (self.from..self.to)
            .step_by(ENTRY)
            .find(|&at| image[at] & OCCUPIED != 0 && image[at + 1..=at + NAME_BYTES] == *name)
    }

    fn lowest_empty(self, image: &[u8]) -> Option<usize> {
        (self.from..self.to)
            .step_by(ENTRY)
            .find(|&at| image[at] & OCCUPIED == 0)
    }
}

/// Walks all names of the path, each of which has to be a directory's.
fn walk(image: &[u8], path: Path) -> Result<Entries, Refusal> {
    let mut entries = ROOT;
    if path.0.is_empty() {
        return Ok(entries);
    }
    let mut begins = 1;
    for name in path.0[1..].split(|&byte| byte == b'/') {
        let at = entries.position(image, &pad(name));
        let at = at.ok_or(Refusal::at_name(5, begins))?;
        if image[at] & DIRECTORY == 0 {
            return Err(Refusal::at_name(6, begins));
        }
        entries = Entries::of_page(image[at + START]);
        begins += name.len() + 1;
    }
    Ok(entries)
}

/// Where the entry of the path is; None for the root.
fn walk_to_entry(image: &[u8], path: Path) -> Result<Option<usize>, Refusal> {
    let Some((parents, begins, name)) = path.split_last() else {
        return Ok(None);
    };
    let at = walk(image, parents)?.position(image, &name);
    at.map(Some).ok_or(Refusal::at_name(5, begins))
}

/// Where the entry of the file is, and its size.
fn walk_to_file(image: &[u8], path: Path) -> Result<(usize, usize), Refusal> {
    match walk_to_entry(image, path)? {
        Some(at) if image[at] & DIRECTORY == 0 => Ok((at, size_of(&image[at..at + ENTRY]))),
        _ => refuse(7),
    }
}

// Pages

/// Takes the lowest free page, which is there and has its bit in byte `from` of
/// the bitmap or behind it. The page's bytes stay.
fn take(image: &mut [u8], from: usize) -> usize {
    let bitmap = &mut image[BITMAP_AT..BITMAP_AT + 32];
    let byte = bitmap[from..].iter().position(|&byte| byte != 0xFF);
    let byte = from + byte.expect("a page is free");
    let bit = bitmap[byte].trailing_ones() as usize;
    bitmap[byte] |= 1 << bit;
    image[3] -= 1;
    byte * 8 + bit
}

/// The same, and its bytes are zeroed.
fn allocate(image: &mut [u8]) -> u8 {
    let page = take(image, 0);
    image[page * PAGE..(page + 1) * PAGE].fill(0);
    page as u8
}

fn release(image: &mut [u8], page: usize) {
    image[BITMAP_AT + page / 8] &= !(1 << (page % 8));
    image[3] += 1;
}

/// The page that carries the content at `position`, by the chain from `start`.
fn page_at(image: &[u8], start: u8, position: usize) -> usize {
    let mut page = usize::from(start);
    for _ in 0..position / CONTENT {
        page = usize::from(image[page * PAGE]);
    }
    page
}

/// Adds pages to the end of the chain of the file whose entry is at `at`. All of
/// their bytes are about to be written but some of the last one, so that this
/// alone is zeroed.
fn lengthen(image: &mut [u8], at: usize, old_pages: usize, added: usize) {
    let mut last = page_at(image, image[at + START], (old_pages - 1) * CONTENT);
    let mut from = 0;
    for _ in 0..added {
        let page = take(image, from);
        from = page / 8;
        image[last * PAGE] = page as u8;
        last = page;
    }
    if added > 0 {
        image[last * PAGE..(last + 1) * PAGE].fill(0);
    }
}

// Doing

fn format(image: &mut [u8]) -> Result<(), Refusal> {
    let pages = pages_of(image.len())?;
    image[..PAGE].fill(0);
    image[..5].copy_from_slice(&[0x5A, 1, (pages / 8) as u8, (pages - 1) as u8, 1]);
    Ok(())
}

/// What find and list tell of an entry.
#[derive(Clone, Copy)]
pub(crate) struct Told {
    pub(crate) kind: Kind,
    pub(crate) size: u64,
    pub(crate) locked: bool,
    pub(crate) date: [u8; DATE_BYTES],
}

fn told(entry: &[u8]) -> Told {
    Told {
        kind: kind_of(entry),
        size: size_of(entry) as u64,
        locked: is_locked(entry[0]),
        date: date_of(entry),
    }
}

fn find(image: &[u8], path: &[u8]) -> Result<Told, Refusal> {
    judge(image)?;
    let Some(at) = walk_to_entry(image, Path::check(path)?)? else {
        return Ok(Told {
            kind: Kind::Directory,
            size: DIRECTORY_SIZE,
            locked: false,
            date: [0; DATE_BYTES],
        });
    };
    Ok(told(&image[at..at + ENTRY]))
}

/// Whether the flags are those of a locked file.
pub(crate) fn is_locked(flags: u8) -> bool {
    flags & (LOCKED | DIRECTORY) == LOCKED
}

pub(crate) fn kind_of(entry: &[u8]) -> Kind {
    match entry[0] & DIRECTORY {
        0 => Kind::File,
        _ => Kind::Directory,
    }
}

fn date_of(entry: &[u8]) -> [u8; DATE_BYTES] {
    entry[DATE..DATE + DATE_BYTES].try_into().expect("8 bytes")
}

/// None for an empty entry.
fn list(image: &[u8], path: &[u8], number: u64) -> Result<Option<(Padded, Told)>, Refusal> {
    judge(image)?;
    let entries = walk(image, Path::check(path)?)?;
    if number >= ((entries.to - entries.from) / ENTRY) as u64 {
        return refuse(12);
    }
    let at = entries.from + number as usize * ENTRY;
    let entry = &image[at..at + ENTRY];
    if entry[0] & OCCUPIED == 0 {
        return Ok(None);
    }
    let name = entry[1..=NAME_BYTES].try_into().expect("16 bytes");
    Ok(Some((name, told(entry))))
}

/// How many bytes were copied.
fn read(image: &[u8], path: &[u8], position: u64, buffer: &mut [u8]) -> Result<u64, Refusal> {
    judge(image)?;
    let (at, size) = walk_to_file(image, Path::check(path)?)?;
    if position > size as u64 {
        return refuse(12);
    }
    let position = position as usize;
    let count = buffer.len().min(size - position);
    if count == 0 {
        return Ok(0);
    }
    let mut page = page_at(image, image[at + START], position);
    let mut within = position % CONTENT;
    let mut rest = &mut buffer[..count];
    while !rest.is_empty() {
        let length = rest.len().min(CONTENT - within);
        let (now, later) = rest.split_at_mut(length);
        let from = page * PAGE + 1 + within;
        now.copy_from_slice(&image[from..from + length]);
        page = usize::from(image[page * PAGE]);
        within = 0;
        rest = later;
    }
    Ok(count as u64)
}

fn make(image: &mut [u8], path: &[u8], date: &[u8], kind: Kind) -> Result<(), Refusal> {
    let sound = judge(image)?;
    let path = Path::check(path)?;
    check_date(date)?;
    let Some((parents, _, name)) = path.split_last() else {
        return refuse(8);
    };
    let entries = walk(image, parents)?;
    if entries.position(image, &name).is_some() {
        return refuse(8);
    }
    let Some(at) = entries.lowest_empty(image) else {
        return refuse(9);
    };
    if sound.free == 0 {
        return refuse(10);
    }
    let mut entry = [0; ENTRY];
    entry[0] = OCCUPIED;
    entry[START] = allocate(image);
    if kind == Kind::Directory {
        entry[0] |= DIRECTORY;
        entry[SIZE + 1] = 1;
    }
    entry[1..=NAME_BYTES].copy_from_slice(&name);
    entry[DATE..DATE + DATE_BYTES].copy_from_slice(date);
    image[at..at + ENTRY].copy_from_slice(&entry);
    Ok(())
}

fn write(image: &mut [u8], path: &[u8], position: u64, bytes: &[u8]) -> Result<(), Refusal> {
    let sound = judge(image)?;
    let (at, size) = walk_to_file(image, Path::check(path)?)?;
    if is_locked(image[at]) {
        return refuse(25);
    }
    if position > size as u64 {
        return refuse(12);
    }
    let position = position as usize;
    let new_size = size.max(position + bytes.len());
    let old_pages = pages_of_file(size);
    let added = pages_of_file(new_size) - old_pages;
    if added > sound.free {
        return refuse(10);
    }
    if bytes.is_empty() {
        return Ok(());
    }
    lengthen(image, at, old_pages, added);
    image[at + SIZE..at + SIZE + 2].copy_from_slice(&(new_size as u16).to_le_bytes());
    fill(image, image[at + START], position, bytes);
    Ok(())
}

/// Puts bytes into the content of a chain that is long enough.
fn fill(image: &mut [u8], start: u8, position: usize, bytes: &[u8]) {
    let mut page = page_at(image, start, position);
    let mut within = position % CONTENT;
    let mut rest = bytes;
    while !rest.is_empty() {
        let (now, later) = rest.split_at(rest.len().min(CONTENT - within));
        let from = page * PAGE + 1 + within;
        image[from..from + now.len()].copy_from_slice(now);
        page = usize::from(image[page * PAGE]);
        within = 0;
        rest = later;
    }
}

/// Where the entry to be removed is; the root has none.
fn entry_to_remove(image: &[u8], path: Path) -> Result<usize, Refusal> {
    walk_to_entry(image, path)?.ok_or(Refusal::number(14))
}

fn remove_file(image: &mut [u8], path: &[u8]) -> Result<(), Refusal> {
    judge(image)?;
    let at = entry_to_remove(image, Path::check(path)?)?;
    if image[at] & DIRECTORY != 0 {
        return refuse(7);
    }
    if is_locked(image[at]) {
        return refuse(25);
    }
    let mut page = usize::from(image[at + START]);
    while page != 0 {
        release(image, page);
        page = usize::from(image[page * PAGE]);
    }
    image[at] = 0;
    Ok(())
}

fn remove_directory(image: &mut [u8], path: &[u8]) -> Result<(), Refusal> {
    judge(image)?;
    let path = Path::check(path)?;
    let at = entry_to_remove(image, path)?;
    if image[at] & DIRECTORY == 0 {
        let begins = path.split_last().map_or(0, |(_, begins, _)| begins);
        return Err(Refusal::at_name(6, begins));
    }
    let page = usize::from(image[at + START]);
    let mut flags = image[page * PAGE..(page + 1) * PAGE].iter().step_by(ENTRY);
    if flags.any(|flags| flags & OCCUPIED != 0) {
        return refuse(13);
    }
    release(image, page);
    image[at] = 0;
    Ok(())
}

fn set_lock(image: &mut [u8], path: &[u8], locked: bool) -> Result<(), Refusal> {
    judge(image)?;
    let (at, _) = walk_to_file(image, Path::check(path)?)?;
    match locked {
        true => image[at] |= LOCKED,
        false => image[at] &= !LOCKED,
    }
    Ok(())
}

/// The lowest free pages of an image, in order.
fn free_pages(image: &[u8], pages: usize) -> impl Iterator<Item = usize> + '_ {
    (0..pages).filter(|&page| image[BITMAP_AT + page / 8] >> (page % 8) & 1 == 0)
}

/// One store, worked out with no copy of the image; answers its page.
fn store(
    image: &[u8],
    path: &[u8],
    date: &[u8],
    content: &[u8],
    number: u64,
    buffer: &mut [u8],
) -> Result<u64, Refusal> {
    if buffer.len() != PAGE {
        return refuse(29);
    }
    let sound = judge(image)?;
    let path = Path::check(path)?;
    check_date(date)?;
    let Some((parents, _, name)) = path.split_last() else {
        return refuse(8);
    };
    let entries = walk(image, parents)?;
    if entries.position(image, &name).is_some() {
        return refuse(8);
    }
    let Some(at) = entries.lowest_empty(image) else {
        return refuse(9);
    };
    if content.len() > sound.free * CONTENT || sound.free == 0 {
        return refuse(10);
    }
    let wanted = pages_of_file(content.len()) as u64;
    let parent = at / PAGE;
    let last = if parent == 0 { wanted } else { wanted + 1 };
    if number > last {
        return refuse(12);
    }
    let mut free = free_pages(image, sound.pages);
    if number < wanted {
        let number = number as usize;
        let page = free.nth(number).expect("pages enough");
        let is_last = number as u64 + 1 == wanted;
        let link = if is_last { None } else { free.next() };
        buffer[0] = link.unwrap_or(0) as u8;
        let rest = &content[(number * CONTENT).min(content.len())..];
        let here = &rest[..rest.len().min(CONTENT)];
        buffer[1..=here.len()].copy_from_slice(here);
        buffer[1 + here.len()..].fill(0);
        return Ok(page as u64);
    }
    let page = if number == wanted { 0 } else { parent };
    buffer.copy_from_slice(&image[page * PAGE..(page + 1) * PAGE]);
    if page == parent {
        let entry = &mut buffer[at % PAGE..at % PAGE + ENTRY];
        entry.fill(0);
        entry[0] = OCCUPIED;
        entry[1..=NAME_BYTES].copy_from_slice(&name);
        entry[START] = free.next().expect("pages enough") as u8;
        entry[SIZE..SIZE + 2].copy_from_slice(&(content.len() as u16).to_le_bytes());
        entry[DATE..DATE + DATE_BYTES].copy_from_slice(date);
    }
    if page == 0 {
        for taken in free_pages(image, sound.pages).take(wanted as usize) {
            buffer[BITMAP_AT + taken / 8] |= 1 << (taken % 8);
        }
        buffer[3] -= wanted as u8;
    }
    Ok(page as u64)
}

/// After a clean walk the owned pages are marked already, so that bits of lost
/// pages are cleared and no other but the header's is set.
fn repair(image: &mut [u8]) -> Result<(), Refusal> {
    let pages = judge_header(image)?;
    let lost = lost_pages(image, pages)?;
    let bitmap = &mut image[BITMAP_AT..BITMAP_AT + pages / 8];
    for (byte, lost) in bitmap.iter_mut().zip(lost) {
        *byte &= !lost;
    }
    bitmap[0] |= 1;
    let free: u32 = bitmap.iter().map(|byte| byte.count_zeros()).sum();
    image[3] = free as u8;
    Ok(())
}

// The second judge

/// Who owns each page so far, and the directories that were found, of which
/// some are still to be visited.
struct Auditor<'a> {
    image: &'a [u8],
    pages: usize,
    owners: [u64; OWNERS],
    directories: [u8; OWNERS],
    found: usize,
}

impl Auditor<'_> {
    /// Visits the directories in the order in which they are found.
    fn visit_all(&mut self) -> bool {
        let mut visited = 0;
        while visited < self.found {
            let entries = match self.directories[visited] {
                0 => ROOT,
                page => Entries::of_page(page),
            };
            if !self.visit(entries) {
                return false;
            }
            visited += 1;
        }
        true
    }

    fn visit(&mut self, entries: Entries) -> bool {
        let image = self.image;
        let occupied = |at: &usize| image[*at] & OCCUPIED != 0;
        let places = || (entries.from..entries.to).step_by(ENTRY).filter(occupied);
        places().all(|at| {
            let name = &image[at + 1..=at + NAME_BYTES];
            let is_only =
                places().all(|other| other == at || image[other + 1..=other + NAME_BYTES] != *name);
            is_only && is_padded_name(name) && self.claim_pages(at)
        })
    }

    /// The entry there claims its pages; a directory is put with those to visit.
    fn claim_pages(&mut self, at: usize) -> bool {
        let entry = &self.image[at..at + ENTRY];
        let (start, size) = (entry[START], size_of(entry));
        if entry[0] & DIRECTORY != 0 {
            let is_claimed = size == PAGE && self.claim(start, at);
            if is_claimed {
                self.directories[self.found] = start;
                self.found += 1;
            }
            return is_claimed;
        }
        let mut page = start;
        for _ in 0..pages_of_file(size) {
            if !self.claim(page, at) {
                return false;
            }
            page = self.image[usize::from(page) * PAGE];
        }
        page == 0
    }

    /// Page 0 has the header for its owner from the start.
    fn claim(&mut self, page: u8, at: usize) -> bool {
        let page = usize::from(page);
        let is_free = page < self.pages && self.owners[page] == 0;
        if is_free {
            self.owners[page] = at as u64;
        }
        is_free
    }

    /// Each page is marked exactly if somebody owns it, and byte 3 says how many
    /// nobody does.
    fn is_marked(&self) -> bool {
        let owners = &self.owners[..self.pages];
        let bits = (0..self.pages).map(|page| self.image[BITMAP_AT + page / 8] >> (page % 8) & 1);
        let nobodies = owners.iter().filter(|&&owner| owner == 0).count();
        bits.zip(owners)
            .all(|(bit, &owner)| (bit == 1) == (owner != 0))
            && nobodies == usize::from(self.image[3])
    }
}

fn audit(image: &[u8]) -> Audit {
    let Ok(pages) = judge_header(image) else {
        return Audit::no();
    };
    let mut auditor = Auditor {
        image,
        pages,
        owners: [0; OWNERS],
        // The root comes first.
        directories: [0; OWNERS],
        found: 1,
    };
    auditor.owners[0] = 1;
    match auditor.visit_all() && auditor.is_marked() {
        true => Audit::sound(auditor.owners),
        false => Audit::no(),
    }
}

/// The answer of a call that has nothing to tell.
pub(crate) fn done(result: Result<(), Refusal>) -> Answer {
    result.map(|()| Answer::granted()).into()
}

/// The base's calls of `Direct`, by the functions of the module that has it: of
/// either version.
macro_rules! base_of_direct {
    () => {
        impl Base for Direct {
            fn verdict(&self, image: &[u8]) -> Answer {
                verdict(image)
                    .map(|[pages, free]| Answer::verdict(pages, free))
                    .into()
            }

            fn find(&self, image: &[u8], path: &[u8]) -> Answer {
                find(image, path)
                    .map(|told| Answer::found(told.kind, told.size, told.locked, told.date))
                    .into()
            }

            fn list(&self, image: &[u8], path: &[u8], entry: u64) -> Answer {
                list(image, path, entry)
                    .map(|listed| match listed {
                        Some((name, told)) => {
                            Answer::occupied(told.kind, name, told.size, told.locked, told.date)
                        }
                        None => Answer::empty_entry(),
                    })
                    .into()
            }

            fn read(&self, image: &[u8], path: &[u8], position: u64, buffer: &mut [u8]) -> Answer {
                read(image, path, position, buffer)
                    .map(Answer::count)
                    .into()
            }

            fn make_file(&self, image: &mut [u8], path: &[u8], date: &[u8]) -> Answer {
                done(make(image, path, date, Kind::File))
            }

            fn make_directory(&self, image: &mut [u8], path: &[u8], date: &[u8]) -> Answer {
                done(make(image, path, date, Kind::Directory))
            }

            fn write(&self, image: &mut [u8], path: &[u8], position: u64, bytes: &[u8]) -> Answer {
                done(write(image, path, position, bytes))
            }

            fn remove_file(&self, image: &mut [u8], path: &[u8]) -> Answer {
                done(remove_file(image, path))
            }

            fn remove_directory(&self, image: &mut [u8], path: &[u8]) -> Answer {
                done(remove_directory(image, path))
            }

            fn lock(&self, image: &mut [u8], path: &[u8]) -> Answer {
                done(set_lock(image, path, true))
            }

            fn unlock(&self, image: &mut [u8], path: &[u8]) -> Answer {
                done(set_lock(image, path, false))
            }
        }
    };
}

pub(crate) use base_of_direct;

base_of_direct!();

impl Calls for Direct {
    fn format(&self, image: &mut [u8]) -> Answer {
        done(format(image))
    }

    fn store(
        &self,
        image: &[u8],
        path: &[u8],
        date: &[u8],
        content: &[u8],
        number: u64,
        page: &mut [u8],
    ) -> Answer {
        store(image, path, date, content, number, page)
            .map(Answer::page)
            .into()
    }

    fn repair(&self, image: &mut [u8]) -> Answer {
        done(repair(image))
    }

    fn audit(&self, image: &[u8]) -> Audit {
        audit(image)
    }
}
