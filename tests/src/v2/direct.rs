//! Version 2's calls on the image bytes directly: judge, walk, do. No tree and
//! no allocation; this is what the benchmark measures the library by.

pub mod behind;

use super::calls::{Calls, ROW};
use crate::calls::{Answer, Base, Kind, Refusal, DATE_BYTES, NAME_BYTES};
use crate::direct::{
    base_of_direct, check_date, done, is_locked, is_padded_name, kind_of, pad, refuse, Padded,
    Path, Told, DIRECTORY, ENTRY, LOCKED, OCCUPIED,
};
use std::ops::Range;

const BITMAP_AT: usize = 7;
const FREE: usize = 4;
const START: usize = 17;
const SIZE: usize = 19;
const DATE: usize = 23;
/// The most pages that an image has: 512 of 512 bytes, or 1,024 of 1,024.
const MOST_PAGES: usize = 1024;
/// What stands for an entry's number where the root's links are at fault.
const ROOT_LINKS: u8 = 255;

/// The implementation on bytes.
pub struct Direct;

// Where what stands

/// The numbers of an image, by its length and page code.
#[derive(Clone, Copy)]
struct Frame {
    pages: usize,
    /// A page has 2 to this power bytes.
    shift: u32,
    /// Pages of the header and of the table, which has two where links have two
    /// bytes.
    aside: usize,
    root_at: usize,
}

impl Frame {
    fn of(length: usize, code: u64) -> Result<Frame, Refusal> {
        let least = match length {
            0..=65_536 => 0,
            65_537..=262_144 => 1,
            _ => 2,
        };
        if code < least || code > 2 {
            return refuse(26);
        }
        let shift = 8 + code as u32;
        let pages = length >> shift;
        if !length.is_multiple_of(8 << shift) {
            return refuse(26);
        }
        Ok(Frame {
            pages,
            shift,
            aside: if length > 65_536 { 3 } else { 2 },
            root_at: (BITMAP_AT + pages / 8).next_multiple_of(ENTRY),
        })
    }

    /// Bytes of a page.
    fn page(self) -> usize {
        1 << self.shift
    }

    fn is_wide(self) -> bool {
        self.aside == 3
    }

    fn link(self, image: &[u8], page: usize) -> usize {
        let table = self.page();
        if self.is_wide() {
            let at = table + 2 * page;
            usize::from(u16::from_le_bytes([image[at], image[at + 1]]))
        } else {
            usize::from(image[table + page])
        }
    }

    fn set_link(self, image: &mut [u8], page: usize, link: usize) {
        let table = self.page();
        if self.is_wide() {
            let at = table + 2 * page;
            image[at..at + 2].copy_from_slice(&(link as u16).to_le_bytes());
        } else {
            image[table + page] = link as u8;
        }
    }

    fn bytes_of(self, page: usize) -> Range<usize> {
        page << self.shift..(page + 1) << self.shift
    }

    /// The bytes that hold the entries of a page of a directory; page 0 is the
    /// root's.
    fn entries(self, page: usize) -> Range<usize> {
        let Range { start, end } = self.bytes_of(page);
        match page {
            0 => self.root_at..end,
            _ => start..end,
        }
    }

    /// The pages of a file; an empty one has a page too.
    fn pages_of_file(self, size: usize) -> usize {
        size.div_ceil(self.page()).max(1)
    }

    /// The page `count` links behind `page`.
    fn follow(self, image: &[u8], mut page: usize, count: usize) -> usize {
        for _ in 0..count {
            page = self.link(image, page);
        }
        page
    }
}

fn check_length(length: usize) -> Result<(), Refusal> {
    if length == 0 || length > 1 << 20 || !length.is_multiple_of(2048) {
        return refuse(1);
    }
    Ok(())
}

/// The 16 name bytes of an entry as one number.
fn name_of(entry: &[u8]) -> u128 {
    u128::from_le_bytes(entry[1..17].try_into().expect("16 bytes"))
}

fn start_of(entry: &[u8]) -> usize {
    usize::from(u16::from_le_bytes([entry[START], entry[START + 1]]))
}

fn size_of(entry: &[u8]) -> usize {
    let bytes = entry[SIZE..SIZE + 4].try_into().expect("4 bytes");
    u32::from_le_bytes(bytes) as usize
}

fn free_of(image: &[u8]) -> usize {
    usize::from(u16::from_le_bytes([image[FREE], image[FREE + 1]]))
}

fn set_free(image: &mut [u8], free: usize) {
    image[FREE..FREE + 2].copy_from_slice(&(free as u16).to_le_bytes());
}

// Judging

/// What the judge learns of a sound image.
#[derive(Clone, Copy)]
struct Sound {
    frame: Frame,
    free: usize,
}

fn judge_header(image: &[u8]) -> Result<Frame, Refusal> {
    check_length(image.len())?;
    if image[0] != 0x5A || image[1] != 2 {
        return refuse(2);
    }
    let frame = Frame::of(image.len(), image[6].into())?;
    if usize::from(u16::from_le_bytes([image[2], image[3]])) != frame.pages / 8 {
        return refuse(26);
    }
    Ok(frame)
}

fn judge(image: &[u8]) -> Result<Sound, Refusal> {
    let frame = judge_header(image)?;
    let free = judge_pages(image, frame)?;
    Ok(Sound { frame, free })
}

/// The pages, and how many are free.
fn verdict(image: &[u8]) -> Result<[u64; 2], Refusal> {
    judge(image).map(|sound| [sound.frame.pages as u64, sound.free as u64])
}

/// The bitmap in words, page 0 the lowest bit of the first.
fn words_of(bitmap: &[u8]) -> [u64; MOST_PAGES / 64] {
    let mut words = [0; MOST_PAGES / 64];
    for (word, bytes) in words.iter_mut().zip(bitmap.chunks(8)) {
        let mut whole = [0; 8];
        whole[..bytes.len()].copy_from_slice(bytes);
        *word = u64::from_le_bytes(whole);
    }
    words
}

/// Judges the tree and then the bitmap; answers the number of free pages.
fn judge_pages(image: &[u8], frame: Frame) -> Result<usize, Fault> {
    let marks = words_of(&image[BITMAP_AT..BITMAP_AT + frame.pages / 8]);
    let aside = (1 << frame.aside) - 1;
    let mut judge = Judge {
        image,
        frame,
        marks,
        unclaimed: marks,
        met: [0; MOST_PAGES],
        met_count: 0,
    };
    // Pages set aside are never lost.
    judge.unclaimed[0] &= !aside;
    judge.root()?;
    if let Some(word) = judge.unclaimed.iter().position(|&word| word != 0) {
        let bit = judge.unclaimed[word].trailing_zeros() as usize;
        return Err(Fault::Lost((word * 64 + bit) as u16));
    }
    let marked: u32 = marks.iter().map(|word| word.count_ones()).sum();
    let free = frame.pages - marked as usize;
    if marks[0] & aside != aside || free != free_of(image) {
        return Err(Fault::Header);
    }
    Ok(free)
}

/// An entry: its own page, and its number there.
#[derive(Clone, Copy)]
struct Place {
    page: u16,
    number: u8,
}

/// The first fault of the tree or the bitmap, in few bytes: every step of the
/// judge hands one up or none.
#[derive(Clone, Copy)]
enum Fault {
    Entry(Place),
    Chain(Place, u16),
    OwnedTwice(u16),
    Lost(u16),
    MarkedFree(u16),
    Header,
}

impl From<Fault> for Refusal {
    fn from(fault: Fault) -> Refusal {
        match fault {
            Fault::Entry(Place { page, number }) => Refusal::at_entry(page.into(), number.into()),
            Fault::Chain(Place { page, number }, passed) => {
                Refusal::at_chain(page.into(), number.into(), passed.into())
            }
            Fault::OwnedTwice(page) => Refusal::at_page(18, page.into()),
            Fault::Lost(page) => Refusal::at_page(19, page.into()),
            Fault::MarkedFree(page) => Refusal::at_page(20, page.into()),
            Fault::Header => Refusal::number(3),
        }
    }
}

struct Judge<'a> {
    image: &'a [u8],
    frame: Frame,
    marks: [u64; MOST_PAGES / 64],
    /// The marks, less the pages that have found their owner.
    unclaimed: [u64; MOST_PAGES / 64],
    /// Where the occupied entries were met of the directory that is judged, in
    /// entries from the image's first byte, and before them those of the
    /// directories above it. Each owns a page, so that there are fewer than pages.
    met: [u16; MOST_PAGES],
    met_count: usize,
}

impl Judge<'_> {
    /// Gives a page its owner, of whose pages so many have passed.
    fn claim(&mut self, page: usize, place: Place, passed: usize) -> Result<(), Fault> {
        if page < self.frame.aside || page >= self.frame.pages {
            return Err(Fault::Chain(place, passed as u16));
        }
        let (word, bit) = (page / 64, 1 << (page % 64));
        if self.unclaimed[word] & bit == 0 {
            // A page that is marked free never found an owner before this one.
            return Err(match self.marks[word] & bit {
                0 => Fault::MarkedFree(page as u16),
                _ => Fault::OwnedTwice(page as u16),
            });
        }
        self.unclaimed[word] &= !bit;
        Ok(())
    }

    /// Claims the pages of a directory, up to a link that is 0.
    fn claim_to_end(&mut self, start: usize, place: Place) -> Result<(), Fault> {
        let mut page = start;
        let mut passed = 0;
        loop {
            self.claim(page, place, passed)?;
            passed += 1;
            page = self.frame.link(self.image, page);
            if page == 0 {
                return Ok(());
            }
        }
    }

    fn root(&mut self) -> Result<(), Fault> {
        let second = self.frame.link(self.image, 0);
        if second != 0 {
            let place = Place {
                page: 0,
                number: ROOT_LINKS,
            };
            self.claim_to_end(second, place)?;
        }
        self.directory(0)
    }

    /// Judges the entries of the directory that begins on that page, all of
    /// whose pages are claimed.
    fn directory(&mut self, first: usize) -> Result<(), Fault> {
        let image = self.image;
        let begin = self.met_count;
        let mut page = first;
        loop {
            let from = self.frame.entries(page).start;
            let entries = &image[self.frame.entries(page)];
            for (number, entry) in entries.chunks_exact(ENTRY).enumerate() {
                if entry[0] & OCCUPIED == 0 {
                    continue;
                }
                let place = Place {
                    page: page as u16,
                    number: number as u8,
                };
                self.name(begin, place, entry)?;
                self.met[self.met_count] = (from / ENTRY + number) as u16;
                self.met_count += 1;
                self.entry(place, entry)?;
            }
            page = self.frame.link(image, page);
            if page == 0 {
                break;
            }
        }
        self.met_count = begin;
        Ok(())
    }

    /// Judges a name, which no entry met from `begin` on may have.
    fn name(&self, begin: usize, place: Place, entry: &[u8]) -> Result<(), Fault> {
        let name = name_of(entry);
        let met = self.met[begin..self.met_count].iter();
        let mut others = met.map(|&at| name_of(&self.image[usize::from(at) * ENTRY..]));
        let is_taken = others.any(|other| other == name);
        match is_taken || !is_padded_name(&entry[1..=NAME_BYTES]) {
            true => Err(Fault::Entry(place)),
            false => Ok(()),
        }
    }

    /// Judges what is behind the name: the pages, and a directory's contents.
    fn entry(&mut self, place: Place, entry: &[u8]) -> Result<(), Fault> {
        let start = start_of(entry);
        let size = size_of(entry);
        if entry[0] & DIRECTORY != 0 {
            if size != self.frame.page() {
                return Err(Fault::Entry(place));
            }
            self.claim_to_end(start, place)?;
            return self.directory(start);
        }
        let wanted = self.frame.pages_of_file(size);
        let mut page = start;
        for passed in 0..wanted {
            self.claim(page, place, passed)?;
            page = self.frame.link(self.image, page);
        }
        match page {
            0 => Ok(()),
            _ => Err(Fault::Chain(place, wanted as u16)),
        }
    }
}

// Walking

/// Where the entry of that name is in the directory that begins on a page.
fn position(image: &[u8], frame: Frame, first: usize, name: &Padded) -> Option<usize> {
    let wanted = u128::from_le_bytes(*name);
    let mut page = first;
    loop {
        let entries = frame.entries(page);
        let from = entries.start;
        let mut entries = image[entries].chunks_exact(ENTRY);
        let named = |entry: &[u8]| entry[0] & OCCUPIED != 0 && name_of(entry) == wanted;
        if let Some(number) = entries.position(named) {
            return Some(from + number * ENTRY);
        }
        page = frame.link(image, page);
        if page == 0 {
            return None;
        }
    }
}

/// Where a new entry goes.
enum Room {
    /// Where the lowest empty entry is.
    Entry(usize),
    /// The directory is full, and this is its last page.
    After(usize),
}

fn room(image: &[u8], frame: Frame, first: usize) -> Room {
    let mut page = first;
    loop {
        let entries = frame.entries(page);
        let from = entries.start;
        let mut flags = image[entries].iter().step_by(ENTRY);
        if let Some(number) = flags.position(|flags| flags & OCCUPIED == 0) {
            return Room::Entry(from + number * ENTRY);
        }
        match frame.link(image, page) {
            0 => return Room::After(page),
            next => page = next,
        }
    }
}

/// Walks all names of the path, each of which has to be a directory's; answers
/// the first page of the last one.
fn walk(image: &[u8], frame: Frame, path: Path) -> Result<usize, Refusal> {
    let mut first = 0;
    if path.0.is_empty() {
        return Ok(first);
    }
    let mut begins = 1;
    for name in path.0[1..].split(|&byte| byte == b'/') {
        let at = position(image, frame, first, &pad(name));
        let at = at.ok_or(Refusal::at_name(5, begins))?;
        if image[at] & DIRECTORY == 0 {
            return Err(Refusal::at_name(6, begins));
        }
        first = start_of(&image[at..at + ENTRY]);
        begins += name.len() + 1;
    }
    Ok(first)
}

/// Where the entry of the path is; None for the root.
fn walk_to_entry(image: &[u8], frame: Frame, path: Path) -> Result<Option<usize>, Refusal> {
    let Some((parents, begins, name)) = path.split_last() else {
        return Ok(None);
    };
    let first = walk(image, frame, parents)?;
    let at = position(image, frame, first, &name);
    at.map(Some).ok_or(Refusal::at_name(5, begins))
}

/// Where the entry of the file is, its start page and its size.
fn walk_to_file(image: &[u8], frame: Frame, path: Path) -> Result<(usize, usize, usize), Refusal> {
    match walk_to_entry(image, frame, path)? {
        Some(at) if image[at] & DIRECTORY == 0 => {
            let entry = &image[at..at + ENTRY];
            Ok((at, start_of(entry), size_of(entry)))
        }
        _ => refuse(7),
    }
}

// Pages

/// Takes the lowest free page, which is there and not before the bitmap's byte
/// `from`; gives it link 0. Its bytes stay, and so does the count.
fn take(image: &mut [u8], frame: Frame, from: usize) -> usize {
    let bitmap = &mut image[BITMAP_AT + from..BITMAP_AT + frame.pages / 8];
    let byte = bitmap.iter().position(|&byte| byte != 0xFF);
    let byte = byte.expect("a page is free");
    let bit = bitmap[byte].trailing_ones() as usize;
    bitmap[byte] |= 1 << bit;
    let page = (from + byte) * 8 + bit;
    frame.set_link(image, page, 0);
    page
}

/// Frees all pages of a chain; answers how many.
fn release(image: &mut [u8], frame: Frame, start: usize) -> usize {
    let mut page = start;
    let mut count = 0;
    loop {
        image[BITMAP_AT + page / 8] &= !(1 << (page % 8));
        count += 1;
        page = frame.link(image, page);
        if page == 0 {
            return count;
        }
    }
}

// Doing

fn format(image: &mut [u8], code: u64) -> Result<(), Refusal> {
    check_length(image.len())?;
    let frame = Frame::of(image.len(), code)?;
    image[..frame.aside << frame.shift].fill(0);
    image[..2].copy_from_slice(&[0x5A, 2]);
    image[2..4].copy_from_slice(&(frame.pages as u16 / 8).to_le_bytes());
    set_free(image, frame.pages - frame.aside);
    image[6] = code as u8;
    image[BITMAP_AT] = (1 << frame.aside) - 1;
    Ok(())
}

fn told(entry: &[u8]) -> Told {
    Told {
        kind: kind_of(entry),
        size: size_of(entry) as u64,
        locked: is_locked(entry[0]),
        date: entry[DATE..DATE + DATE_BYTES].try_into().expect("8 bytes"),
    }
}

fn find(image: &[u8], path: &[u8]) -> Result<Told, Refusal> {
    let Sound { frame, .. } = judge(image)?;
    let Some(at) = walk_to_entry(image, frame, Path::check(path)?)? else {
        return Ok(Told {
            kind: Kind::Directory,
            size: frame.page() as u64,
            locked: false,
            date: [0; DATE_BYTES],
        });
    };
    Ok(told(&image[at..at + ENTRY]))
}

/// None for an empty entry.
fn list(image: &[u8], path: &[u8], number: u64) -> Result<Option<(Padded, Told)>, Refusal> {
    let Sound { frame, .. } = judge(image)?;
    let mut page = walk(image, frame, Path::check(path)?)?;
    let mut left = number;
    loop {
        let entries = frame.entries(page);
        let count = (entries.len() / ENTRY) as u64;
        if left < count {
            let at = entries.start + left as usize * ENTRY;
            let entry = &image[at..at + ENTRY];
            if entry[0] & OCCUPIED == 0 {
                return Ok(None);
            }
            let name = entry[1..=NAME_BYTES].try_into().expect("16 bytes");
            return Ok(Some((name, told(entry))));
        }
        left -= count;
        page = frame.link(image, page);
        if page == 0 {
            return refuse(12);
        }
    }
}

/// How many entries were told, and how many there are.
fn entries(image: &[u8], path: &[u8], first: u64, rows: &mut [u8]) -> Result<[u64; 2], Refusal> {
    let Sound { frame, .. } = judge(image)?;
    let mut page = walk(image, frame, Path::check(path)?)?;
    let begin = page;
    // The last page is not known before all were counted, and `first` may be
    // past it: nothing is told till then.
    let mut all = 0;
    loop {
        all += frame.entries(page).len() / ENTRY;
        page = frame.link(image, page);
        if page == 0 {
            break;
        }
    }
    if first > all as u64 {
        return refuse(12);
    }
    let told = (all - first as usize).min(rows.len() / ROW);
    let mut rows = rows[..told * ROW].chunks_exact_mut(ROW);
    let mut skipped = first as usize;
    page = begin;
    while rows.len() > 0 {
        let entries = image[frame.entries(page)].chunks_exact(ENTRY);
        let count = entries.len();
        for (entry, row) in entries.skip(skipped).zip(&mut rows) {
            tell(entry, row);
        }
        skipped = skipped.saturating_sub(count);
        page = frame.link(image, page);
    }
    Ok([told as u64, all as u64])
}

/// Fills the row of an entry.
fn tell(entry: &[u8], row: &mut [u8]) {
    row.fill(0);
    if entry[0] & OCCUPIED == 0 {
        return;
    }
    row[0] = 1;
    row[1] = entry[0] & DIRECTORY;
    row[2] = is_locked(entry[0]).into();
    row[4..8].copy_from_slice(&entry[SIZE..SIZE + 4]);
    row[8..16].copy_from_slice(&entry[DATE..DATE + DATE_BYTES]);
    row[16..].copy_from_slice(&entry[1..=NAME_BYTES]);
}

/// How many bytes were copied.
fn read(image: &[u8], path: &[u8], position: u64, buffer: &mut [u8]) -> Result<u64, Refusal> {
    let Sound { frame, .. } = judge(image)?;
    let (_, start, size) = walk_to_file(image, frame, Path::check(path)?)?;
    if position > size as u64 {
        return refuse(12);
    }
    let position = position as usize;
    let count = buffer.len().min(size - position);
    if count == 0 {
        return Ok(0);
    }
    let mut page = frame.follow(image, start, position >> frame.shift);
    let mut within = position % frame.page();
    let mut rest = &mut buffer[..count];
    loop {
        let length = rest.len().min(frame.page() - within);
        let (now, later) = rest.split_at_mut(length);
        let from = (page << frame.shift) + within;
        now.copy_from_slice(&image[from..from + length]);
        if later.is_empty() {
            return Ok(count as u64);
        }
        page = frame.link(image, page);
        within = 0;
        rest = later;
    }
}

fn make(image: &mut [u8], path: &[u8], date: &[u8], kind: Kind) -> Result<(), Refusal> {
    let Sound { frame, free } = judge(image)?;
    let path = Path::check(path)?;
    check_date(date)?;
    let Some((parents, _, name)) = path.split_last() else {
        return refuse(8);
    };
    let first = walk(image, frame, parents)?;
    if position(image, frame, first, &name).is_some() {
        return refuse(8);
    }
    let room = room(image, frame, first);
    let wanted = match room {
        Room::Entry(_) => 1,
        Room::After(_) => 2,
    };
    if wanted > free {
        return refuse(10);
    }
    let at = match room {
        Room::Entry(at) => at,
        Room::After(last) => {
            let page = take(image, frame, 0);
            image[frame.bytes_of(page)].fill(0);
            frame.set_link(image, last, page);
            page << frame.shift
        }
    };
    let start = take(image, frame, 0);
    image[frame.bytes_of(start)].fill(0);
    set_free(image, free - wanted);
    let mut entry = [0; ENTRY];
    entry[0] = OCCUPIED;
    entry[1..=NAME_BYTES].copy_from_slice(&name);
    entry[START..START + 2].copy_from_slice(&(start as u16).to_le_bytes());
    if kind == Kind::Directory {
        entry[0] |= DIRECTORY;
        entry[SIZE..SIZE + 4].copy_from_slice(&(frame.page() as u32).to_le_bytes());
    }
    entry[DATE..DATE + DATE_BYTES].copy_from_slice(date);
    image[at..at + ENTRY].copy_from_slice(&entry);
    Ok(())
}

fn write(image: &mut [u8], path: &[u8], position: u64, bytes: &[u8]) -> Result<(), Refusal> {
    let Sound { frame, free } = judge(image)?;
    let (at, start, size) = walk_to_file(image, frame, Path::check(path)?)?;
    if is_locked(image[at]) {
        return refuse(25);
    }
    if position > size as u64 {
        return refuse(12);
    }
    let position = position as usize;
    let new_size = size.max(position + bytes.len());
    let old_pages = frame.pages_of_file(size);
    let added = frame.pages_of_file(new_size) - old_pages;
    if added > free {
        return refuse(10);
    }
    if bytes.is_empty() {
        return Ok(());
    }
    // From the page of the position on, whose number is that of its page.
    let number = position >> frame.shift;
    let mut page = frame.follow(image, start, number.min(old_pages - 1));
    if added > 0 {
        let last = frame.follow(image, page, old_pages - 1 - number.min(old_pages - 1));
        lengthen(image, frame, last, added);
        set_free(image, free - added);
        if number == old_pages {
            page = frame.link(image, page);
        }
    }
    image[at + SIZE..at + SIZE + 4].copy_from_slice(&(new_size as u32).to_le_bytes());
    fill(image, frame, page, position % frame.page(), bytes);
    Ok(())
}

/// Adds pages behind the last one of a chain. All of their bytes are about to be
/// written but some of the last one, so that this alone is zeroed.
fn lengthen(image: &mut [u8], frame: Frame, mut last: usize, added: usize) {
    let mut from = 0;
    for _ in 0..added {
        let page = take(image, frame, from);
        from = page / 8;
        frame.set_link(image, last, page);
        last = page;
    }
    image[frame.bytes_of(last)].fill(0);
}

/// Puts bytes into the content of a chain that is long enough, from a byte of
/// its page on.
fn fill(image: &mut [u8], frame: Frame, mut page: usize, mut within: usize, bytes: &[u8]) {
    let mut rest = bytes;
    loop {
        let (now, later) = rest.split_at(rest.len().min(frame.page() - within));
        let from = (page << frame.shift) + within;
        image[from..from + now.len()].copy_from_slice(now);
        if later.is_empty() {
            return;
        }
        page = frame.link(image, page);
        within = 0;
        rest = later;
    }
}

/// Empties the entry there and frees its pages.
fn vacate(image: &mut [u8], sound: Sound, at: usize) {
    let start = start_of(&image[at..at + ENTRY]);
    let freed = release(image, sound.frame, start);
    set_free(image, sound.free + freed);
    image[at] = 0;
}

/// Where the entry to be removed is; the root has none.
fn entry_to_remove(image: &[u8], frame: Frame, path: Path) -> Result<usize, Refusal> {
    walk_to_entry(image, frame, path)?.ok_or(Refusal::number(14))
}

fn remove_file(image: &mut [u8], path: &[u8]) -> Result<(), Refusal> {
    let sound = judge(image)?;
    let at = entry_to_remove(image, sound.frame, Path::check(path)?)?;
    if image[at] & DIRECTORY != 0 {
        return refuse(7);
    }
    if is_locked(image[at]) {
        return refuse(25);
    }
    vacate(image, sound, at);
    Ok(())
}

fn remove_directory(image: &mut [u8], path: &[u8]) -> Result<(), Refusal> {
    let sound = judge(image)?;
    let frame = sound.frame;
    let path = Path::check(path)?;
    let at = entry_to_remove(image, frame, path)?;
    if image[at] & DIRECTORY == 0 {
        let begins = path.split_last().map_or(0, |(_, begins, _)| begins);
        return Err(Refusal::at_name(6, begins));
    }
    let mut page = start_of(&image[at..at + ENTRY]);
    while page != 0 {
        let mut flags = image[frame.bytes_of(page)].iter().step_by(ENTRY);
        if flags.any(|flags| flags & OCCUPIED != 0) {
            return refuse(13);
        }
        page = frame.link(image, page);
    }
    vacate(image, sound, at);
    Ok(())
}

fn set_lock(image: &mut [u8], path: &[u8], locked: bool) -> Result<(), Refusal> {
    let Sound { frame, .. } = judge(image)?;
    let (at, ..) = walk_to_file(image, frame, Path::check(path)?)?;
    match locked {
        true => image[at] |= LOCKED,
        false => image[at] &= !LOCKED,
    }
    Ok(())
}

base_of_direct!();

impl Calls for Direct {
    fn format(&self, image: &mut [u8], code: u64) -> Answer {
        done(format(image, code))
    }

    fn entries(&self, image: &[u8], path: &[u8], first: u64, rows: &mut [u8]) -> Answer {
        entries(image, path, first, rows)
            .map(|[told, all]| Answer::entries(told, all))
            .into()
    }
}
