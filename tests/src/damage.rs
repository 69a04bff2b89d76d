//! Damages to a sound image: those that the judge has to see, and those that
//! it has to overlook.

use crate::plain::{
    pages_of_file, BITMAP_AT, CONTENT, DIRECTORY_ENTRIES, ENTRY, PAGE, ROOT_ENTRIES,
    ROOT_ENTRIES_AT,
};
use crate::random::Random;

/// Where things lie in a sound image.
#[derive(Default)]
pub struct Survey {
    /// Where the occupied entries are, and the pages of each.
    pub entries: Vec<(usize, Vec<usize>)>,
    pub free_entries: Vec<usize>,
    pub directory_pages: Vec<usize>,
}

impl Survey {
    /// Surveys an image. One that isn't sound is surveyed as far as it goes.
    pub fn of(image: &[u8]) -> Survey {
        let mut survey = Survey::default();
        let mut seen = vec![false; image.len() / PAGE];
        survey.directory(image, ROOT_ENTRIES_AT, ROOT_ENTRIES, &mut seen);
        survey
    }

    fn directory(&mut self, image: &[u8], at: usize, count: usize, seen: &mut [bool]) {
        for at in (at..at + count * ENTRY).step_by(ENTRY) {
            if image[at] & 0x80 == 0 {
                self.free_entries.push(at);
                continue;
            }
            let start = usize::from(image[at + 17]);
            let size = usize::from(image[at + 18]) + 256 * usize::from(image[at + 19]);
            let is_directory = image[at] & 1 != 0;
            let wanted = if is_directory { 1 } else { pages_of_file(size) };
            let pages = chain(image, start, wanted, seen);
            self.entries.push((at, pages.clone()));
            if is_directory && !pages.is_empty() {
                self.directory_pages.push(start);
                self.directory(image, start * PAGE, DIRECTORY_ENTRIES, seen);
            }
        }
    }

    /// All pages that entries have.
    pub fn owned(&self) -> Vec<usize> {
        let pages = self.entries.iter().flat_map(|(_, pages)| pages);
        pages.copied().collect()
    }
}

/// At most `wanted` pages from `start` on, none of them seen before.
fn chain(image: &[u8], start: usize, wanted: usize, seen: &mut [bool]) -> Vec<usize> {
    let mut pages = Vec::new();
    let mut page = start;
    while pages.len() < wanted && page != 0 && page < seen.len() && !seen[page] {
        seen[page] = true;
        pages.push(page);
        page = usize::from(image[page * PAGE]);
    }
    pages
}

/// Makes the bitmap and byte 3 follow the pages that entries have, so that a
/// fault elsewhere stands alone.
pub fn mend_bitmap(image: &mut [u8]) {
    let pages = image.len() / PAGE;
    let owned = Survey::of(image).owned();
    image[BITMAP_AT..BITMAP_AT + pages / 8].fill(0);
    image[BITMAP_AT] = 1;
    for page in &owned {
        image[BITMAP_AT + page / 8] |= 1 << (page % 8);
    }
    image[3] = (pages - 1 - owned.len()) as u8;
}

/// Does some random damages, often several, so that it shows which is told
/// first; mends the bitmap after some.
pub fn damage(image: &mut Vec<u8>, random: &mut Random) {
    for _ in 0..*random.pick(&[1, 1, 2, 3, 5]) {
        let which = random.weighted(&[2, 5, 1, 3, 5, 6, 5, 6, 3, 4, 1]);
        match which {
            0 => header_byte(image, random),
            1 => bitmap_bits(image, random),
            2 => reserved_byte(image, random),
            3 => flags(image, random),
            4 => name(image, random),
            5 => size(image, random),
            6 => start_page(image, random),
            7 => link(image, random),
            8 => occupy_free_entry(image, random),
            9 => self_holding_directory(image, random),
            _ => random_byte(image, random),
        }
        let is_in_an_entry = which >= 3;
        if is_in_an_entry && random.chance(1, 2) {
            mend_bitmap(image);
        }
    }
    if random.chance(1, 30) {
        image.resize(wrong_length(image.len(), random), 0);
    }
}

/// A length that isn't allowed, or one that byte 2 does not tell.
fn wrong_length(length: usize, random: &mut Random) -> usize {
    match random.below(4) {
        0 => *random.pick(&[0, 1, 3, 4, 36, 64, 255, 256]),
        1 => *random.pick(&[length - 1, length + 1, 2047, 2049, 65_535, 65_537]),
        2 => PAGE * random.between(1, 264),
        _ => 8 * PAGE * random.between(1, 33),
    }
}

/// One of the first four bytes, mostly the count: of the others nothing but 2
/// comes.
fn header_byte(image: &mut [u8], random: &mut Random) {
    let at = *random.pick(&[0, 1, 2, 3, 3, 3, 3, 3]);
    image[at] = match random.below(4) {
        0 => image[at].wrapping_add(1),
        1 => image[at].wrapping_sub(1),
        2 => image[at] ^ 1 << random.below(8),
        _ => random.byte(),
    };
}

/// Flips bits of the bitmap, mostly some in use; byte 3 follows or does not.
fn bitmap_bits(image: &mut [u8], random: &mut Random) {
    for _ in 0..*random.pick(&[1, 1, 2, 3]) {
        let page = match random.chance(1, 8) {
            true => random.below(256),
            false => random.below(image.len() / PAGE),
        };
        let byte = &mut image[BITMAP_AT + page / 8];
        *byte ^= 1 << (page % 8);
        let was_freed = *byte >> (page % 8) & 1 == 0;
        if random.chance(1, 2) {
            image[3] = match was_freed {
                true => image[3].wrapping_add(1),
                false => image[3].wrapping_sub(1),
            };
        }
    }
}

/// Bytes that are ignored and kept: the image stays what it is.
fn reserved_byte(image: &mut [u8], random: &mut Random) {
    let survey = Survey::of(image);
    let at = match (random.below(2), survey.entries.is_empty()) {
        (0, false) => random.pick(&survey.entries).0 + random.between(28, 31),
        _ => random.between(36, 63),
    };
    image[at] = random.byte();
}

fn flags(image: &mut [u8], random: &mut Random) {
    if let Some(at) = some_entry(image, random) {
        image[at] ^= 1 << random.below(8);
    }
}

/// Where one of the occupied entries is.
fn some_entry(image: &[u8], random: &mut Random) -> Option<usize> {
    let survey = Survey::of(image);
    match survey.entries.len() {
        0 => None,
        count => Some(survey.entries[random.below(count)].0),
    }
}

/// An illegal, unpadded or equal name.
fn name(image: &mut [u8], random: &mut Random) {
    let Some(at) = some_entry(image, random) else {
        return;
    };
    let name = at + 1..at + 17;
    match random.below(8) {
        0 => image[at + 1] = 0,
        1 => image[name].fill(0),
        2 => image[name].fill(b'N'),
        3 => image[at + random.between(1, 16)] = random.byte(),
        4 => {
            let bytes = [0, 0x1F, 0x20, 0x2F, 0x7E, 0x7F, 0x80, 0xFF];
            image[at + random.between(1, 16)] = *random.pick(&bytes);
        }
        _ => {
            // The name of an entry of the same directory, perhaps its own.
            let mut entries = Survey::of(image).entries;
            entries.retain(|(other, _)| other / PAGE == at / PAGE);
            let other = random.pick(&entries).0;
            image.copy_within(other + 1..other + 17, at + 1);
        }
    }
}

/// Sizes about page boundaries, up to the largest.
fn size(image: &mut [u8], random: &mut Random) {
    let Some(at) = some_entry(image, random) else {
        return;
    };
    let size = usize::from(image[at + 18]) + 256 * usize::from(image[at + 19]);
    let boundary = random.below(258) * CONTENT;
    let size = match random.below(8) {
        0 => size + 1,
        1 => size.wrapping_sub(1),
        2 => size / CONTENT * CONTENT,
        3 => size.div_ceil(CONTENT) * CONTENT + random.below(2),
        4 => boundary + random.below(3),
        5 => *random.pick(&[0, 1, 255, 256, 257]),
        6 => *random.pick(&[65_024, 65_025, 65_026, 65_279, 65_280, 65_281, 65_535]),
        _ => random.below(65_536),
    };
    image[at + 18] = size as u8;
    image[at + 19] = (size >> 8) as u8;
}

/// A page that something might wrongly begin with or lead to.
fn some_page(image: &[u8], random: &mut Random) -> u8 {
    let pages = image.len() / PAGE;
    let owned = Survey::of(image).owned();
    let page = match random.below(6) {
        0 => 0,
        1 => pages,
        2 => 255,
        3 => pages - 1,
        4 if !owned.is_empty() => *random.pick(&owned),
        _ => random.below(pages),
    };
    page as u8
}

fn start_page(image: &mut [u8], random: &mut Random) {
    if let Some(at) = some_entry(image, random) {
        image[at + 17] = some_page(image, random);
    }
}

/// A link that ends the chain early or late, or leads where it must not: back,
/// to itself, into another chain, to a directory, out of the image.
fn link(image: &mut [u8], random: &mut Random) {
    let mut files = Survey::of(image).entries;
    files.retain(|(at, pages)| image[*at] & 1 == 0 && !pages.is_empty());
    if files.is_empty() {
        return;
    }
    let (_, pages) = random.pick(&files);
    let page = *random.pick(pages);
    image[page * PAGE] = match random.below(3) {
        0 => *random.pick(pages) as u8,
        1 => 0,
        _ => some_page(image, random),
    };
}

/// A free entry comes alive with whatever it holds, or with a chosen start.
fn occupy_free_entry(image: &mut [u8], random: &mut Random) {
    let survey = Survey::of(image);
    if survey.free_entries.is_empty() {
        return;
    }
    let at = *random.pick(&survey.free_entries);
    let page = some_page(image, random);
    if random.chance(3, 4) {
        image[at..at + ENTRY].fill(0);
        image[at + 1] = b'X';
        image[at + 17] = page;
        image[at + 18] = *random.pick(&[0, 0, 1, 255]);
    }
    image[at] |= 0x80 | random.byte() & 1;
    if image[at] & 1 != 0 {
        image[at + 18..at + 20].copy_from_slice(&[0, 1]);
    }
}

/// A directory that holds itself, one above it, or page 0.
fn self_holding_directory(image: &mut [u8], random: &mut Random) {
    let survey = Survey::of(image);
    if survey.directory_pages.is_empty() {
        return;
    }
    let holder = *random.pick(&survey.directory_pages);
    let held = match random.below(3) {
        0 => holder,
        1 => *random.pick(&survey.directory_pages),
        _ => 0,
    };
    let at = holder * PAGE + random.below(DIRECTORY_ENTRIES) * ENTRY;
    image[at] = 0x81;
    image[at + 1..at + 17].fill(0);
    image[at + 1] = b'S';
    image[at + 17] = held as u8;
    image[at + 18..at + 20].copy_from_slice(&[0, 1]);
}

fn random_byte(image: &mut [u8], random: &mut Random) {
    let at = match random.below(2) {
        0 => random.below(PAGE),
        _ => random.below(image.len()),
    };
    image[at] = random.byte();
}
