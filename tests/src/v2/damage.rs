//! Damages to a sound image of version 2: those that the judge has to see, and
//! those that it has to overlook.

use super::layout::{laid_out, Layout, BITMAP_AT, BITMAP_BYTES, CODE, ENTRY, NAME_AT};
use crate::calls::NAME_BYTES;
use crate::random::Random;

/// An entry that is met by following an image as far as it goes.
pub struct Met {
    /// Where it begins.
    pub at: usize,
    /// Its pages.
    pub pages: Vec<usize>,
    /// The first page of the directory that it is in, 0 for the root.
    pub directory: usize,
}

/// Where things lie in an image. One that isn't sound is surveyed as far as it
/// goes, by the layout that it had before it was damaged.
pub struct Survey<'a> {
    image: &'a [u8],
    layout: Layout,
    seen: Vec<bool>,
    pub entries: Vec<Met>,
    pub free_entries: Vec<usize>,
    /// The pages of each directory, the root's first.
    pub directories: Vec<Vec<usize>>,
}

impl Survey<'_> {
    pub fn of(image: &[u8], layout: Layout) -> Survey<'_> {
        let mut survey = Survey {
            image,
            layout,
            seen: vec![false; layout.pages],
            entries: Vec::new(),
            free_entries: Vec::new(),
            directories: Vec::new(),
        };
        let second = layout.link(0).of(image);
        let mut pages = vec![0];
        pages.extend(survey.chain(second, usize::MAX));
        survey.directory(pages);
        survey
    }

    fn directory(&mut self, pages: Vec<usize>) {
        self.directories.push(pages.clone());
        let layout = self.layout;
        for at in pages.iter().flat_map(|&page| layout.entry_places(page)) {
            let bytes = &self.image[at..at + ENTRY];
            if bytes[0] & 0x80 == 0 {
                self.free_entries.push(at);
                continue;
            }
            let is_directory = bytes[0] & 1 != 0;
            let wanted = match is_directory {
                true => usize::MAX,
                false => layout.shape().pages_of_file(layout.size.of(bytes)),
            };
            let own = self.chain(layout.start.of(bytes), wanted);
            self.entries.push(Met {
                at,
                pages: own.clone(),
                directory: pages[0],
            });
            if is_directory && !own.is_empty() {
                self.directory(own);
            }
        }
    }

    /// At most `wanted` pages from `start` on, none of them seen before.
    fn chain(&mut self, start: usize, wanted: usize) -> Vec<usize> {
        let mut pages = Vec::new();
        let mut page = start;
        let in_range = self.layout.aside..self.layout.pages;
        while pages.len() < wanted && in_range.contains(&page) && !self.seen[page] {
            self.seen[page] = true;
            pages.push(page);
            page = self.layout.link(page).of(self.image);
        }
        pages
    }

    /// All pages that the root and entries have.
    pub fn owned(&self) -> Vec<usize> {
        let is_owned = |page: &usize| self.seen[*page];
        (0..self.layout.pages).filter(is_owned).collect()
    }
}

/// Makes the bitmap and the count follow the pages that are owned, so that a
/// fault elsewhere stands alone.
pub fn mend_bitmap(image: &mut [u8], layout: Layout) {
    let owned = Survey::of(image, layout).owned();
    image[BITMAP_AT..BITMAP_AT + layout.pages / 8].fill(0);
    for page in (0..layout.aside).chain(owned.iter().copied()) {
        image[BITMAP_AT + page / 8] |= 1 << (page % 8);
    }
    let free = layout.pages - layout.aside - owned.len();
    layout.free.put(image, free);
}

/// An image that is being damaged.
struct Damage<'a> {
    image: &'a mut Vec<u8>,
    layout: Layout,
    random: &'a mut Random,
}

/// Does some random damages to a sound image, often several, so that it shows
/// which is told first; mends the bitmap after some.
pub fn damage(image: &mut Vec<u8>, random: &mut Random) {
    let layout = laid_out(image.len(), CODE.of(image));
    let mut damage = Damage {
        image,
        layout,
        random,
    };
    for _ in 0..*damage.random.pick(&[1, 1, 2, 3, 5]) {
        let which = damage
            .random
            .weighted(&[3, 5, 2, 3, 5, 6, 5, 6, 5, 3, 4, 1]);
        match which {
            0 => damage.header(),
            1 => damage.bitmap(),
            2 => damage.ignored_byte(),
            3 => damage.flags(),
            4 => damage.name(),
            5 => damage.size(),
            6 => damage.start_page(),
            7 => damage.link_of_file(),
            8 => damage.link_of_directory(),
            9 => damage.occupy_free_entry(),
            10 => damage.self_holding_directory(),
            _ => damage.any_byte(),
        }
        let is_in_an_entry = which >= 3;
        if is_in_an_entry && damage.random.chance(1, 2) {
            mend_bitmap(damage.image, layout);
        }
    }
    if damage.random.chance(1, 40) {
        let length = damage.wrong_length();
        image.resize(length, 0);
    }
}

impl Damage<'_> {
    fn survey(&self) -> Survey<'_> {
        Survey::of(self.image, self.layout)
    }

    /// A length that isn't allowed, or one that the header does not tell.
    fn wrong_length(&mut self) -> usize {
        let length = self.image.len();
        match self.random.below(4) {
            0 => *self.random.pick(&[0, 1, 2, 6, 7, 8, 32, 255, 256, 2047]),
            1 => *self
                .random
                .pick(&[length - 1, length + 1, length + 256, length + 1024]),
            2 => 2048 * self.random.between(1, 33),
            _ => *self
                .random
                .pick(&[65_536, 67_584, 69_632, 262_144, 264_192, 1_050_624]),
        }
    }

    /// A byte of the header's fields, mostly of the count.
    fn header(&mut self) {
        let at = *self.random.pick(&[0, 1, 2, 3, 4, 4, 4, 5, 5, 6, 6]);
        let byte = self.image[at];
        self.image[at] = match self.random.below(5) {
            0 => byte.wrapping_add(1),
            1 => byte.wrapping_sub(1),
            2 => byte ^ 1 << self.random.below(8),
            3 if at == 6 => self.random.below(4) as u8,
            _ => self.random.byte(),
        };
        if at == 6 && self.random.chance(1, 2) {
            // The bitmap's bytes go with another code.
            let pages = self.image.len() / (256 << self.image[6].min(8));
            BITMAP_BYTES.put(self.image, pages / 8);
        }
    }

    /// Flips bits of the bitmap, often those of pages set aside; the count
    /// follows or does not.
    fn bitmap(&mut self) {
        for _ in 0..*self.random.pick(&[1, 1, 2, 3]) {
            let page = match self.random.chance(1, 4) {
                true => self.random.below(4),
                false => self.random.below(self.layout.pages),
            };
            self.image[BITMAP_AT + page / 8] ^= 1 << (page % 8);
            let was_freed = !self.layout.is_allocated(self.image, page);
            if self.random.chance(1, 2) {
                let free = self.layout.free.of(self.image);
                let free = match was_freed {
                    true => free.wrapping_add(1),
                    false => free.wrapping_sub(1),
                };
                self.layout.free.put(self.image, free);
            }
        }
    }

    /// Bytes that are ignored and kept: the image stays what it is. They are the
    /// header's reserved ones, an entry's, and links of free pages, of the
    /// table's own and past N.
    fn ignored_byte(&mut self) {
        let layout = self.layout;
        let byte = self.random.byte();
        let reserved = BITMAP_AT + layout.pages / 8..layout.root_at;
        let at = match self.random.below(4) {
            0 if !reserved.is_empty() => reserved.start + self.random.below(reserved.len()),
            1 => match self.some_entry() {
                Some(at) => at + 31,
                None => return,
            },
            2 => {
                let first = layout.link(layout.pages).at;
                let past = layout.aside * layout.page - first;
                match past {
                    0 => return,
                    _ => first + self.random.below(past),
                }
            }
            _ => {
                let page = self.random.below(layout.pages);
                let is_owned = page == 0 || self.survey().owned().contains(&page);
                match is_owned {
                    true => return,
                    false => layout.link(page).at,
                }
            }
        };
        self.image[at] = byte;
    }

    /// Where one of the occupied entries is.
    fn some_entry(&mut self) -> Option<usize> {
        let entries = self.survey().entries;
        match entries.len() {
            0 => None,
            count => Some(entries[self.random.below(count)].at),
        }
    }

    fn flags(&mut self) {
        if let Some(at) = self.some_entry() {
            self.image[at] ^= 1 << self.random.below(8);
        }
    }

    /// An illegal, unpadded or equal name.
    fn name(&mut self) {
        let Some(at) = self.some_entry() else {
            return;
        };
        let name = at + NAME_AT..at + NAME_AT + NAME_BYTES;
        match self.random.below(9) {
            0 => self.image[name.start] = 0,
            1 => self.image[name].fill(0),
            2 => self.image[name].fill(b'N'),
            3 => self.image[at + self.random.between(1, 16)] = self.random.byte(),
            4 => {
                let bytes = [0, 0x1F, 0x20, 0x2F, 0x7E, 0x7F, 0x80, 0xFF];
                self.image[at + self.random.between(1, 16)] = *self.random.pick(&bytes);
            }
            _ => {
                // The name of an entry of the same directory, perhaps its own.
                let mut entries = self.survey().entries;
                let of = entries
                    .iter()
                    .find(|met| met.at == at)
                    .map(|met| met.directory);
                entries.retain(|met| Some(met.directory) == of);
                let other = self.random.pick(&entries).at + NAME_AT;
                self.image
                    .copy_within(other..other + NAME_BYTES, name.start);
            }
        }
    }

    /// Sizes about page boundaries, up to the largest.
    fn size(&mut self) {
        let Some(at) = self.some_entry() else {
            return;
        };
        let layout = self.layout;
        let page = layout.page;
        let size = layout.size.of(&self.image[at..at + ENTRY]);
        let size = match self.random.below(9) {
            0 => size + 1,
            1 => size.wrapping_sub(1),
            2 => size / page * page,
            3 => size.div_ceil(page) * page + self.random.below(2),
            4 => self.random.below(layout.pages + 2) * page + self.random.below(3),
            5 => *self
                .random
                .pick(&[0, 1, 255, 256, 257, 511, 512, 513, 1024, 1025]),
            // Right only in fewer bits.
            6 => size + (1 << *self.random.pick(&[8, 16, 24, 31])),
            7 => 0xFFFF_FFFF - self.random.below(2000),
            _ => self.random.number() as usize,
        };
        layout.size.put(&mut self.image[at..at + ENTRY], size);
    }

    /// A page that something might wrongly begin with or lead to.
    fn some_page(&mut self) -> usize {
        let pages = self.layout.pages;
        let owned = self.survey().owned();
        match self.random.below(9) {
            0 => 0,
            1 => pages,
            2 => pages - 1,
            3 => 1,
            4 => 2,
            5 if !owned.is_empty() => *self.random.pick(&owned),
            // Right only in fewer bits.
            6 if !owned.is_empty() => *self.random.pick(&owned) + 256 * self.random.between(1, 255),
            7 => self.random.below(65_536),
            _ => self.random.below(pages),
        }
    }

    fn start_page(&mut self) {
        if let Some(at) = self.some_entry() {
            let page = self.some_page();
            let start = self.layout.start;
            start.put(&mut self.image[at..at + ENTRY], page);
        }
    }

    /// A link that ends a chain early or late, or leads where it must not: back,
    /// to itself, into another chain, to a page set aside, out of the image.
    fn link_in(&mut self, pages: &[usize]) {
        let page = *self.random.pick(pages);
        let link = match self.random.below(3) {
            0 => *self.random.pick(pages),
            1 => 0,
            _ => self.some_page(),
        };
        self.layout.link(page).put(self.image, link);
    }

    fn link_of_file(&mut self) {
        let mut files = self.survey().entries;
        files.retain(|met| self.image[met.at] & 1 == 0 && !met.pages.is_empty());
        if !files.is_empty() {
            let pages = self.random.pick(&files).pages.clone();
            self.link_in(&pages);
        }
    }

    /// A directory's, half of the time the root's.
    fn link_of_directory(&mut self) {
        let directories = self.survey().directories;
        let pages = match self.random.chance(1, 2) {
            true => &directories[0],
            false => self.random.pick(&directories),
        };
        self.link_in(&pages.clone());
    }

    fn put_entry(&mut self, at: usize, flags: u8, name: u8, start: usize, size: usize) {
        let layout = self.layout;
        let entry = &mut self.image[at..at + ENTRY];
        entry.fill(0);
        entry[0] = flags;
        entry[NAME_AT] = name;
        layout.start.put(entry, start);
        layout.size.put(entry, size);
    }

    /// A free entry comes alive with whatever it holds, or with a chosen start.
    fn occupy_free_entry(&mut self) {
        let free = self.survey().free_entries;
        if free.is_empty() {
            return;
        }
        let at = *self.random.pick(&free);
        let page = self.some_page();
        match self.random.below(4) {
            0 => self.image[at] |= 0x80,
            1 => self.put_entry(at, 0x81, b'X', page, self.layout.page),
            _ => {
                let size = *self.random.pick(&[0, 0, 1, 255]);
                self.put_entry(at, 0x80, b'X', page, size);
            }
        }
    }

    /// A directory that holds itself, one above it, or page 0.
    fn self_holding_directory(&mut self) {
        let directories = self.survey().directories;
        let pages = self.random.pick(&directories);
        let holder = *self.random.pick(pages);
        let held = match self.random.below(3) {
            0 => holder,
            1 => self.random.pick(&directories)[0],
            _ => 0,
        };
        let places: Vec<usize> = self.layout.entry_places(holder).collect();
        let at = *self.random.pick(&places);
        self.put_entry(at, 0x81, b'S', held, self.layout.page);
    }

    fn any_byte(&mut self) {
        let at = match self.random.below(2) {
            0 => self.random.below(self.layout.aside * self.layout.page),
            _ => self.random.below(self.image.len()),
        };
        self.image[at] = self.random.byte();
    }
}
