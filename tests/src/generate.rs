//! Random lists of calls, biased to the boundaries of the paper's rules. The
//! tree is replayed while the list is made, so that paths hit what is there.

use crate::assemble::{assemble, nest, Order};
use crate::calls::{Call, CALL_COUNT, DATE_BYTES};
use crate::harness::Scenario;
use crate::plain::links::{file_of, path_in, rows_of, Row};
use crate::plain::path::days_in;
use crate::plain::tree::{Entry, File, Node, Shape, Tree};
use crate::plain::{Replay, CONTENT, PAGE};
use crate::random::Random;
use crate::rows::{numbers_of, random_row, rows_filling, sorted, spoil_file, spoil_list};

/// Names that are easily confused, and the limits of length and of bytes.
const NAMES: [&[u8]; 23] = [
    b"0042",
    b"42",
    b"042",
    b"00042",
    b".",
    b"..",
    b"A",
    b"a",
    b"AB",
    b"7",
    b" ",
    b"  ",
    b"~",
    b"!",
    b"0",
    b"00",
    b"AAAAAAAAAAAAAAA",
    b"AAAAAAAAAAAAAAAA",
    b"AAAAAAAAAAAAAAAB",
    b"read me.txt",
    b"LINKS",
    b"LINKS",
    b"LINK",
];

/// Lengths at which pages are gained that carry so much content each.
fn lengths(content: usize) -> [usize; 14] {
    let (one, two) = (content, 2 * content);
    [
        0,
        1,
        2,
        one - 2,
        one - 1,
        one,
        one + 1,
        one + 2,
        two - 1,
        two,
        two + 1,
        two + 2,
        3 * content,
        7 * content,
    ]
}

/// How often each of the calls comes, in the order of [`Call::index`].
pub type Weights = [usize; CALL_COUNT];

/// What a list is mostly about.
const PROFILES: [Weights; 6] = [
    // Everything.
    [1, 3, 6, 8, 10, 14, 10, 22, 8, 7, 5, 4, 12, 4, 6, 4, 4],
    // Filling up and making room.
    [0, 1, 1, 1, 3, 8, 3, 30, 7, 2, 1, 2, 12, 0, 6, 0, 0],
    // Nesting.
    [0, 1, 3, 4, 1, 4, 24, 3, 2, 5, 1, 1, 5, 0, 2, 0, 0],
    // Making and removing.
    [0, 1, 2, 3, 1, 14, 14, 3, 9, 9, 3, 2, 6, 0, 0, 0, 0],
    // Looking.
    [0, 3, 10, 14, 16, 4, 2, 6, 1, 1, 3, 2, 8, 1, 1, 1, 1],
    // Link lists.
    [0, 1, 1, 1, 2, 12, 5, 12, 4, 1, 2, 2, 2, 12, 18, 12, 12],
];

/// A random list of calls from a random sound image.
pub fn scenario(seed: u64) -> Scenario {
    let mut random = Random::new(seed);
    let length = image_length(&mut random);
    let image = starting_image(length, &mut random);
    let replay = Replay::of(&image).expect("the starting image is sound");
    let longest = if length > 8192 { 40 } else { 60 };
    let count = random.between(1, longest);
    let mut generator = Generator::new(replay, &mut random);
    let calls = (0..count).map(|_| generator.next_call()).collect();
    Scenario { image, calls }
}

fn image_length(random: &mut Random) -> usize {
    match random.weighted(&[50, 25, 8, 9, 8]) {
        0 => 2048,
        1 => 8192,
        2 => 32_768,
        3 => 65_536,
        _ => 2048 * random.between(1, 32),
    }
}

/// A sound image: fresh, nested to the page limit, with one file on all pages,
/// or with a random tree.
pub fn starting_image(length: usize, random: &mut Random) -> Vec<u8> {
    let pages = length / PAGE;
    let tree = match random.weighted(&[40, 4, 4, 52]) {
        0 => Tree::empty(pages),
        1 => {
            let depth = pages - 1 - random.below(2);
            nest(pages, depth, *random.pick(&[1, 2, 16]))
        }
        2 => one_file(pages, random),
        _ => random_tree(pages, random),
    };
    let order = *random.pick(&[Order::Rising, Order::Scattered]);
    assemble(&tree, order, random)
}

/// A tree whose only file has every page, or all but one.
fn one_file(pages: usize, random: &mut Random) -> Tree {
    let mut tree = Tree::empty(pages);
    let size = (pages - 1) * CONTENT - *random.pick(&[0, 0, 1, 254, 255]);
    let entry = Entry {
        name: random.pick(&NAMES).to_vec(),
        date: good_date(random),
        node: Node::File(File {
            content: random.bytes(size),
            locked: random.chance(1, 8),
        }),
    };
    let position = random.below(tree.root.entries.len());
    tree.root.entries[position] = Some(entry);
    tree
}

/// The tree that a random list of calls leaves, with any stored dates and
/// locks.
pub fn random_tree(pages: usize, random: &mut Random) -> Tree {
    let replay = Replay::formatted(pages * PAGE);
    let count = random.between(1, 12 + pages / 2);
    let mut generator = Generator::new(replay, random);
    for _ in 0..count {
        generator.next_call();
    }
    let mut tree = generator.replay.tree;
    scramble(&mut tree.root.entries, random);
    tree
}

/// The verdict does not judge stored dates, so that any may stand there. A file
/// may be locked from the beginning.
pub fn scramble(entries: &mut [Option<Entry>], random: &mut Random) {
    for entry in entries.iter_mut().flatten() {
        if random.chance(1, 3) {
            random.fill(&mut entry.date);
        }
        match &mut entry.node {
            Node::File(file) => file.locked |= random.chance(1, 8),
            Node::Directory(below) => scramble(&mut below.entries, random),
        }
    }
}

/// Makes calls that suit the tree so far, and replays them on it.
pub struct Generator<'r> {
    pub replay: Replay,
    pub random: &'r mut Random,
    weights: Weights,
}

impl<'r> Generator<'r> {
    pub fn new(replay: Replay, random: &'r mut Random) -> Generator<'r> {
        let weights = PROFILES[random.weighted(&[5, 3, 2, 2, 1, 2])];
        Generator::weighted(replay, random, weights)
    }

    pub fn weighted(replay: Replay, random: &'r mut Random, weights: Weights) -> Generator<'r> {
        Generator {
            replay,
            random,
            weights,
        }
    }

    /// What the tree's pages carry.
    fn shape(&self) -> Shape {
        self.replay.tree.shape
    }

    /// A length at which a page is gained, or one about it.
    fn length(&mut self) -> usize {
        *self.random.pick(&lengths(self.replay.tree.shape.content))
    }

    /// The next call; the tree follows it.
    pub fn next_call(&mut self) -> Call {
        let mut which = self.random.weighted(&self.weights);
        if matches!(which, 4 | 7 | 10 | 11) && !self.has(is_file) && self.random.chance(9, 10) {
            // Nothing to read, write or lock yet.
            which = 5;
        }
        let call = match which {
            0 => Call::Format,
            1 => Call::Verdict,
            2 => Call::Find(self.path()),
            3 => Call::List(self.directory_path(), self.entry_number()),
            4 => self.read_call(),
            5 => Call::MakeFile(self.new_path(), self.date()),
            6 => Call::MakeDirectory(self.new_path(), self.date()),
            7 => self.write_call(),
            8 => Call::RemoveFile(self.removed_path(is_file)),
            9 => Call::RemoveDirectory(self.removed_path(is_directory)),
            10 => Call::Lock(self.file_path()),
            11 => Call::Unlock(self.unlocked_path()),
            12 => self.store_call(),
            13 => self.links_read_call(),
            14 => self.links_write_call(),
            15 => self.links_find_call(),
            _ => Call::LinksCheck(self.links_directory()),
        };
        self.replay.step(&mut call.clone());
        call
    }

    /// Whether there is an entry that `wanted` holds of.
    fn has(&self, wanted: fn(&Entry) -> bool) -> bool {
        let paths = self.replay.tree.paths();
        paths.iter().any(|(_, entry)| wanted(entry))
    }

    fn read_call(&mut self) -> Call {
        let path = self.file_path();
        let size = self.size_at(&path);
        let position = self.position(size);
        let rest = size.saturating_sub(position as usize);
        let room = match self.random.below(6) {
            0 => rest,
            1 => rest + 1,
            2 => rest.saturating_sub(1),
            3 => self.random.below(600),
            4 if self.random.chance(1, 8) => 66_000,
            _ => self.length(),
        };
        Call::Read(path, position, self.random.bytes(room))
    }

    fn store_call(&mut self) -> Call {
        let path = self.new_path();
        let date = self.date();
        let length = self.write_length(0, 0);
        let stores = self.shape().pages_of_file(length) as u64;
        let number = match self.random.below(8) {
            0 => 0,
            1 => stores,
            2 => stores + 1,
            3 => stores + 2,
            4 => stores.wrapping_sub(1),
            5 => self.random.below(stores as usize + 1) as u64,
            6 => self.random.below(4) as u64,
            _ => self.far_position(stores),
        };
        let room = match self.random.below(40) {
            0 => self.random.below(300),
            1 => *self.random.pick(&[0, 1, 255, 257, 512, 65_536]),
            _ => PAGE,
        };
        let content = self.random.bytes(length);
        Call::Store(path, date, content, number, self.random.bytes(room))
    }

    /// The directory of a link list that is there, or any.
    fn links_directory(&mut self) -> Vec<u8> {
        let paths = self.replay.tree.paths().into_iter();
        let lists = paths.filter_map(|(path, _)| Some(path.strip_suffix(b"/LINKS")?.to_vec()));
        let directories: Vec<Vec<u8>> = lists.collect();
        if directories.is_empty() || self.random.chance(1, 5) {
            return self.directory_path();
        }
        match self.random.pick(&directories).as_slice() {
            b"" => b"/".to_vec(),
            directory => directory.to_vec(),
        }
    }

    /// The rows of the directory's list; of one with a broken row those before.
    fn rows_in(&self, directory: &[u8]) -> Vec<Row> {
        let tree = &self.replay.tree;
        tree.link_rows(directory).unwrap_or_else(|refusal| {
            let mut before = vec![0; refusal.place[0] as usize];
            let read = tree.read(&path_in(directory), 0, &mut before);
            match refusal.number == 21 && read.is_ok() {
                true => rows_of(&before).unwrap_or_default(),
                false => Vec::new(),
            }
        })
    }

    fn links_read_call(&mut self) -> Call {
        let directory = self.links_directory();
        let needed = 3 * self.rows_in(&directory).len();
        let length = match self.random.below(8) {
            0 => needed.saturating_sub(1),
            1 => needed,
            2 => needed + self.random.between(1, 3),
            3 => needed.saturating_sub(3),
            4 => 0,
            _ => needed + self.random.below(30),
        };
        let numbers = (0..length).map(|_| self.random.number());
        Call::LinksRead(directory, numbers.collect())
    }

    fn links_write_call(&mut self) -> Call {
        let directory = self.links_directory();
        let date = self.date();
        let rows = self.rows(&directory);
        let mut numbers = numbers_of(&rows);
        if self.random.chance(1, 5) {
            spoil_list(&mut numbers, self.random);
        }
        Call::LinksWrite(directory, date, numbers)
    }

    /// Rows in order: of files that are there, random ones, or as many as fill
    /// what is free.
    fn rows(&mut self, directory: &[u8]) -> Vec<Row> {
        let mut rows = Vec::new();
        if self.random.chance(1, 6) {
            let tree = &self.replay.tree;
            let old = tree.find(&path_in(directory)).map_or(0, |found| {
                tree.shape.pages_of_file(found.values[1] as usize)
            });
            let free = tree.free() + old;
            // A long list takes its time.
            let is_far = free > 16 && self.random.chance(7, 8);
            let length = match self.random.below(3) {
                0 if !is_far => free * CONTENT,
                1 if !is_far => free * CONTENT + 1,
                _ => self.length(),
            };
            return rows_filling(length);
        }
        if self.random.chance(1, 2) {
            let above = directory.strip_suffix(b"/").unwrap_or(directory).to_vec();
            for (path, _) in self.replay.tree.paths() {
                let name = path.strip_prefix(above.as_slice());
                let name = name.and_then(|name| name.strip_prefix(b"/"));
                let figure = self.random.number() % 1000;
                rows.extend(name.and_then(|name| row_named(name, figure)));
            }
        }
        for _ in 0..self.random.below(4) {
            rows.push(random_row(self.random));
        }
        sorted(rows)
    }

    fn links_find_call(&mut self) -> Call {
        let directory = self.links_directory();
        let rows = self.rows_in(&directory);
        let Row {
            mut count,
            mut value,
            ..
        } = match rows.is_empty() || self.random.chance(1, 8) {
            true => random_row(self.random),
            false => *self.random.pick(&rows),
        };
        match self.random.below(10) {
            0 => count += 1,
            1 => value += 1,
            2 => count += 1 << 32,
            3 => value = self.random.number(),
            _ => {}
        }
        Call::LinksFind(directory, count, value)
    }

    fn write_call(&mut self) -> Call {
        let path = self.written_path();
        if path.ends_with(b"/LINKS") && self.random.chance(2, 3) {
            let directory = path[..path.len() - 6].to_vec();
            let mut file = file_of(&self.rows(&directory));
            spoil_file(&mut file, self.random);
            return Call::Write(path, 0, file);
        }
        let size = self.size_at(&path);
        let position = self.position(size);
        let length = self.write_length(size, position);
        Call::Write(path, position, self.random.bytes(length))
    }

    /// Lengths at page boundaries, and those that fill the image exactly or
    /// want one page more.
    fn write_length(&mut self, size: usize, position: u64) -> usize {
        let shape = self.shape();
        let pages = shape.pages_of_file(size) + self.replay.tree.free();
        let room = (pages * shape.content).saturating_sub(position as usize);
        match self.random.weighted(&[60, 14, 12, 4, 4, 6, 1]) {
            0 => self.length(),
            1 => self.random.below(1200),
            2 => room,
            3 => room + 1,
            4 => room.saturating_sub(self.random.below(300)),
            5 => size.saturating_sub(position as usize) + self.random.below(3),
            _ => *self.random.pick(&[65_025, 65_026, 65_535, 65_536, 70_000]),
        }
    }

    /// Positions in, at and past a size, up to the largest.
    fn position(&mut self, size: usize) -> u64 {
        let inside = self.random.below(size + 1) as u64;
        let size = size as u64;
        let content = self.shape().content as u64;
        match self.random.weighted(&[24, 20, 10, 8, 12, 3, 3]) {
            0 => size,
            1 => 0,
            2 => inside,
            3 => inside / content * content,
            4 => size.saturating_sub(1),
            5 => size + 1,
            _ => self.far_position(inside),
        }
    }

    /// Positions that become good ones if they are cut to fewer bits, or if a
    /// sum with them wraps.
    fn far_position(&mut self, inside: u64) -> u64 {
        match self.random.below(7) {
            0 => u64::MAX,
            1 => u64::MAX - self.random.below(600) as u64,
            2 => inside + (1 << 16),
            3 => inside + (1 << 32),
            4 => inside.wrapping_sub(1),
            5 => inside + (1 << 63),
            _ => self.random.number(),
        }
    }

    pub(crate) fn entry_number(&mut self) -> u64 {
        let shape = self.shape();
        let most = shape.page_entries;
        let near = self.random.below(most + 1) as u64;
        // A directory that grows may have more pages.
        let past = match shape.grows {
            true => (most * *self.random.pick(&[0, 0, 0, 1, 1, 2, 3])) as u64,
            false => 0,
        };
        match self.random.weighted(&[40, 30, 2, 2, 2, 2]) {
            0 => near + past,
            1 => self.random.between(shape.root_entries - 1, most) as u64 + past,
            2 => near + 256,
            3 => near + (1 << 32),
            4 => u64::MAX - near,
            _ => self.random.number(),
        }
    }

    /// The size of the file at the path, 0 if there is none.
    fn size_at(&self, path: &[u8]) -> usize {
        match self.replay.tree.find(path) {
            Ok(found) => found.values[1] as usize,
            Err(_) => 0,
        }
    }

    /// The path of anything, or of nothing.
    fn path(&mut self) -> Vec<u8> {
        match self.random.weighted(&[60, 12, 10, 10, 4]) {
            0 => self.entry_path(|_| true),
            1 => self.missing_path(),
            2 => self.confused_path(),
            3 => self.malformed_path(),
            _ => b"/".to_vec(),
        }
    }

    fn file_path(&mut self) -> Vec<u8> {
        if self.random.chance(4, 5) {
            self.entry_path(is_file)
        } else {
            self.path()
        }
    }

    /// Mostly the path of a file that may be written.
    fn written_path(&mut self) -> Vec<u8> {
        if self.has(is_open) && self.random.chance(2, 3) {
            self.entry_path(is_open)
        } else {
            self.file_path()
        }
    }

    /// Half of the time the path of a locked file, if there is one.
    fn unlocked_path(&mut self) -> Vec<u8> {
        if self.has(is_locked) && self.random.chance(1, 2) {
            self.entry_path(is_locked)
        } else {
            self.file_path()
        }
    }

    pub(crate) fn directory_path(&mut self) -> Vec<u8> {
        match self.random.weighted(&[5, 2, 2]) {
            0 => self.entry_path(is_directory),
            1 => b"/".to_vec(),
            _ => self.path(),
        }
    }

    /// Half of the time the path of an entry of the wanted kind, if there is
    /// one; else of anything, also of the other kind.
    fn removed_path(&mut self, wanted: fn(&Entry) -> bool) -> Vec<u8> {
        if self.has(wanted) && self.random.chance(1, 2) {
            self.entry_path(wanted)
        } else {
            self.path()
        }
    }

    /// The path of one of the entries that `wanted` holds of; the root's if
    /// there is none.
    fn entry_path(&mut self, wanted: fn(&Entry) -> bool) -> Vec<u8> {
        let mut paths = self.replay.tree.paths();
        paths.retain(|(_, entry)| wanted(entry));
        if paths.is_empty() {
            return b"/".to_vec();
        }
        // The last path is often the deepest or the newest one.
        let index = match self.random.chance(1, 4) {
            true => paths.len() - 1,
            false => self.random.below(paths.len()),
        };
        paths.swap_remove(index).0
    }

    /// A path whose last name may be made, mostly.
    fn new_path(&mut self) -> Vec<u8> {
        if self.random.chance(1, 8) {
            return self.path();
        }
        let parent = match self.random.weighted(&[3, 4, 1]) {
            0 => b"/".to_vec(),
            1 => self.entry_path(is_directory),
            _ => self.entry_path(|_| true),
        };
        let name = self.name();
        below(&parent, &name)
    }

    fn name(&mut self) -> Vec<u8> {
        if self.random.chance(2, 3) {
            return self.random.pick(&NAMES).to_vec();
        }
        let length = *self.random.pick(&[1, 1, 2, 3, 8, 15, 16]);
        let printable = |_| match self.random.between(0x20, 0x7E) as u8 {
            b'/' => b'0',
            byte => byte,
        };
        (0..length).map(printable).collect()
    }

    /// A name that is perhaps not there, below something that is, or two such
    /// names.
    fn missing_path(&mut self) -> Vec<u8> {
        let above = self.entry_path(|_| true);
        let mut path = below(&above, &self.name());
        if self.random.chance(1, 3) {
            path = below(&path, &self.name());
        }
        path
    }

    /// The path of an entry with one thing about its last name changed.
    fn confused_path(&mut self) -> Vec<u8> {
        let mut path = self.entry_path(|_| true);
        let begins = path
            .iter()
            .rposition(|&byte| byte == b'/')
            .map_or(0, |at| at + 1);
        match self.random.below(5) {
            0 => path.insert(begins, b'0'),
            1 if path.len() > begins + 1 => drop(path.remove(begins)),
            2 if path.len() > begins + 1 => drop(path.pop()),
            3 => path.push(*self.random.pick(b" 0A")),
            _ => {
                if let Some(last) = path.last_mut() {
                    *last ^= 0x20;
                }
            }
        }
        path
    }

    /// Bytes that are no path, mostly made from those of one that is.
    fn malformed_path(&mut self) -> Vec<u8> {
        let mut path = self.entry_path(|_| true);
        match self.random.below(10) {
            0 => path.clear(),
            1 => path.push(b'/'),
            2 => path.insert(0, b'/'),
            3 => drop(path.remove(0)),
            4 => path.push(0),
            5 => path = below(&path, b"AAAAAAAAAAAAAAAAA"),
            6 => path = below(&below(&path, b""), b"A"),
            7 => {
                let at = self.random.below(path.len());
                path[at] = *self
                    .random
                    .pick(&[0, 1, 0x0A, 0x1F, 0x7F, 0x80, 0xAF, 0xFF, b'/']);
            }
            8 => path = self.long_path(),
            _ => {
                let length = self.random.below(24);
                path = self.random.bytes(length);
            }
        }
        path
    }

    /// A path of more bytes than any that is there, good or bad at its end.
    fn long_path(&mut self) -> Vec<u8> {
        let names = *self.random.pick(&[300, 4000]);
        let mut path = b"/AAAAAAAAAAAAAAAA".repeat(names);
        let ends: [&[u8]; 4] = [b"/A", b"/", b"A", b""];
        let end: &[u8] = ends[self.random.below(ends.len())];
        path.extend_from_slice(end);
        path
    }

    /// Mostly a good date; else one with one field wrong, one that no calendar
    /// has, or one of another length.
    fn date(&mut self) -> Vec<u8> {
        let good = good_date(self.random);
        match self.random.weighted(&[30, 2, 2, 1, 1]) {
            0 => good.to_vec(),
            1 => bad_date(good, self.random).to_vec(),
            2 => unreal_date(good, self.random).to_vec(),
            3 => self.random.bytes(DATE_BYTES),
            _ => {
                let length = *self.random.pick(&[0, 1, 7, 9, 16]);
                good.iter().copied().cycle().take(length).collect()
            }
        }
    }
}

fn is_file(entry: &Entry) -> bool {
    matches!(entry.node, Node::File(_))
}

fn is_directory(entry: &Entry) -> bool {
    !is_file(entry)
}

fn is_locked(entry: &Entry) -> bool {
    entry.node.is_locked()
}

/// Whether it is a file that may be written.
fn is_open(entry: &Entry) -> bool {
    is_file(entry) && !is_locked(entry)
}

/// The row that names a file by its digits, if the name has no other byte.
fn row_named(name: &[u8], figure: u64) -> Option<Row> {
    let is_digits = !name.is_empty() && name.iter().all(u8::is_ascii_digit);
    let digits = std::str::from_utf8(name).ok().filter(|_| is_digits)?;
    Some(Row {
        count: name.len() as u64,
        value: digits.parse().ok()?,
        figure,
    })
}

/// The path of `name` in the directory `parent`.
pub fn below(parent: &[u8], name: &[u8]) -> Vec<u8> {
    match parent {
        b"/" => [b"/", name].concat(),
        _ => [parent, b"/", name].concat(),
    }
}

fn bcd(number: usize) -> u8 {
    (number / 10 * 16 + number % 10) as u8
}

/// The lowest and the highest value of each field of a date; of the day, in the
/// longest month.
const FIELDS: [(usize, usize); DATE_BYTES] = [
    (0, 99),
    (0, 99),
    (1, 12),
    (1, 31),
    (0, 99),
    (0, 23),
    (0, 59),
    (0, 59),
];

/// Years at which the rule of leap years turns.
const YEARS: [usize; 12] = [0, 1, 4, 100, 400, 1600, 1900, 2000, 2023, 2024, 2100, 9999];

/// Any good date, often of February and often the last day of its month.
pub fn good_date(random: &mut Random) -> [u8; DATE_BYTES] {
    let mut date = FIELDS.map(|(low, high)| bcd(near_an_end(low, high, random)));
    if random.chance(1, 2) {
        let year = *random.pick(&YEARS);
        (date[0], date[1]) = (bcd(year / 100), bcd(year % 100));
    }
    if random.chance(1, 4) {
        date[2] = 0x02;
    }
    date[3] = bcd(near_an_end(1, last_day(&date), random));
    date
}

/// A number of a range: half of the time its first or its last.
fn near_an_end(low: usize, high: usize, random: &mut Random) -> usize {
    match random.below(4) {
        0 => low,
        1 => high,
        _ => random.between(low, high),
    }
}

/// The last day of the month of a good date.
fn last_day(date: &[u8; DATE_BYTES]) -> usize {
    let number = |byte: u8| byte / 16 * 10 + byte % 16;
    let year = u16::from(number(date[0])) * 100 + u16::from(number(date[1]));
    usize::from(days_in(year, number(date[2])))
}

/// Makes one field of a good date wrong, by its digits or by its range.
fn bad_date(mut date: [u8; DATE_BYTES], random: &mut Random) -> [u8; DATE_BYTES] {
    let field = random.below(DATE_BYTES);
    let (low, high) = FIELDS[field];
    let digit = random.between(10, 15) as u8;
    date[field] = match random.below(4) {
        0 if high < 99 => bcd(high + 1),
        1 if low > 0 => bcd(low - 1),
        2 => date[field] & 0xF0 | digit,
        _ => date[field] & 0x0F | digit << 4,
    };
    date
}

/// A day that the month of a good date doesn't have, but another month may.
fn unreal_date(mut date: [u8; DATE_BYTES], random: &mut Random) -> [u8; DATE_BYTES] {
    let past = last_day(&date) + 1;
    date[3] = bcd(random.between(past, past.max(31)));
    date
}
