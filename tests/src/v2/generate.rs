//! Random lists of version 2's calls. The calls themselves are those of the
//! shared generator, on a tree of version 2; what is here are the sizes, page
//! codes and starting images, directories that are full or have grown, and
//! format.

use super::assemble::assemble;
use super::calls::{Call, ROW};
use super::damage::damage;
use super::harness::Scenario;
use super::plain::Replay;
use crate::assemble::Order;
use crate::calls::Call as Shared;
use crate::generate::{below, good_date, scramble, Generator as SharedGenerator, Weights};
use crate::plain::path::parse;
use crate::plain::tree::{Directory, Entry, File, Node, Tree};
use crate::random::Random;

/// What a list is mostly about: how often each of version 2's calls comes. The
/// first, format, comes by itself.
const PROFILES: [Weights; 5] = [
    // Everything.
    [0, 3, 6, 8, 10, 14, 10, 22, 8, 7, 5, 4, 0, 0, 0, 0, 0],
    // Filling up and making room.
    [0, 1, 1, 1, 3, 8, 3, 30, 7, 2, 1, 2, 0, 0, 0, 0, 0],
    // Directories that grow.
    [0, 1, 2, 8, 1, 30, 12, 2, 5, 4, 1, 1, 0, 0, 0, 0, 0],
    // Making and removing.
    [0, 1, 2, 3, 1, 14, 14, 3, 9, 9, 3, 2, 0, 0, 0, 0, 0],
    // Looking.
    [0, 3, 10, 14, 16, 4, 2, 6, 1, 1, 3, 2, 0, 0, 0, 0, 0],
];

/// Lengths with a page code that goes with them, and how often each comes:
/// mostly small ones, and those at which links or codes change.
const SIZES: [(usize, u64, usize); 26] = [
    (2048, 0, 200),
    (4096, 0, 200),
    (4096, 1, 60),
    (6144, 0, 300),
    (8192, 0, 250),
    (8192, 1, 80),
    (8192, 2, 40),
    (16_384, 0, 100),
    (16_384, 1, 150),
    (16_384, 2, 30),
    (49_152, 0, 6),
    (51_200, 0, 6),
    (53_248, 0, 6),
    (49_152, 2, 8),
    (65_536, 0, 6),
    (65_536, 1, 6),
    (65_536, 2, 12),
    (69_632, 1, 12),
    (73_728, 1, 4),
    (73_728, 2, 12),
    (131_072, 1, 4),
    (131_072, 2, 3),
    (262_144, 1, 3),
    (262_144, 2, 3),
    (270_336, 2, 2),
    (1_048_576, 2, 2),
];

/// A length and a page code that goes with it.
pub fn random_size(random: &mut Random) -> (usize, u64) {
    let weights = SIZES.map(|(_, _, weight)| weight);
    let (length, code, _) = SIZES[random.weighted(&weights)];
    (length, code)
}

/// A random list of calls from a random sound image.
pub fn scenario(seed: u64) -> Scenario {
    let mut random = Random::new(seed);
    let (length, code) = random_size(&mut random);
    let image = starting_image(length, code, &mut random);
    let replay = Replay::of(&image).expect("the starting image is sound");
    let longest = match length {
        0..=16_384 => 50,
        16_385..=131_072 => 25,
        _ => 12,
    };
    let count = random.between(1, longest);
    let mut generator = Generator::new(replay, &mut random);
    let calls = (0..count).map(|_| generator.next_call()).collect();
    Scenario { image, calls }
}

/// Calls on an image that is damaged, which would have suited it before.
pub fn damaged_scenario(seed: u64) -> Scenario {
    // Another sequence than that of the lists from sound images.
    let mut random = Random::new(seed ^ 0xDA4A_6ED0_0000_0000);
    let (length, code) = match random.chance(1, 8) {
        true => random_size(&mut random),
        false => *random.pick(&[(4096, 0), (6144, 0), (8192, 0), (8192, 1)]),
    };
    let tree = random_tree(length, code, &mut random);
    let mut image = assemble(&tree, Order::Scattered, &mut random);
    let replay = Replay::of(&image).expect("sound");
    damage(&mut image, &mut random);
    let mut calls = vec![Call::Same(Shared::Verdict)];
    let count = random.between(1, 4);
    let mut generator = Generator::new(replay, &mut random);
    calls.extend((0..count).map(|_| generator.next_call()));
    Scenario { image, calls }
}

/// A sound image: fresh, with one file on all pages, nested, or with a random
/// tree.
pub fn starting_image(length: usize, code: u64, random: &mut Random) -> Vec<u8> {
    let tree = match random.weighted(&[25, 4, 2, 69]) {
        0 => empty_tree(length, code),
        1 => one_file(length, code, random),
        2 => nested_tree(length, code, usize::MAX, random),
        _ => random_tree(length, code, random),
    };
    let order = *random.pick(&[Order::Rising, Order::Scattered]);
    assemble(&tree, order, random)
}

fn empty_tree(length: usize, code: u64) -> Tree {
    let replay = Replay::formatted(length, code);
    replay.expect("a length and its page code").tree
}

fn some_entry(name: &[u8], node: Node, random: &mut Random) -> Entry {
    Entry {
        name: name.to_vec(),
        date: good_date(random),
        node,
    }
}

/// A tree whose only file has every page, or all but one.
fn one_file(length: usize, code: u64, random: &mut Random) -> Tree {
    let mut tree = empty_tree(length, code);
    let page = tree.shape.page;
    let size = tree.free() * page - *random.pick(&[0, 0, 1, page - 1, page]);
    let file = File {
        content: random.bytes(size),
        locked: random.chance(1, 8),
    };
    let position = random.below(tree.root.entries.len());
    tree.root.entries[position] = Some(some_entry(b"F", Node::File(file), random));
    tree
}

/// A nest of at most `depth` directories, each the only entry of the one above.
pub fn nested_tree(length: usize, code: u64, depth: usize, random: &mut Random) -> Tree {
    let mut tree = empty_tree(length, code);
    let entries = tree.shape.page_entries;
    let mut innermost = Directory::empty(entries);
    for _ in 1..depth.min(tree.free()) {
        let mut above = Directory::empty(entries);
        let position = random.below(entries);
        above.entries[position] = Some(some_entry(b"D", Node::Directory(innermost), random));
        innermost = above;
    }
    tree.root.entries[0] = Some(some_entry(b"D", Node::Directory(innermost), random));
    tree
}

/// The tree that a random list of calls leaves, with directories that are full or
/// have grown, and any stored dates and locks.
pub fn random_tree(length: usize, code: u64, random: &mut Random) -> Tree {
    let replay = Replay::formatted(length, code).expect("a length and its page code");
    // A short list leaves pages free, by which directories can grow.
    let most = *random.pick(&[4, 4, 12 + (length / 512).min(40)]);
    let count = random.between(1, most);
    let mut generator = Generator::new(replay, random);
    for _ in 0..count {
        generator.shared.next_call();
    }
    let mut tree = generator.shared.replay.tree;
    for _ in 0..random.below(5) {
        crowd(&mut tree, random);
    }
    scramble(&mut tree.root.entries, random);
    tree
}

/// Lengthens the row of some directory, or fills some of its entries.
fn crowd(tree: &mut Tree, random: &mut Random) {
    let mut directories = vec![b"/".to_vec()];
    directories.extend(paths_of(tree, is_directory));
    let path = random.pick(&directories).clone();
    let (mut free, entries) = (tree.free(), tree.shape.page_entries);
    let names = parse(&path).expect("a path");
    let directory = tree.directory_mut(&names).expect("a directory");
    for _ in 0..*random.pick(&[0, 0, 1, 1, 2, 3]) {
        if free > 0 {
            let longer = directory.entries.len() + entries;
            directory.entries.resize(longer, None);
            free -= 1;
        }
    }
    let density = *random.pick(&[0, 1, 4, 8, 8]);
    // Sometimes all but the first page is filled.
    let first = *random.pick(&[0, 0, entries]);
    let taken: Vec<Vec<u8>> = directory
        .occupied()
        .map(|entry| entry.name.clone())
        .collect();
    for (number, place) in directory.entries.iter_mut().enumerate().skip(first) {
        let name = format!("n{number}").into_bytes();
        let is_filled = place.is_none() && free > 0 && !taken.contains(&name);
        if is_filled && random.chance(density, 8) {
            let node = match random.chance(1, 5) {
                true => Node::Directory(Directory::empty(entries)),
                false => Node::File(File::default()),
            };
            *place = Some(some_entry(&name, node, random));
            free -= 1;
        }
    }
}

fn is_directory(entry: &Entry) -> bool {
    matches!(entry.node, Node::Directory(_))
}

fn is_full(directory: &Directory) -> bool {
    directory.entries.iter().all(Option::is_some)
}

/// The paths of the entries that `wanted` holds of.
fn paths_of(tree: &Tree, wanted: fn(&Entry) -> bool) -> Vec<Vec<u8>> {
    let paths = tree.paths().into_iter();
    let wanted = paths.filter(|(_, entry)| wanted(entry));
    wanted.map(|(path, _)| path).collect()
}

/// Makes calls that suit the tree so far, and replays them on it.
pub struct Generator<'r> {
    shared: SharedGenerator<'r>,
    length: usize,
}

impl<'r> Generator<'r> {
    pub fn new(replay: Replay, random: &'r mut Random) -> Generator<'r> {
        let weights = PROFILES[random.weighted(&[4, 2, 6, 2, 1])];
        let length = replay.tree.pages * replay.tree.shape.page;
        let replay = crate::plain::Replay::from(replay.tree, length);
        let shared = SharedGenerator::weighted(replay, random, weights);
        Generator { shared, length }
    }

    /// The next call; the tree follows it.
    pub fn next_call(&mut self) -> Call {
        match self.shared.random.weighted(&[2, 16, 9, 80]) {
            0 => self.format(),
            1 => self.make_in_full_directory(),
            2 => self.entries(),
            _ => Call::Same(self.shared.next_call()),
        }
    }

    /// Mostly a code that goes with the length.
    fn format(&mut self) -> Call {
        let random = &mut *self.shared.random;
        let code = match random.below(8) {
            0 => *random.pick(&[3, 255, 256, 257, 1 << 32, (1 << 32) + 1, u64::MAX]),
            1 => random.number(),
            _ => random.below(4) as u64,
        };
        if let Ok(fresh) = Replay::formatted(self.length, code) {
            self.shared.replay.tree = fresh.tree;
        }
        Call::Format(code)
    }

    /// Entries from the first, about the last or from anywhere on, with room for
    /// none, some or all of them and for a part of one more.
    fn entries(&mut self) -> Call {
        let path = self.shared.directory_path();
        let tree = &self.shared.replay.tree;
        let directory = parse(&path).and_then(|names| tree.directory(&names));
        let count = directory.map_or(8, |directory| directory.entries.len());
        let anywhere = self.shared.entry_number();
        let random = &mut *self.shared.random;
        let first = match random.weighted(&[4, 3, 2]) {
            0 => 0,
            1 => (count + 1 - random.below(count.min(4) + 1)) as u64,
            _ => anywhere,
        };
        let room = match random.below(4) {
            0 => random.below(4),
            1 => random.below(count + 2),
            _ => count,
        };
        let rest = *random.pick(&[0, 0, 1, 31]);
        let rows = random.bytes(room * ROW + rest);
        Call::Entries(path, first, rows)
    }

    /// A new entry in a directory without an empty one, if there is any such.
    fn make_in_full_directory(&mut self) -> Call {
        let tree = &self.shared.replay.tree;
        let mut paths = paths_of(tree, |entry| match &entry.node {
            Node::Directory(directory) => is_full(directory),
            Node::File(_) => false,
        });
        if is_full(&tree.root) {
            paths.push(b"/".to_vec());
        }
        if paths.is_empty() {
            return Call::Same(self.shared.next_call());
        }
        let random = &mut *self.shared.random;
        let name = format!("{:08}", random.below(100_000_000)).into_bytes();
        let parent: &Vec<u8> = random.pick(&paths);
        let path = below(parent, &name);
        let date = good_date(random).to_vec();
        let mut call = match random.chance(1, 3) {
            true => Shared::MakeDirectory(path, date),
            false => Shared::MakeFile(path, date),
        };
        let _ = self.shared.replay.tree.step(&mut call);
        Call::Same(call)
    }
}
