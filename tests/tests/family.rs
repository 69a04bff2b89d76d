//! One family's directory, whatever the others hold (document 02 §14): two sound
//! images in which one path is a directory with equal contents, and calls below
//! it. They answer alike in both, with places and buffers; with equal free
//! counts so do those that change it, and afterwards contents and free counts
//! are equal again.

use zealfs_tests::assemble::{assemble, Order};
use zealfs_tests::calls::{Answer, Base, Call, Calls, CALL_COUNT, CALL_NAMES, NUMBERS};
use zealfs_tests::desk::{Desk, DATE};
use zealfs_tests::generate::{random_tree, Generator};
use zealfs_tests::plain::reader::judge;
use zealfs_tests::plain::tree::{Directory, Entry, File, Node, Tree};
use zealfs_tests::plain::{
    pages_of_file, Plain, Replay, CONTENT, DIRECTORY_ENTRIES, PAGE, ROOT_ENTRIES,
};
use zealfs_tests::random::Random;
use zealfs_tests::settings;
use zealfs_tests::subjects::all;

/// How often each call got each number.
type Tally = [[u64; NUMBERS]; CALL_COUNT];

/// Names on the way to the family's directory; the others may have them too.
const NAMES: [&[u8]; 5] = [b"A", b"0042", b"42", b"7", b"AAAAAAAAAAAAAAAA"];

/// The name of a file that takes up pages elsewhere.
const FILLER: &[u8] = b"what is left";

/// Two trees that agree on the directory at the end of the names.
struct Pair {
    names: Vec<&'static [u8]>,
    trees: [Tree; 2],
}

/// The pages that everything in a directory needs.
fn needs(directory: &Directory) -> usize {
    let pages = directory.occupied().map(|entry| match &entry.node {
        Node::File(file) => pages_of_file(file.content.len()),
        Node::Directory(below) => 1 + needs(below),
    });
    pages.sum()
}

/// The free pages of a tree; None if it has more than fit.
fn room(tree: &Tree) -> Option<usize> {
    (tree.pages - 1).checked_sub(needs(&tree.root))
}

/// What a directory of so many entries may hold, in any of them.
fn random_contents(entries: usize, random: &mut Random) -> Directory {
    let pages = 8 * *random.pick(&[1, 1, 2, 4]);
    let mut contents = random_tree(pages, random).root;
    contents.entries.resize(entries, None);
    random.shuffle(&mut contents.entries);
    contents
}

/// The directory of that name, which takes the place of a file or of nothing.
fn entered<'a>(above: &'a mut Directory, name: &[u8], random: &mut Random) -> &'a mut Directory {
    let is_named = |entry: &Option<Entry>| entry.as_ref().is_some_and(|entry| entry.name == name);
    let position = above.entries.iter().position(is_named);
    let position = position.unwrap_or_else(|| random.below(above.entries.len()));
    let entry = &mut above.entries[position];
    let is_there =
        matches!(entry, Some(Entry { name: other, node: Node::Directory(_), .. }) if other == name);
    if !is_there {
        let mut date = [0; 8];
        random.fill(&mut date);
        *entry = Some(Entry {
            name: name.to_vec(),
            date,
            node: Node::Directory(Directory::empty(DIRECTORY_ENTRIES)),
        });
    }
    match entry {
        Some(Entry {
            node: Node::Directory(below),
            ..
        }) => below,
        _ => unreachable!("it is a directory now"),
    }
}

/// Puts the family's contents where the names lead.
fn graft(tree: &mut Tree, names: &[&[u8]], contents: &Directory, random: &mut Random) {
    let mut directory = &mut tree.root;
    for name in names {
        directory = entered(directory, name, random);
    }
    *directory = contents.clone();
}

/// Takes up pages outside the family's directory until so many are free; not if
/// that is the root.
fn leave(tree: &mut Tree, names: &[&[u8]], free: usize, random: &mut Random) -> Option<()> {
    if room(tree)? == free {
        return Some(());
    }
    let first = names.first()?;
    let is_spare = |entry: &Option<Entry>| entry.as_ref().is_none_or(|entry| entry.name != *first);
    let spare = tree.root.entries.iter().position(is_spare)?;
    tree.root.entries[spare] = None;
    let pages = room(tree)?.checked_sub(free)?;
    if pages > 0 {
        let size = pages * CONTENT - random.below(CONTENT);
        tree.root.entries[spare] = Some(Entry {
            name: FILLER.to_vec(),
            date: DATE,
            node: Node::File(File {
                content: random.bytes(size),
                locked: random.chance(1, 4),
            }),
        });
    }
    Some(())
}

/// A random pair, with equal free counts or with any.
fn random_pair(equally_free: bool, random: &mut Random) -> Pair {
    loop {
        let depth = random.weighted(&[1, 4, 4, 2]);
        let names: Vec<&[u8]> = (0..depth).map(|_| *random.pick(&NAMES)).collect();
        let entries = if depth == 0 {
            ROOT_ENTRIES
        } else {
            DIRECTORY_ENTRIES
        };
        let contents = random_contents(entries, random);
        let mut trees = [(); 2].map(|()| {
            let pages = 8 * *random.pick(&[1, 2, 4, 8, 32]);
            let mut tree = random_tree(pages, random);
            graft(&mut tree, &names, &contents, random);
            tree
        });
        let (Some(first), Some(second)) = (room(&trees[0]), room(&trees[1])) else {
            continue;
        };
        if equally_free {
            let most = first.min(second);
            let free = match random.chance(1, 2) {
                true => most,
                false => random.below(most.min(5) + 1),
            };
            let mut left = trees
                .iter_mut()
                .map(|tree| leave(tree, &names, free, random));
            if left.any(|left| left.is_none()) {
                continue;
            }
        }
        return Pair { names, trees };
    }
}

impl Pair {
    /// The path of the directory.
    fn path(&self) -> Vec<u8> {
        match self.names.len() {
            0 => b"/".to_vec(),
            _ => self
                .names
                .iter()
                .flat_map(|name| [b"/", *name].concat())
                .collect(),
        }
    }

    fn images(&self, random: &mut Random) -> [Vec<u8>; 2] {
        self.trees.each_ref().map(|tree| {
            let order = *random.pick(&[Order::Rising, Order::Scattered]);
            assemble(tree, order, random)
        })
    }
}

/// The directory that the names lead to.
fn contents<'a>(tree: &'a Tree, names: &[&[u8]]) -> &'a Directory {
    names.iter().fold(&tree.root, |directory, name| {
        let mut named = directory.occupied().filter(|entry| entry.name == *name);
        match named.next().map(|entry| &entry.node) {
            Some(Node::Directory(below)) => below,
            _ => panic!("the family's directory is gone"),
        }
    })
}

/// A path below the directory, by one from the directory on; None for the
/// directory itself. It is below by its bytes, also where it is no path.
fn below(family: &[u8], relative: &[u8]) -> Option<Vec<u8>> {
    let rest = relative.strip_prefix(b"/").unwrap_or(relative);
    match (rest, family) {
        ([], _) => None,
        (_, b"/") => Some([b"/", rest].concat()),
        _ => Some([family, b"/", rest].concat()),
    }
}

/// The same call in the family's directory: find, read and list, and if it may
/// change something the others.
fn in_family(call: &Call, family: &[u8], changes: bool) -> Option<Call> {
    let path = |relative: &[u8]| below(family, relative);
    match call.clone() {
        Call::Find(at) => path(&at).map(Call::Find),
        Call::List(at, entry) => {
            let at = path(&at).unwrap_or(family.to_vec());
            Some(Call::List(at, entry))
        }
        Call::Read(at, position, buffer) => path(&at).map(|at| Call::Read(at, position, buffer)),
        _ if !changes => None,
        Call::MakeFile(at, date) => path(&at).map(|at| Call::MakeFile(at, date)),
        Call::MakeDirectory(at, date) => path(&at).map(|at| Call::MakeDirectory(at, date)),
        Call::Write(at, position, bytes) => path(&at).map(|at| Call::Write(at, position, bytes)),
        Call::RemoveFile(at) => path(&at).map(Call::RemoveFile),
        Call::RemoveDirectory(at) => path(&at).map(Call::RemoveDirectory),
        Call::Lock(at) => path(&at).map(Call::Lock),
        Call::Unlock(at) => path(&at).map(Call::Unlock),
        Call::Format | Call::Verdict | Call::Store(..) | Call::Repair => None,
        // None of the link list's calls is named there.
        Call::LinksRead(..) | Call::LinksWrite(..) => None,
        Call::LinksFind(..) | Call::LinksCheck(..) => None,
    }
}

/// Calls in the family's directory that suit what it holds.
fn random_calls(pair: &Pair, changes: bool, random: &mut Random) -> Vec<Call> {
    let family = pair.path();
    let tree = &pair.trees[0];
    let held = contents(tree, &pair.names);
    let mut replay = Replay::formatted(tree.pages * PAGE);
    replay.tree = Tree {
        root: held.clone(),
        ..Tree::empty(1 + needs(held) + room(tree).expect("it fits"))
    };
    let count = random.between(1, 30);
    let mut generator = Generator::new(replay, random);
    let mut calls = Vec::new();
    for _ in 0..3 * count {
        let before = generator.replay.tree.clone();
        let call = generator.next_call();
        match in_family(&call, &family, changes) {
            Some(call) => calls.push(call),
            None => generator.replay.tree = before,
        }
    }
    calls.truncate(count);
    calls
}

/// Performs the calls; each with its answer and the buffer that it leaves.
fn run(calls: &dyn Calls, image: &mut [u8], list: &[Call]) -> Vec<(Answer, Call)> {
    let performed = list.iter().map(|call| {
        let mut call = call.clone();
        (call.perform(calls, image), call)
    });
    performed.collect()
}

/// Performs the calls on both images, which have to answer alike; the images
/// afterwards.
fn run_both(
    what: &str,
    calls: &dyn Calls,
    images: &[Vec<u8>; 2],
    list: &[Call],
    tally: &mut Tally,
) -> [Vec<u8>; 2] {
    let mut after = images.clone();
    let [first, second] = after.each_mut().map(|image| run(calls, image, list));
    for (step, (one, other)) in first.iter().zip(&second).enumerate() {
        assert_eq!(one, other, "{what}: call {step} of {list:?}");
        let (answer, call) = one;
        tally[call.index()][usize::from(answer.number)] += 1;
    }
    after
}

fn print_tally(tally: &Tally) {
    for (name, numbers) in CALL_NAMES.iter().zip(tally) {
        let met = numbers.iter().enumerate().filter(|(_, &count)| count > 0);
        let met: Vec<String> = met
            .map(|(number, count)| format!("{number}: {count}"))
            .collect();
        println!("{name:>16}  {}", met.join(", "));
    }
}

/// Sees that each call was given each of the numbers.
fn check_coverage(tally: &Tally, expected: &[(&str, &[usize])]) {
    for (name, numbers) in expected {
        let call = CALL_NAMES.iter().position(|other| other == name);
        let met = tally[call.expect("a call")];
        for &number in *numbers {
            assert!(met[number] > 0, "{name} was never given {number}");
        }
    }
}

/// Find, read and list: whatever N and the free counts are.
#[test]
fn looks_are_alike() {
    let subjects = all();
    let (first, lists) = (settings::seed(), settings::lists() / 10);
    let mut tally = [[0; NUMBERS]; CALL_COUNT];
    let mut unequal = [0; 2];
    for seed in (0..lists).map(|list| first.wrapping_add(list)) {
        let mut random = Random::new(seed ^ 0xFA31_1700_0000_0000);
        let pair = random_pair(false, &mut random);
        let images = pair.images(&mut random);
        let list = random_calls(&pair, false, &mut random);
        unequal[0] += u64::from(images[0].len() != images[1].len());
        unequal[1] += u64::from(images[0][3] != images[1][3]);
        for subject in &subjects {
            let what = format!("family {seed}, {}", subject.name);
            let calls = subject.calls.as_ref();
            let after = run_both(&what, calls, &images, &list, &mut tally);
            assert!(after == images, "{what}: looking changes an image");
        }
    }
    println!("{lists} pairs, of which {unequal:?} differ in N and in the free count");
    print_tally(&tally);
    assert!(unequal.iter().all(|&count| count >= lists / 2));
    if lists >= 5_000 {
        check_coverage(
            &tally,
            &[
                ("find", &[0, 4, 5, 6]),
                ("list", &[0, 4, 5, 6, 12]),
                ("read", &[0, 4, 5, 6, 7, 12]),
            ],
        );
    }
}

/// All calls, where the free counts are equal.
#[test]
fn works_are_alike() {
    let subjects = all();
    let (first, lists) = (settings::seed(), settings::lists() / 10);
    let mut tally = [[0; NUMBERS]; CALL_COUNT];
    let mut unequal = 0;
    for seed in (0..lists).map(|list| first.wrapping_add(list)) {
        let mut random = Random::new(seed ^ 0xFA31_1740_0000_0000);
        let pair = random_pair(true, &mut random);
        let images = pair.images(&mut random);
        assert_eq!(images[0][3], images[1][3]);
        let list = random_calls(&pair, true, &mut random);
        unequal += u64::from(images[0].len() != images[1].len());
        for subject in &subjects {
            let what = format!("family {seed}, {}", subject.name);
            let calls = subject.calls.as_ref();
            let after = run_both(&what, calls, &images, &list, &mut tally);
            let trees = after.each_ref().map(|image| judge(image).expect("sound"));
            let [one, other] = trees.each_ref().map(|tree| contents(tree, &pair.names));
            assert_eq!(one, other, "{what}: contents after {list:?}");
            assert_eq!(after[0][3], after[1][3], "{what}: free after {list:?}");
            let free = trees.each_ref().map(Tree::free);
            assert_eq!(free, [usize::from(after[0][3]); 2], "{what}");
        }
    }
    println!("{lists} pairs, of which {unequal} differ in N");
    print_tally(&tally);
    assert!(unequal >= lists / 2);
    if lists >= 5_000 {
        check_coverage(
            &tally,
            &[
                ("find", &[0, 4, 5, 6]),
                ("list", &[0, 4, 5, 6, 12]),
                ("read", &[0, 4, 5, 6, 7, 12]),
                ("make_file", &[0, 4, 5, 6, 8, 9, 10, 11]),
                ("make_directory", &[0, 4, 5, 6, 8, 9, 10, 11]),
                ("write", &[0, 4, 5, 6, 7, 10, 12, 25]),
                ("remove_file", &[0, 4, 5, 6, 7, 25]),
                ("remove_directory", &[0, 4, 5, 6, 13]),
                ("lock", &[0, 4, 5, 6, 7]),
                ("unlock", &[0, 4, 5, 6, 7]),
            ],
        );
    }
}

/// Looks at everything at and below the directory.
fn look_at_all(pair: &Pair) -> Vec<Call> {
    let family = pair.path();
    let held = Tree {
        root: contents(&pair.trees[0], &pair.names).clone(),
        ..Tree::empty(256)
    };
    let at = |relative: &[u8]| below(&family, relative).expect("a name");
    let entries = |path: Vec<u8>| (0..8).map(move |entry| Call::List(path.clone(), entry));
    let mut calls: Vec<Call> = entries(family.clone()).collect();
    for (path, entry) in held.paths() {
        match &entry.node {
            Node::Directory(_) => calls.extend(entries(at(&path))),
            Node::File(file) => {
                calls.push(Call::Read(at(&path), 0, vec![0x55; file.content.len()]));
            }
        }
    }
    calls
}

/// The comparison tells: one thing changed in what the directory holds shows to
/// who looks at all of it.
#[test]
fn a_difference_below_shows() {
    let mut random = Random::new(settings::seed());
    let mut shown = 0;
    while shown < 200 {
        let mut pair = random_pair(false, &mut random);
        let list = look_at_all(&pair);
        let mut changed = contents(&pair.trees[1], &pair.names).clone();
        let Some(entry) = changed.entries.iter_mut().flatten().next() else {
            continue;
        };
        match &mut entry.node {
            Node::File(file) if !file.content.is_empty() => {
                let at = random.below(file.content.len());
                file.content[at] ^= 1;
            }
            Node::File(file) => file.locked = !file.locked,
            Node::Directory(_) => entry.date[7] ^= 1,
        }
        let names = pair.names.clone();
        graft(&mut pair.trees[1], &names, &changed, &mut random);
        let images = pair.images(&mut random);
        for subject in all() {
            let [one, other] = images.each_ref().map(|image| {
                let mut image = image.clone();
                run(subject.calls.as_ref(), &mut image, &list)
            });
            assert_ne!(one, other, "{}", subject.name);
        }
        shown += 1;
    }
}

/// What can be noticed: the free count, by a make or write that is refused with
/// 10, and the directory's own date by a find at it.
#[test]
fn what_is_noticed() {
    for subject in all() {
        let calls = subject.calls.as_ref();
        let mut desks = [2048, 2048].map(|length| Desk::fresh(calls, length));
        for desk in &mut desks {
            assert_eq!(desk.make_directory("/A"), 0);
            assert_eq!(desk.make_file("/A/7"), 0);
        }
        let [alone, other] = &mut desks;
        assert_eq!(other.make_file("/B"), 0);
        assert_eq!(other.write("/B", 0, 5 * CONTENT), 0);
        assert_eq!((alone.free(), other.free()), (5, 0));
        assert_eq!(alone.find("/A/7"), other.find("/A/7"));
        let wants_a_page = |desk: &mut Desk| [desk.make_file("/A/8"), desk.write("/A/7", 0, 256)];
        assert_eq!(wants_a_page(alone), [0, 0]);
        assert_eq!(wants_a_page(other), [10, 10]);
        let date = [0x19, 0x99, 0x01, 0x01, 0, 0, 0, 0];
        let mut later = Desk::fresh(calls, 2048).image;
        assert!(calls.make_directory(&mut later, b"/A", &date).is_granted());
        assert_ne!(calls.find(&later, b"/A"), alone.find("/A"));
        assert_eq!(Plain.verdict(&later).number, 0);
    }
}
