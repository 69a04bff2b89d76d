//! What the benchmarks perform: images and the calls on them, all granted.

use crate::assemble::{assemble, nest, Order};
use crate::calls::{Base, Call, Calls};
use crate::desk::{pattern, Desk, DeskOf, DATE};
use crate::direct::Direct;
use crate::plain::CONTENT;
use crate::random::Random;
use crate::rows::{most_rows, numbers_of};
use std::hint::black_box;

/// Lengths of the images.
pub const LENGTHS: [usize; 4] = [2048, 8192, 32_768, 65_536];

/// The bytes of the longest file that an image can hold.
pub fn longest(length: usize) -> usize {
    (length / 256 - 1) * 255
}

/// What is performed, with an implementation of one version's calls.
pub trait Task: Clone + PartialEq {
    type Calls: ?Sized;

    /// Performs it; answers whether it was granted.
    fn perform(&mut self, calls: &Self::Calls, image: &mut [u8]) -> bool;
}

/// What is performed of version 1: a call of the lists, or one that stands
/// outside them.
#[derive(Clone, Debug, PartialEq, Eq)]
pub enum Work {
    Call(Call),
    Audit,
    /// The row that is filled.
    Propose(Vec<u8>),
    /// The proposal, and the second buffer.
    Tidy(Vec<u8>, Vec<u8>),
}

impl Task for Work {
    type Calls = dyn Calls;

    fn perform(&mut self, calls: &dyn Calls, image: &mut [u8]) -> bool {
        match self {
            Work::Call(call) => black_box(call.perform(calls, image)).is_granted(),
            Work::Audit => black_box(calls.audit(image)).sound == 1,
            Work::Propose(places) => black_box(calls.propose(image, places)).is_granted(),
            Work::Tidy(places, target) => black_box(calls.tidy(image, places, target)).is_granted(),
        }
    }
}

/// One call on one image.
pub struct Case<W = Work> {
    pub what: String,
    pub image: Vec<u8>,
    pub work: W,
}

/// Each of the calls on images of all lengths that are near empty, half
/// full, full and nested to the page limit.
pub fn calls() -> Vec<Case> {
    let mut cases = Vec::new();
    for length in LENGTHS {
        for workload in workloads(length) {
            let calls = one_of_each(&workload.directory, CONTENT);
            for call in [Call::Format].into_iter().chain(calls) {
                let size = length / 1024;
                let what = format!("{size} KiB, {}, {}", workload.name, call.name());
                let image = workload.image.clone();
                let work = Work::Call(call);
                cases.push(Case { what, image, work });
            }
        }
    }
    cases
}

/// The calls of document 02 §7, §8, §11 and §13 on the same images. A repair has
/// a lost page to win back, a store is one of a new file of two pages, and what is
/// carried out is the helper's own proposal.
pub fn beside() -> Vec<Case> {
    let mut cases = Vec::new();
    for length in LENGTHS {
        for workload in workloads(length) {
            for (name, image, work) in one_of_each_beside(&workload) {
                let what = format!("{} KiB, {}, {name}", length / 1024, workload.name);
                cases.push(Case { what, image, work });
            }
        }
    }
    cases
}

fn one_of_each_beside(workload: &Workload) -> Vec<(&'static str, Vec<u8>, Work)> {
    let image = &workload.image;
    let pages = image.len() / 256;
    let mut lost = image.clone();
    let is_free = |page: &usize| image[4 + page / 8] >> (page % 8) & 1 == 0;
    let free = (0..pages).find(is_free).expect("two pages are free");
    lost[4 + free / 8] |= 1 << (free % 8);
    let path = format!("{}/N", workload.directory).into_bytes();
    let store = |number| {
        let page = vec![0; 256];
        Work::Call(Call::Store(
            path.clone(),
            DATE.to_vec(),
            pattern(256),
            number,
            page,
        ))
    };
    let mut places = vec![0; pages];
    assert!(Direct.propose(image, &mut places).is_granted());
    let target = vec![0; image.len()];
    vec![
        ("repair", lost, Work::Call(Call::Repair)),
        ("audit", image.clone(), Work::Audit),
        ("store a page", image.clone(), store(0)),
        ("store the header", image.clone(), store(2)),
        ("propose", image.clone(), Work::Propose(vec![0; pages])),
        ("tidy", image.clone(), Work::Tidy(places, target)),
    ]
}

/// The calls of the link list (document 02 §4), on 64 KiB: of a full directory,
/// whose other files are the seven of the list, and of the longest list there is.
pub fn link_lists() -> Vec<Case> {
    let mut desk = Desk::fresh(&Direct, 65_536);
    assert_eq!(desk.make_directory("/D"), 0);
    let short: Vec<u64> = (1..8).flat_map(|digit| [1, digit, digit]).collect();
    for digit in 1..8 {
        assert_eq!(desk.make_file(&format!("/D/{digit}")), 0);
    }
    let mut cases = list_cases(&mut desk, "/D", &short);
    let check = Work::Call(Call::LinksCheck(b"/D".to_vec()));
    cases.push(Case {
        what: "7 rows, links_check".into(),
        image: desk.image,
        work: check,
    });
    let long = numbers_of(&most_rows(longest(65_536)));
    let mut desk = Desk::fresh(&Direct, 65_536);
    cases.extend(list_cases(&mut desk, "/", &long));
    cases
}

/// The list written, and then read, searched for its last row, and written over.
fn list_cases(desk: &mut Desk, directory: &str, numbers: &[u64]) -> Vec<Case> {
    let path = directory.as_bytes().to_vec();
    let rows = numbers.len() / 3;
    let empty = desk.image.clone();
    let answer = desk
        .calls
        .links_write(&mut desk.image, &path, &DATE, numbers);
    assert!(answer.is_granted());
    let last = &numbers[3 * (rows - 1)..];
    let write = Call::LinksWrite(path.clone(), DATE.to_vec(), numbers.to_vec());
    let read = Call::LinksRead(path.clone(), vec![0; numbers.len()]);
    let find = Call::LinksFind(path, last[0], last[1]);
    let case = |name: &str, image: &[u8], call: Call| Case {
        what: format!("{rows} rows, {name}"),
        image: image.to_vec(),
        work: Work::Call(call),
    };
    vec![
        case("links_write", &empty, write.clone()),
        case("links_write over", &desk.image, write),
        case("links_read", &desk.image, read),
        case("links_find the last", &desk.image, find),
    ]
}

/// The longest file of an image of this length read, written into an empty
/// file, and written over.
pub fn transfers(length: usize) -> Vec<Case> {
    let desk = Desk::fresh(&Direct, length);
    transfers_on(desk, longest(length), Work::Call)
}

/// The same on a fresh image of either version whose longest file has so many
/// bytes.
pub fn transfers_on<C: Base + ?Sized, W>(
    mut desk: DeskOf<C>,
    longest: usize,
    work: fn(Call) -> W,
) -> Vec<Case<W>> {
    assert_eq!(desk.make_file("/F"), 0);
    let empty = desk.image.clone();
    assert_eq!(desk.write("/F", 0, longest), 0);
    let written = desk.image;
    let read = Call::Read(b"/F".to_vec(), 0, vec![0; longest]);
    let write = Call::Write(b"/F".to_vec(), 0, pattern(longest));
    let case = |what: &str, image: &[u8], call: &Call| Case {
        what: format!("{longest} bytes, {what}"),
        image: image.to_vec(),
        work: work(call.clone()),
    };
    vec![
        case("read", &written, &read),
        case("write into an empty file", &empty, &write),
        case("write over", &written, &write),
    ]
}

/// One byte at either end of the longest file.
pub fn single_bytes() -> Vec<Case> {
    let desk = Desk::fresh(&Direct, 65_536);
    single_bytes_on(desk, longest(65_536), Work::Call)
}

/// The same on a fresh image of either version.
pub fn single_bytes_on<C: Base + ?Sized, W>(
    mut desk: DeskOf<C>,
    longest: usize,
    work: fn(Call) -> W,
) -> Vec<Case<W>> {
    assert_eq!(desk.make_file("/F"), 0);
    assert_eq!(desk.write("/F", 0, longest), 0);
    let image = desk.image;
    let mut cases = Vec::new();
    for (which, position) in [("first", 0), ("last", longest as u64 - 1)] {
        let read = Call::Read(b"/F".to_vec(), position, vec![0; 1]);
        let write = Call::Write(b"/F".to_vec(), position, vec![1; 1]);
        for call in [read, write] {
            let what = format!("{longest} bytes, {} the {which}", call.name());
            let image = image.clone();
            let work = work(call);
            cases.push(Case { what, image, work });
        }
    }
    cases
}

/// An image and the directory in which the calls take place: it holds the file F
/// of one page and the empty directory E, and N is not there.
pub struct Workload {
    pub name: &'static str,
    pub image: Vec<u8>,
    pub directory: String,
}

impl Workload {
    /// One whose calls take place in the root.
    pub fn at_root(name: &'static str, image: Vec<u8>) -> Workload {
        Workload {
            name,
            image,
            directory: String::new(),
        }
    }
}

fn workloads(length: usize) -> Vec<Workload> {
    let pages = length / 256;
    // The header, F, E, D, and two pages left for the calls to take.
    let others = 6;
    let filled = |pages| filled(Desk::fresh(&Direct, length), pages, CONTENT);
    vec![
        Workload::at_root("near empty", filled(0)),
        Workload::at_root("half full", filled(pages / 2 - others / 2)),
        Workload::at_root("full", filled(pages - others)),
        deep(pages),
    ]
}

/// A fresh image with F and E, and below D that many pages of files and
/// directories. A page of a file carries so much content.
pub fn filled<C: Base + ?Sized>(mut desk: DeskOf<C>, pages: usize, content: usize) -> Vec<u8> {
    make_file(&mut desk, "/F", content);
    for path in ["/E", "/D"] {
        assert_eq!(desk.make_directory(path), 0);
    }
    fill(&mut desk, "/D", pages, content);
    desk.image
}

/// Fills a directory with up to 7 files, or shares the pages among 4 below.
fn fill<C: Base + ?Sized>(desk: &mut DeskOf<C>, directory: &str, pages: usize, content: usize) {
    let mut files = pages;
    if pages > 7 {
        let share = (pages - 4) / 4;
        for name in 0..4 {
            let below = format!("{directory}/{name}");
            assert_eq!(desk.make_directory(&below), 0);
            fill(desk, &below, share, content);
        }
        files = pages - 4 - 4 * share;
    }
    for name in 0..files {
        make_file(desk, &format!("{directory}/file {name}"), content);
    }
}

/// A file of one page.
fn make_file<C: Base + ?Sized>(desk: &mut DeskOf<C>, path: &str, content: usize) {
    assert_eq!(desk.make_file(path), 0);
    assert_eq!(desk.write(path, 0, content), 0);
}

/// Directories nested as deep as the pages allow, with F and E in the deepest.
fn deep(pages: usize) -> Workload {
    let depth = pages - 5;
    let tree = nest(pages, depth, 8);
    let image = assemble(&tree, Order::Scattered, &mut Random::new(7));
    let desk = Desk {
        calls: &Direct,
        image,
    };
    deepest(desk, "/DDDDDDDD".repeat(depth), CONTENT)
}

/// Makes F and E in the deepest directory, whose path is given.
pub fn deepest<C: Base + ?Sized>(
    mut desk: DeskOf<C>,
    directory: String,
    content: usize,
) -> Workload {
    make_file(&mut desk, &format!("{directory}/F"), content);
    assert_eq!(desk.make_directory(&format!("{directory}/E")), 0);
    Workload {
        name: "deep",
        image: desk.image,
        directory,
    }
}

/// One call of each kind that both versions have, in this directory.
pub fn one_of_each(directory: &str, content: usize) -> Vec<Call> {
    let directory = directory.as_bytes();
    let file = [directory, b"/F"].concat();
    let empty = [directory, b"/E"].concat();
    let new = [directory, b"/N"].concat();
    let listed = if directory.is_empty() {
        b"/"
    } else {
        directory
    };
    vec![
        Call::Verdict,
        Call::Find(file.clone()),
        Call::List(listed.to_vec(), 5),
        Call::Read(file.clone(), 0, vec![0; content]),
        Call::MakeFile(new.clone(), DATE.to_vec()),
        Call::MakeDirectory(new, DATE.to_vec()),
        Call::Write(file.clone(), content as u64, vec![1; content]),
        Call::RemoveFile(file.clone()),
        Call::RemoveDirectory(empty),
        Call::Lock(file.clone()),
        Call::Unlock(file),
    ]
}
