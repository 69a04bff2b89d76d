//! What the benchmarks perform of version 2.

use super::assemble::assemble;
use super::calls::{Call, Calls, ROW};
use super::desk::Desk;
use super::direct::Direct;
use super::generate::nested_tree;
use super::layout::layout;
use super::plain::Replay;
use crate::assemble::Order;
use crate::calls::Call as Shared;
use crate::desk::DATE;
use crate::plain::tree::{Directory, Entry, Node, Tree};
use crate::random::Random;
use crate::workloads::{
    deepest, filled, one_of_each, single_bytes_on, transfers_on, Case as CaseOf, Task, Workload,
};
use std::hint::black_box;

/// Lengths of the images, with the least page code that goes with each.
pub const SIZES: [(usize, u64); 3] = [(65_536, 0), (262_144, 1), (1_048_576, 2)];

/// The largest.
const LARGEST: (usize, u64) = SIZES[2];

/// Rows that a walk of the tree lends at once.
const ROWS: usize = 1024;

/// What is performed.
#[derive(Clone, Debug, PartialEq, Eq)]
pub enum Work {
    Call(Call),
    /// All entries of the tree are told: how many there were, and how many of them
    /// are occupied.
    Tree(By, [u64; 2]),
}

/// The calls by which a tree is told.
#[derive(Clone, Copy, Debug, PartialEq, Eq)]
pub enum By {
    Entries,
    Lists,
}

impl Task for Work {
    type Calls = dyn Calls;

    fn perform(&mut self, calls: &dyn Calls, image: &mut [u8]) -> bool {
        match self {
            Work::Call(call) => black_box(call.perform(calls, image)).is_granted(),
            Work::Tree(by, met) => {
                *met = tell_tree(calls, image, *by);
                true
            }
        }
    }
}

/// One call, or one walk, on one image.
pub type Case = CaseOf<Work>;

/// Meets every entry of the tree.
fn tell_tree(calls: &dyn Calls, image: &[u8], by: By) -> [u64; 2] {
    let mut met = [0; 2];
    let mut paths = vec![Vec::new()];
    let mut rows = vec![0; ROWS * ROW];
    while let Some(path) = paths.pop() {
        let asked = if path.is_empty() { &b"/"[..] } else { &path };
        match by {
            By::Entries => {
                let mut first = 0;
                loop {
                    let [told, all, ..] = calls.entries(image, asked, first, &mut rows).values;
                    let told_rows = rows.chunks_exact(ROW).take(told as usize);
                    for row in told_rows.filter(|row| row[0] == 1) {
                        met[1] += 1;
                        if row[1] == 1 {
                            paths.push(below(&path, &row[16..]));
                        }
                    }
                    first += told;
                    if first == all {
                        break;
                    }
                }
                met[0] += first;
            }
            By::Lists => {
                let listed = (0..).map(|number| calls.list(image, asked, number));
                for answer in listed.take_while(|answer| answer.is_granted()) {
                    met[0] += 1;
                    met[1] += answer.values[0];
                    if answer.values[1] == 1 {
                        paths.push(below(&path, &answer.name));
                    }
                }
            }
        }
    }
    met
}

/// The path of a padded name in a directory; the root's is empty.
fn below(directory: &[u8], name: &[u8]) -> Vec<u8> {
    let name = name.split(|&byte| byte == 0).next().expect("a name");
    [directory, b"/", name].concat()
}

/// Each of the calls on images of all sizes that are near empty, half full, full
/// and nested to the page limit.
pub fn calls() -> Vec<Case> {
    let mut cases = Vec::new();
    for (length, code) in SIZES {
        let page = 256 << code;
        let size = match length >> 20 {
            0 => format!("{} KiB", length >> 10),
            mebibytes => format!("{mebibytes} MiB"),
        };
        for workload in workloads(length, code) {
            let directory = match workload.directory.as_str() {
                "" => b"/".to_vec(),
                path => path.as_bytes().to_vec(),
            };
            let shared = one_of_each(&workload.directory, page);
            let mut calls: Vec<Call> = shared.into_iter().map(Call::Same).collect();
            calls.insert(0, Call::Format(code));
            calls.push(Call::Entries(directory, 0, vec![0; ROWS * ROW]));
            for call in calls {
                let what = format!("{size}, {}, {}", workload.name, call.name());
                let image = workload.image.clone();
                let work = Work::Call(call);
                cases.push(Case { what, image, work });
            }
        }
    }
    cases
}

fn workloads(length: usize, code: u64) -> Vec<Workload> {
    let layout = layout(length, code).expect("a length and its page code");
    let page = layout.page;
    // The header, the table, F, E, D, and two pages left for the calls to take.
    let others = layout.aside + 5;
    let filled = |pages| filled(Desk::fresh(&Direct, length, code), pages, page);
    vec![
        Workload::at_root("near empty", filled(0)),
        Workload::at_root("half full", filled(layout.pages / 2 - others / 2)),
        Workload::at_root("full", filled(layout.pages - others)),
        deep(length, code),
    ]
}

/// Directories nested as deep as the pages allow, with F and E in the deepest.
fn deep(length: usize, code: u64) -> Workload {
    let layout = layout(length, code).expect("a length and its page code");
    // F, E, and two pages left.
    let depth = layout.pages - layout.aside - 4;
    let tree = nested_tree(length, code, depth, &mut Random::new(7));
    let desk = Desk {
        calls: &Direct,
        image: assembled(&tree),
    };
    deepest(desk, "/D".repeat(depth), layout.page)
}

fn assembled(tree: &Tree) -> Vec<u8> {
    assemble(tree, Order::Scattered, &mut Random::new(7))
}

/// The bytes of the longest file that an image can hold.
fn longest(length: usize, code: u64) -> usize {
    let layout = layout(length, code).expect("a length and its page code");
    (layout.pages - layout.aside) * layout.page
}

fn of_call(call: Shared) -> Work {
    Work::Call(Call::Same(call))
}

/// The longest file of an image read, written into an empty file, and written
/// over.
pub fn transfers(length: usize, code: u64) -> Vec<Case> {
    let desk = Desk::fresh(&Direct, length, code);
    transfers_on(desk, longest(length, code), of_call)
}

/// One byte at either end of the longest file of the largest image.
pub fn single_bytes() -> Vec<Case> {
    let (length, code) = LARGEST;
    let desk = Desk::fresh(&Direct, length, code);
    single_bytes_on(desk, longest(length, code), of_call)
}

/// The trees of the largest image that are the longest to tell.
pub fn trees(by: By) -> Vec<Case> {
    let (length, code) = LARGEST;
    let name = match by {
        By::Entries => "entries",
        By::Lists => "lists",
    };
    let case = |what: &str, image: Vec<u8>| Case {
        what: format!("{what}, by {name}"),
        image,
        work: Work::Tree(by, [0; 2]),
    };
    let nest = nested_tree(length, code, usize::MAX, &mut Random::new(7));
    vec![
        case("1,021 nested directories", assembled(&nest)),
        case("a directory with 989 files", many_files(length, code)),
        case(
            "an empty directory of 1,000 pages",
            many_pages(length, code),
        ),
    ]
}

fn many_files(length: usize, code: u64) -> Vec<u8> {
    let mut desk = Desk::fresh(&Direct, length, code);
    assert_eq!(desk.make_directory("/D"), 0);
    for number in 0..989 {
        assert_eq!(desk.make_file(&format!("/D/{number}")), 0);
    }
    desk.image
}

fn many_pages(length: usize, code: u64) -> Vec<u8> {
    let mut tree = Replay::formatted(length, code).expect("the largest").tree;
    let directory = Directory::empty(1000 * tree.shape.page_entries);
    tree.root.entries[0] = Some(Entry {
        name: b"D".to_vec(),
        date: DATE,
        node: Node::Directory(directory),
    });
    assembled(&tree)
}
