//! Performs the benchmark's calls one by one for callgrind to count their
//! instructions. `tests/count` runs it under valgrind and prints the table.
//!
//! Each line of its output is the name of one counted call: its group, who
//! performed it, and what it was, in the order in which callgrind writes its
//! counts. The argument is the version, 1 if there is none.

use std::env;
use zealfs_tests::calls::Calls;
use zealfs_tests::subjects::{behind, library, SubjectOf};
use zealfs_tests::v2;
use zealfs_tests::workloads::{
    beside, calls, link_lists, single_bytes, transfers, Case, Task, Work,
};

/// What callgrind is told to count of version 1, by this name.
#[no_mangle]
#[inline(never)]
fn counted_call(calls: &(dyn Calls + 'static), work: &mut Work, image: &mut [u8]) -> bool {
    work.perform(calls, image)
}

/// The same of version 2.
#[no_mangle]
#[inline(never)]
fn counted_call_2(
    calls: &(dyn v2::calls::Calls + 'static),
    work: &mut v2::workloads::Work,
    image: &mut [u8],
) -> bool {
    work.perform(calls, image)
}

/// Either of them.
type Counted<W> = fn(&<W as Task>::Calls, &mut W, &mut [u8]) -> bool;

/// Who performs the calls, and what is counted.
struct Count<W: Task> {
    contestants: Vec<SubjectOf<W::Calls>>,
    counted: Counted<W>,
}

/// The longest image that is counted.
const LONGEST: usize = 1 << 20;

/// An image that begins at a page of memory, so that no count hangs on where it
/// lies.
#[repr(align(4096))]
struct Aligned([u8; LONGEST]);

/// On the stack there may be no room for it.
fn aligned() -> Box<Aligned> {
    // SAFETY: bytes may be zero.
    unsafe { Box::new_zeroed().assume_init() }
}

impl<W: Task> Count<W> {
    fn all(&self, group: &str, cases: Vec<Case<W>>) {
        for case in cases {
            self.one(group, &case);
        }
    }

    fn one(&self, group: &str, case: &Case<W>) {
        let mut memory = aligned();
        let image = &mut memory.0[..case.image.len()];
        let mut ends = Vec::new();
        for contestant in &self.contestants {
            let calls = contestant.calls.as_ref();
            let mut work = case.work.clone();
            // Once before, so that the dynamic linker has bound what is called.
            image.copy_from_slice(&case.image);
            assert!(work.perform(calls, image), "{}", case.what);
            image.copy_from_slice(&case.image);
            println!("{group}|{}|{}", contestant.name, case.what);
            assert!((self.counted)(calls, &mut work, image));
            ends.push((image.to_vec(), work));
        }
        let mut pairs = ends.windows(2);
        assert!(pairs.all(|two| two[0] == two[1]), "{}", case.what);
    }
}

fn count_version_1() {
    let count = Count {
        contestants: [behind()].into_iter().chain(library()).collect(),
        counted: counted_call,
    };
    count.all("calls", calls());
    count.all("transfers", transfers(65_536));
    count.all("transfers", single_bytes());
    count.all("beside", beside());
    count.all("links", link_lists());
    for length in [16_384, 32_768, 65_536] {
        count.all("growth", transfers(length));
    }
}

fn count_version_2() {
    use v2::subjects::{behind, library};
    use v2::workloads::{calls, single_bytes, transfers, trees, By, SIZES};
    let count = Count {
        contestants: [behind()].into_iter().chain(library()).collect(),
        counted: counted_call_2,
    };
    count.all("calls of version 2", calls());
    for (length, code) in SIZES {
        count.all("transfers of version 2", transfers(length, code));
    }
    count.all("transfers of version 2", single_bytes());
    count.all("trees of version 2", trees(By::Entries));
}

fn main() {
    match env::args().nth(1).as_deref() {
        None | Some("1") => count_version_1(),
        Some("2") => count_version_2(),
        Some(other) => panic!("there is no version {other}"),
    }
}
