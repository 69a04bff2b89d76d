//! Time per call of the library and of the plain implementations, in one run,
//! for small and large, empty, full and deep images. Every call is granted;
//! `direct` is the measure. `count` tells instructions, which no other work on
//! the machine disturbs. The argument is the version, 1 if there is none.

use std::env;
use std::hint::black_box;
use std::time::Instant;
use zealfs_tests::calls::Call;
use zealfs_tests::plain::{Plain, CONTENT, PAGE};
use zealfs_tests::subjects::{behind, library, Subject, SubjectOf};
use zealfs_tests::v2;
use zealfs_tests::workloads::{beside, calls, link_lists, transfers, Case, Task};

/// Runs of which the least time is told.
const RUNS: usize = 400;
/// The same for version 2, whose images are up to 16 times as long.
const FEWER_RUNS: usize = 100;
/// Calls in one run, each on a copy of the image of its own.
const CALLS: usize = 4;

/// What is measured of version 1: the one on bytes, the one with the tree, and the
/// library when it is on.
fn contestants() -> Vec<Subject> {
    let tree = Subject {
        name: "tree",
        calls: Box::new(Plain),
    };
    [behind(), tree].into_iter().chain(library()).collect()
}

/// What is done to each copy of the image while the clock runs.
type Work<'a> = Box<dyn FnMut(&mut [u8]) + 'a>;

fn performing<'a, T: Task + 'a>(contestant: &'a SubjectOf<T::Calls>, task: &T) -> Work<'a> {
    let mut task = task.clone();
    Box::new(move |image| assert!(task.perform(contestant.calls.as_ref(), image)))
}

/// Where a long file has its content: from this byte on in pages of so many bytes,
/// the last of each.
#[derive(Clone, Copy)]
struct Pages {
    from: usize,
    page: usize,
    content: usize,
}

impl Pages {
    const VERSION_1: Pages = Pages {
        from: PAGE,
        page: PAGE,
        content: CONTENT,
    };
}

/// A copy with the memory pattern of a long read or write: the content of each
/// page between the image and one buffer, and nothing else.
fn copying(call: &Call, pages: Pages) -> Work<'static> {
    let Pages {
        from,
        page,
        content,
    } = pages;
    let link = page - content;
    match call.clone() {
        Call::Read(_, _, mut buffer) => Box::new(move |image| {
            let pages = image[from..].chunks(page);
            for (part, page) in buffer.chunks_mut(content).zip(pages) {
                part.copy_from_slice(&page[link..]);
            }
            black_box(&mut buffer);
        }),
        Call::Write(_, _, bytes) => Box::new(move |image| {
            let pages = image[from..].chunks_mut(page);
            for (part, page) in bytes.chunks(content).zip(pages) {
                page[link..].copy_from_slice(part);
            }
            black_box(image);
        }),
        _ => panic!("only reads and writes move content"),
    }
}

/// Nanoseconds per copy of the image in one run. The copies are as they were
/// when the clock starts.
fn run_once(work: &mut Work, image: &[u8], copies: &mut [Vec<u8>]) -> f64 {
    for copy in copies.iter_mut() {
        copy.copy_from_slice(image);
    }
    let started = Instant::now();
    for copy in copies.iter_mut() {
        work(copy);
    }
    started.elapsed().as_nanos() as f64 / copies.len() as f64
}

/// The least times of so many runs, in nanoseconds. Each run begins with another contestant,
/// and every second one goes round the other way.
fn measure(works: &mut [Work], image: &[u8], runs: usize, calls: usize) -> Vec<f64> {
    let mut copies = vec![image.to_vec(); calls];
    let count = works.len();
    let mut least = vec![f64::INFINITY; count];
    for run in 0..runs {
        for turn in 0..count {
            let step = if run % 2 == 0 { turn } else { count - turn };
            let index = (run / 2 + step) % count;
            let time = run_once(&mut works[index], image, &mut copies);
            least[index] = least[index].min(time);
        }
    }
    least
}

/// The times as a line, and the ratios to the first.
fn print_line(what: &str, times: &[f64]) {
    print!("{what:<40}");
    for time in times {
        print!("{time:>9.0} ns");
    }
    for time in &times[1..] {
        print!("{:>9.2}", time / times[0]);
    }
    println!();
}

fn print_head<C: ?Sized>(contestants: &[SubjectOf<C>]) {
    print!("{:<40}", "");
    for contestant in contestants {
        print!("{:>12}", contestant.name);
    }
    for contestant in &contestants[1..] {
        print!("{:>9}", contestant.name);
    }
    println!("  (ratio to direct)");
}

/// All these cases; answers the ratios of the last contestant.
fn bench_cases<T: Task>(
    contestants: &[SubjectOf<T::Calls>],
    cases: Vec<Case<T>>,
    runs: usize,
) -> Vec<f64> {
    let mut ratios = Vec::new();
    for Case { what, image, work } in cases {
        let works = contestants.iter().map(|one| performing(one, &work));
        let times = measure(&mut works.collect::<Vec<_>>(), &image, runs, CALLS);
        print_line(&what, &times);
        ratios.push(times[times.len() - 1] / times[0]);
    }
    ratios
}

/// The longest reads and writes there are, beside a copy of the same bytes from
/// and to the same places.
fn bench_transfers<T: Task>(
    contestants: &[SubjectOf<T::Calls>],
    cases: Vec<Case<T>>,
    call_of: fn(&T) -> &Call,
    pages: Pages,
    runs: usize,
) {
    println!();
    for Case { what, image, work } in cases {
        let works = contestants.iter().map(|one| performing(one, &work));
        let copy = copying(call_of(&work), pages);
        let mut works: Vec<Work> = works.chain([copy]).collect();
        let mut times = measure(&mut works, &image, runs, CALLS);
        let copy = times.pop().expect("the copy comes last");
        print_line(&what, &times);
        let times = times.iter().zip(contestants);
        let copies = times.map(|(time, who)| format!("{} {:.1}", who.name, time / copy));
        let copies: Vec<String> = copies.collect();
        println!("    in copies of {copy:.0} ns: {}", copies.join(", "));
    }
}

/// The geometric mean and the worst of the ratios.
fn print_ratios<C: ?Sized>(contestants: &[SubjectOf<C>], ratios: &[f64]) {
    let last = contestants[contestants.len() - 1].name;
    let worst = ratios.iter().copied().fold(0.0, f64::max);
    let mean = ratios.iter().map(|ratio| ratio.ln()).sum::<f64>() / ratios.len() as f64;
    println!(
        "\n{last} to direct: geometric mean {:.2}, worst {worst:.2}\n",
        mean.exp()
    );
}

fn bench_version_1() {
    use zealfs_tests::workloads::Work;
    let contestants = contestants();
    print_head(&contestants);
    for cases in [calls(), beside(), link_lists()] {
        let ratios = bench_cases(&contestants, cases, RUNS);
        print_ratios(&contestants, &ratios);
    }
    fn call_of(work: &Work) -> &Call {
        match work {
            Work::Call(call) => call,
            _ => panic!("a transfer is a call"),
        }
    }
    let cases = transfers(65_536);
    bench_transfers(&contestants, cases, call_of, Pages::VERSION_1, RUNS);
}

/// All entries of the trees that are the longest to tell, in milliseconds.
fn bench_trees(contestants: &[v2::subjects::Subject]) {
    use v2::workloads::{trees, By};
    for (by, runs) in [(By::Entries, 20), (By::Lists, 2)] {
        for Case { what, image, work } in trees(by) {
            let works = contestants.iter().map(|one| performing(one, &work));
            let times = measure(&mut works.collect::<Vec<_>>(), &image, runs, 1);
            let times = times.iter().zip(contestants);
            let times = times.map(|(time, who)| format!("{} {:.2} ms", who.name, time / 1e6));
            println!("{what:<56}{}", times.collect::<Vec<_>>().join(", "));
        }
    }
    println!();
}

fn bench_version_2() {
    use v2::layout::layout;
    use v2::subjects::{behind, library};
    use v2::workloads::{calls, transfers, Work, SIZES};
    let contestants: Vec<_> = [behind()].into_iter().chain(library()).collect();
    bench_trees(&contestants);
    print_head(&contestants);
    let ratios = bench_cases(&contestants, calls(), FEWER_RUNS);
    print_ratios(&contestants, &ratios);
    fn call_of(work: &Work) -> &Call {
        match work {
            Work::Call(v2::calls::Call::Same(call)) => call,
            _ => panic!("a transfer is a call"),
        }
    }
    for (length, code) in SIZES {
        let layout = layout(length, code).expect("a length and its page code");
        let pages = Pages {
            from: layout.aside * layout.page,
            page: layout.page,
            content: layout.content,
        };
        let cases = transfers(length, code);
        bench_transfers(&contestants, cases, call_of, pages, FEWER_RUNS);
    }
}

fn main() {
    match env::args().nth(1).as_deref() {
        None | Some("1") => bench_version_1(),
        Some("2") => bench_version_2(),
        Some(other) => panic!("there is no version {other}"),
    }
}
