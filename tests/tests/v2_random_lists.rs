//! Version 2: random lists of calls from sound images of every page code, 2 KiB
//! to 1 MiB, and every short list on small images: the plain implementation
//! against the others, call by call, with the replay of the tree beside them.

use std::time::Instant;
use zealfs_tests::calls::{Answer, Call as Shared, NUMBERS};
use zealfs_tests::desk::pattern;
use zealfs_tests::harness::Origin;
use zealfs_tests::settings;
use zealfs_tests::v2::calls::{Call, CALL_COUNT, CALL_NAMES};
use zealfs_tests::v2::desk::{make_directory, make_file, Desk};
use zealfs_tests::v2::generate::scenario;
use zealfs_tests::v2::harness::{compare, report, Scenario};
use zealfs_tests::v2::layout::{layout, CODE};
use zealfs_tests::v2::plain::{Replay, PLAIN};
use zealfs_tests::v2::subjects::{compared, Subject};

/// How often each call got each number.
type Tally = [[u64; NUMBERS]; CALL_COUNT];

/// The numbers that each call can be given on sound images: never 9.
const POSSIBLE: [&[usize]; CALL_COUNT] = [
    &[0, 26],
    &[0],
    &[0, 4, 5, 6],
    &[0, 4, 5, 6, 12],
    &[0, 4, 5, 6, 7, 12],
    &[0, 4, 5, 6, 8, 10, 11],
    &[0, 4, 5, 6, 8, 10, 11],
    &[0, 4, 5, 6, 7, 10, 12, 25],
    &[0, 4, 5, 6, 7, 14, 25],
    &[0, 4, 5, 6, 13, 14],
    &[0, 4, 5, 6, 7],
    &[0, 4, 5, 6, 7],
    &[0, 4, 5, 6, 12],
];

fn check(origin: &Origin, scenario: &Scenario, subjects: &[Subject], tally: &mut Tally) {
    let mut observe = |call: &Call, answer: &Answer| {
        tally[call.index()][usize::from(answer.number)] += 1;
    };
    for subject in subjects {
        let calls = subject.calls.as_ref();
        if compare(scenario, &PLAIN, calls, &mut observe).is_some() {
            let text = report(&origin.0, scenario, &PLAIN, calls);
            panic!("{} differs from plain:\n{text}", subject.name);
        }
    }
}

/// What lists have met that the answers do not show.
#[derive(Debug, Default, PartialEq)]
struct Met {
    /// Lists by the page code of their first image.
    codes: [u64; 3],
    /// Lists on images with links of two bytes.
    wide: u64,
    /// Makes that gave the root a page, another directory one.
    root_grew: u64,
    directory_grew: u64,
    /// Makes refused for the directory's page alone.
    one_page_short: u64,
    /// Removals of directories with several pages.
    long_removed: u64,
    /// Writes to a file of more than 65,535 bytes.
    long_written: u64,
    ending_full: u64,
}

/// Replays the list and looks at what the answers do not show.
fn look(scenario: &Scenario, met: &mut Met) {
    let mut replay = Replay::of(&scenario.image).expect("sound");
    met.codes[CODE.of(&scenario.image)] += 1;
    met.wide += u64::from(scenario.image.len() > 65_536);
    for call in &scenario.calls {
        let before = replay.tree.free();
        let width = replay.tree.root.entries.len();
        let answer = replay.step(&mut call.clone());
        let Call::Same(call) = call else { continue };
        let free = replay.tree.free();
        match call {
            Shared::MakeFile(..) | Shared::MakeDirectory(..) => match answer.number {
                0 if replay.tree.root.entries.len() > width => met.root_grew += 1,
                0 if before - free == 2 => met.directory_grew += 1,
                10 if before == 1 => met.one_page_short += 1,
                _ => {}
            },
            Shared::RemoveDirectory(_) if free > before + 1 => met.long_removed += 1,
            Shared::Write(path, ..) if answer.is_granted() => {
                let size = replay.tree.find(path).expect("written").values[1];
                met.long_written += u64::from(size > 65_535);
            }
            _ => {}
        }
    }
    met.ending_full += u64::from(replay.tree.free() == 0);
}

fn run(lists: impl Iterator<Item = u64>) -> (Tally, Met) {
    let started = Instant::now();
    let subjects = compared();
    let mut tally = [[0; NUMBERS]; CALL_COUNT];
    let mut met = Met::default();
    let mut count = 0;
    for seed in lists {
        let origin = Origin(format!("seed {seed} of version 2"));
        settings::trace(&origin.0);
        let scenario = scenario(seed);
        check(&origin, &scenario, &subjects, &mut tally);
        look(&scenario, &mut met);
        count += 1;
    }
    let seconds = started.elapsed().as_secs_f64();
    println!("{count} lists in {seconds:.1} s: {met:?}");
    for (name, numbers) in CALL_NAMES.iter().zip(&tally) {
        let met = numbers.iter().enumerate().filter(|(_, &count)| count > 0);
        let met: Vec<String> = met
            .map(|(number, count)| format!("{number}: {count}"))
            .collect();
        println!("{name:>16}  {}", met.join(", "));
    }
    (tally, met)
}

/// The lists have met every number that a call can be given and no other, and
/// everything that version 2 has of its own.
fn check_coverage(tally: &Tally, met: &Met) {
    for (call, numbers) in tally.iter().enumerate() {
        let told: Vec<usize> = (0..NUMBERS).filter(|&number| numbers[number] > 0).collect();
        assert_eq!(told, POSSIBLE[call], "{}", CALL_NAMES[call]);
    }
    let counts = [
        met.codes[0],
        met.codes[1],
        met.codes[2],
        met.wide,
        met.root_grew,
        met.directory_grew,
        met.one_page_short,
        met.long_removed,
        met.ending_full,
    ];
    assert!(counts.iter().all(|&count| count >= 30), "{met:?}");
    assert!(met.long_written >= 10, "{met:?}");
}

/// Half of the lists each, so that two cores share them.
fn run_half(half: u64) {
    let (first, lists) = (settings::seed(), settings::lists_of_version_2());
    let seeds = (half..lists)
        .step_by(2)
        .map(|list| first.wrapping_add(list));
    let (tally, met) = run(seeds);
    if lists >= 20_000 {
        check_coverage(&tally, &met);
    }
}

#[test]
fn lists_from_sound_images() {
    run_half(0);
}

#[test]
fn more_lists_from_sound_images() {
    run_half(1);
}

const LONGEST: u32 = 4;

/// Runs every list of four calls from a choice of them.
fn every_list(image: &[u8], choice: &[Shared]) {
    let lists = choice.len().pow(LONGEST);
    for subject in compared() {
        let calls = subject.calls.as_ref();
        // The shorter lists are the beginnings of these.
        for number in 0..lists {
            let digits = (0..LONGEST).map(|place| number / choice.len().pow(place) % choice.len());
            let scenario = Scenario {
                image: image.to_vec(),
                calls: digits
                    .map(|digit| Call::Same(choice[digit].clone()))
                    .collect(),
            };
            if compare(&scenario, &PLAIN, calls, &mut |_, _| {}).is_some() {
                let origin = format!("list {number} of the choice");
                let text = report(&origin, &scenario, &PLAIN, calls);
                panic!("{} differs from plain:\n{text}", subject.name);
            }
        }
    }
    println!("{lists} lists of {LONGEST} calls");
}

fn write(path: &[u8], position: u64, length: usize) -> Shared {
    Shared::Write(path.to_vec(), position, pattern(length))
}

/// The smallest image: 6 free pages.
#[test]
fn every_short_list() {
    let image = Desk::fresh(&PLAIN, 2048, 0).image;
    every_list(
        &image,
        &[
            make_file(b"/A"),
            make_directory(b"/D"),
            make_file(b"/D/A"),
            make_directory(b"/D/D"),
            write(b"/A", 0, 256),
            write(b"/A", 256, 1),
            write(b"/A", 1, 1280),
            write(b"/D/A", 0, 1024),
            Shared::RemoveFile(b"/A".to_vec()),
            Shared::RemoveFile(b"/D".to_vec()),
            Shared::RemoveFile(b"/D/A".to_vec()),
            Shared::RemoveDirectory(b"/A".to_vec()),
            Shared::RemoveDirectory(b"/D".to_vec()),
            Shared::RemoveDirectory(b"/D/D".to_vec()),
            Shared::Lock(b"/A".to_vec()),
            Shared::Unlock(b"/A".to_vec()),
        ],
    );
}

/// A root and a directory that are full, with 5 free pages: each make in them
/// takes two.
#[test]
fn every_short_list_of_full_directories() {
    let mut desk = Desk::fresh(&PLAIN, 6144, 0);
    desk.make_all(&["/D"], &["/1", "/2", "/3", "/4", "/5", "/6"]);
    let files = [
        "/D/1", "/D/2", "/D/3", "/D/4", "/D/5", "/D/6", "/D/7", "/D/8",
    ];
    desk.make_all(&[], &files);
    assert_eq!(desk.write("/6", 0, 512 + 1), 0);
    assert_eq!(desk.free(), 5);
    assert_eq!(
        layout(6144, 0).map(|layout| layout.shape().root_entries),
        Ok(7)
    );
    every_list(
        &desk.image,
        &[
            make_file(b"/A"),
            make_file(b"/B"),
            make_directory(b"/E"),
            make_file(b"/D/A"),
            make_file(b"/D/B"),
            make_directory(b"/D/E"),
            make_file(b"/D/A/x"),
            write(b"/D/A", 0, 513),
            Shared::RemoveFile(b"/A".to_vec()),
            Shared::RemoveFile(b"/3".to_vec()),
            Shared::RemoveFile(b"/D/A".to_vec()),
            Shared::RemoveFile(b"/D/1".to_vec()),
            Shared::RemoveDirectory(b"/D".to_vec()),
            Shared::List(b"/".to_vec(), 7),
            Shared::List(b"/D".to_vec(), 8),
        ],
    );
}

#[test]
fn the_same_seed_gives_the_same_list() {
    for seed in 0..50 {
        assert_eq!(scenario(seed), scenario(seed));
    }
}
