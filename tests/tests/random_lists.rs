//! Random lists of calls from sound images: the plain implementation against
//! the others, call by call.

use std::time::Instant;
use zealfs_tests::calls::{Answer, Call, CALL_COUNT, CALL_NAMES, NUMBERS};
use zealfs_tests::generate::scenario;
use zealfs_tests::harness::{compare, Origin, Scenario};
use zealfs_tests::plain::{Plain, Replay};
use zealfs_tests::shrink::report;
use zealfs_tests::subjects::{compared, Subject};
use zealfs_tests::{listing, settings};

/// How often each call got each number.
type Tally = [[u64; NUMBERS]; CALL_COUNT];

/// The numbers that each call can be given on sound images.
const POSSIBLE: [&[usize]; CALL_COUNT] = [
    &[0],
    &[0],
    &[0, 4, 5, 6],
    &[0, 4, 5, 6, 12],
    &[0, 4, 5, 6, 7, 12],
    &[0, 4, 5, 6, 8, 9, 10, 11],
    &[0, 4, 5, 6, 8, 9, 10, 11],
    &[0, 4, 5, 6, 7, 10, 12, 25],
    &[0, 4, 5, 6, 7, 14, 25],
    &[0, 4, 5, 6, 13, 14],
    &[0, 4, 5, 6, 7],
    &[0, 4, 5, 6, 7],
    &[0, 4, 5, 6, 8, 9, 10, 11, 12, 29],
    &[0, 4, 5, 6, 7, 21, 22, 24],
    &[0, 4, 5, 6, 7, 9, 10, 11, 21, 22, 25],
    &[0, 4, 5, 6, 7, 21, 22],
    &[0, 4, 5, 6, 7, 21, 22, 23],
];

fn check(origin: &Origin, scenario: &Scenario, subject: &Subject, tally: &mut Tally) {
    let calls = subject.calls.as_ref();
    let mut observe = |call: &Call, answer: &Answer| {
        tally[call.index()][usize::from(answer.number)] += 1;
    };
    if compare(scenario, &Plain, calls, &mut observe).is_some() {
        let text = report(&origin.0, scenario, &Plain, calls);
        panic!("{} differs from plain:\n{text}", subject.name);
    }
}

/// Compares the listings of the image that the list leaves.
fn check_listing(scenario: &Scenario, subject: &Subject) {
    let mut image = scenario.image.clone();
    for call in &scenario.calls {
        call.clone().perform(subject.calls.as_ref(), &mut image);
    }
    let expected = listing::plain(&image);
    let walked = listing::by_calls(subject.calls.as_ref(), &image);
    listing::assert_same(subject.name, &walked, &expected);
    if let Some(program) = settings::listing_program() {
        let printed = listing::by_program(&program, &image);
        listing::assert_same("the program", &printed, &expected);
    }
}

#[test]
fn lists_from_sound_images() {
    let (first, lists) = (settings::seed(), settings::lists());
    let started = Instant::now();
    let subjects = compared();
    let mut tally = [[0; NUMBERS]; CALL_COUNT];
    let mut ending_full = 0;
    for seed in (0..lists).map(|list| first.wrapping_add(list)) {
        let origin = Origin(format!(
            "seed {seed} (ZEALFS_SEED={seed} ZEALFS_LISTS=1 runs it alone)"
        ));
        settings::trace(&origin.0);
        let scenario = scenario(seed);
        for subject in &subjects {
            check(&origin, &scenario, subject, &mut tally);
            if seed % 40 == 0 {
                check_listing(&scenario, subject);
            }
        }
        ending_full += u64::from(ends_full(&scenario));
    }
    let seconds = started.elapsed().as_secs_f64();
    println!("{lists} lists in {seconds:.1} s, {ending_full} of them end on a full image");
    print_tally(&tally);
    if lists >= 20_000 {
        check_coverage(&tally);
        check_often(&tally);
    }
}

fn ends_full(scenario: &Scenario) -> bool {
    let mut replay = Replay::of(&scenario.image).expect("sound");
    for call in &scenario.calls {
        replay.step(&mut call.clone());
    }
    replay.tree.free() == 0
}

fn print_tally(tally: &Tally) {
    for (name, numbers) in CALL_NAMES.iter().zip(tally) {
        let met = numbers.iter().enumerate().filter(|(_, &count)| count > 0);
        let met: Vec<String> = met
            .map(|(number, count)| format!("{number}: {count}"))
            .collect();
        println!("{name:>16}  {}", met.join(", "));
    }
}

/// The lists have met every number that a call can be given, and no other.
fn check_coverage(tally: &Tally) {
    for (call, numbers) in tally.iter().enumerate() {
        let met: Vec<usize> = (0..NUMBERS).filter(|&number| numbers[number] > 0).collect();
        assert_eq!(met, POSSIBLE[call], "{}", CALL_NAMES[call]);
    }
}

/// Both removals meet what they don't take, and the root, often, and so do
/// writes and removals a locked file, and locks a directory: each number comes
/// in one of 100 of their calls.
fn check_often(tally: &Tally) {
    let often: [(&str, &[usize]); 9] = [
        ("write", &[25]),
        ("remove_file", &[7, 6, 14, 25]),
        ("remove_directory", &[13, 6, 14]),
        ("lock", &[7]),
        ("unlock", &[7]),
        ("links_read", &[0, 5, 21, 24]),
        ("links_write", &[0, 7, 10, 21, 22]),
        ("links_find", &[0, 21]),
        ("links_check", &[0, 21, 23]),
    ];
    for (name, expected) in often {
        let call = CALL_NAMES.iter().position(|other| *other == name);
        let numbers = &tally[call.expect("a call")];
        let calls: u64 = numbers.iter().sum();
        for &number in expected {
            let met = numbers[number];
            assert!(met > calls / 100, "{name} met {number} {met} times");
        }
    }
}
