//! Version 2: each copy of the plain implementation with one thing broken is told
//! of by the random lists or the damaged images, with a short list of calls.

use zealfs_tests::v2::generate::{damaged_scenario, scenario};
use zealfs_tests::v2::harness::{compare, report, shrink, Scenario};
use zealfs_tests::v2::plain::PLAIN;
use zealfs_tests::v2::wrong::{Fault, Wrong, FAULTS};

/// Lists, and damaged images, among which a fault has to show.
const LISTS: u64 = 2_000;
/// The most calls that a shrunk list has.
const FEW: usize = 6;

/// Sees that a fault shows, and that a list of few calls is found that shows it.
fn check(fault: Fault, lists: &[Scenario]) {
    let wrong = Wrong(fault);
    let shows = |scenario: &&Scenario| compare(scenario, &PLAIN, &wrong, &mut |_, _| {}).is_some();
    let mut least = None;
    for found in lists.iter().filter(shows).take(5) {
        let shortest = shrink(found, &PLAIN, &wrong);
        assert!(shows(&&shortest));
        let (before, after) = (found.calls.len(), shortest.calls.len());
        println!("{fault:?}: {before} calls shrunk to {after}");
        least = Some(least.map_or(after, |least: usize| least.min(after)));
        if after <= FEW {
            break;
        }
        println!("{}", report("what is left", &shortest, &PLAIN, &wrong));
    }
    let Some(least) = least else {
        panic!("{fault:?} does not show in {LISTS} lists and {LISTS} damaged images");
    };
    assert!(least <= FEW, "{fault:?} is left with {least} calls");
}

#[test]
fn every_fault_is_told() {
    let lists = (0..LISTS).flat_map(|seed| [scenario(seed), damaged_scenario(seed)]);
    let mut lists: Vec<Scenario> = lists.collect();
    // What is small shrinks fast.
    lists.sort_by_key(|scenario| (scenario.image.len(), scenario.calls.len()));
    for fault in FAULTS {
        check(fault, &lists);
    }
}
