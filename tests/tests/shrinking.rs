//! The harness itself: each copy of the plain implementation with one thing
//! broken is told of, with a short list of calls.

use zealfs_tests::calls::{Base, Call};
use zealfs_tests::damage::damage;
use zealfs_tests::generate::{scenario, starting_image, Generator};
use zealfs_tests::harness::{compare, Scenario};
use zealfs_tests::plain::{Plain, Replay};
use zealfs_tests::random::Random;
use zealfs_tests::shrink::{report, shrink};
use zealfs_tests::wrong::{Fault, Wrong, FAULTS};

/// Lists among which a fault has to show.
const LISTS: u64 = 4_000;

fn damaged_scenario(seed: u64) -> Scenario {
    let mut random = Random::new(seed);
    let mut image = starting_image(2048, &mut random);
    let replay = Replay::of(&image).expect("sound");
    damage(&mut image, &mut random);
    let mut generator = Generator::new(replay, &mut random);
    let mut calls = vec![Call::Verdict];
    calls.extend((0..4).map(|_| generator.next_call()));
    calls.push(Call::Repair);
    Scenario { image, calls }
}

/// The lists that show the fault, each with its seed.
fn shown(fault: Fault) -> impl Iterator<Item = (u64, Scenario)> {
    let wrong = Wrong(fault);
    (0..LISTS).filter_map(move |seed| {
        let shows =
            |scenario: &Scenario| compare(scenario, &Plain, &wrong, &mut |_, _| {}).is_some();
        let candidates = [scenario(seed), damaged_scenario(seed)];
        let found = candidates.into_iter().find(shows);
        found.map(|scenario| (seed, scenario))
    })
}

/// Of the first lists that show a fault one shrinks to few calls: mostly the
/// first, but an image may have been filled by more.
#[test]
fn every_fault_is_told_and_shrunk() {
    for fault in FAULTS {
        let wrong = Wrong(fault);
        let mut least = None;
        for (seed, found) in shown(fault).take(3) {
            let shortest = shrink(&found, &Plain, &wrong);
            assert!(compare(&shortest, &Plain, &wrong, &mut |_, _| {}).is_some());
            let (before, after) = (found.calls.len(), shortest.calls.len());
            println!("{fault:?}: seed {seed}, {before} calls shrunk to {after}");
            let origin = format!("seed {seed}");
            println!("{}", report(&origin, &found, &Plain, &wrong));
            least = Some(least.map_or(after, |least: usize| least.min(after)));
            if after <= 6 {
                break;
            }
        }
        let Some(least) = least else {
            panic!("{fault:?} does not show in {LISTS} lists");
        };
        assert!(least <= 6, "{fault:?} is left with {least} calls");
    }
}

/// Random damages come together often enough that each step of the judge's
/// order shows in many images.
#[test]
fn damaged_images_show_the_order_of_the_judge() {
    const IMAGES: u64 = 10_000;
    let images: Vec<Vec<u8>> = (0..IMAGES)
        .map(|seed| damaged_scenario(seed).image)
        .collect();
    for fault in FAULTS.into_iter().filter(|fault| fault.is_of_the_judge()) {
        let tells_another = |image: &&Vec<u8>| Wrong(fault).verdict(image) != Plain.verdict(image);
        let count = images.iter().filter(tells_another).count() as u64;
        println!("{fault:?}: shows in {count} of {IMAGES} damaged images");
        assert!(count > IMAGES / 200, "{fault:?}");
    }
}

#[test]
fn the_same_seed_gives_the_same_list() {
    for seed in 0..50 {
        assert_eq!(scenario(seed), scenario(seed));
    }
}
