//! Damaged images: the judges agree on the first fault of every one and on its
//! place, and calls on those that are refused change nothing.

use zealfs_tests::assemble::{assemble, Order};
use zealfs_tests::calls::{Base, Call, Refusal, NUMBERS};
use zealfs_tests::damage::{damage, mend_bitmap, Survey};
use zealfs_tests::desk::Desk;
use zealfs_tests::generate::{random_tree, starting_image, Generator};
use zealfs_tests::harness::{compare, Origin, Scenario};
use zealfs_tests::plain::reader::{is_allocated, judge};
use zealfs_tests::plain::{Plain, Replay};
use zealfs_tests::random::Random;
use zealfs_tests::settings;
use zealfs_tests::shrink::report;
use zealfs_tests::subjects::{compared, Subject};

/// How many of the images get each number from the verdict.
type Tally = [u64; NUMBERS];

/// The numbers of faults that an image of a good length and header may have.
const FAULTS: [usize; 6] = [16, 17, 18, 20, 19, 3];

fn check(origin: &Origin, scenario: &Scenario, subjects: &[Subject], tally: &mut Tally) {
    let verdict = Plain.verdict(&scenario.image);
    tally[usize::from(verdict.number)] += 1;
    for subject in subjects {
        let calls = subject.calls.as_ref();
        if compare(scenario, &Plain, calls, &mut |_, _| {}).is_some() {
            let text = report(&origin.0, scenario, &Plain, calls);
            panic!("{} differs from plain:\n{text}", subject.name);
        }
    }
}

/// Compares the verdicts on an image.
fn check_verdict(image: &[u8], subjects: &[Subject], tally: &mut Tally) {
    let scenario = Scenario {
        image: image.to_vec(),
        calls: vec![Call::Verdict],
    };
    let origin = Origin("an image that is damaged in turn".to_string());
    check(&origin, &scenario, subjects, tally);
}

fn print_tally(what: &str, tally: &Tally) {
    let met = tally.iter().enumerate().filter(|(_, &count)| count > 0);
    let met: Vec<String> = met
        .map(|(number, count)| format!("{number}: {count}"))
        .collect();
    println!("{what}: {}", met.join(", "));
}

/// Sees that each kind of fault was told so often at least.
fn check_coverage(tally: &Tally, least: u64) {
    for number in FAULTS {
        let count = tally[number];
        assert!(count >= least, "{number} was told {count} times");
    }
}

/// A full image of 8 pages with a bit of everything: a chain of two pages, one of
/// one, empty files, a directory in a directory, a removed file.
fn rich() -> Vec<u8> {
    let mut desk = Desk::fresh(&Plain, 2048);
    for path in ["/D", "/D/E"] {
        assert_eq!(desk.make_directory(path), 0);
    }
    for path in ["/F", "/gone", "/Z"] {
        assert_eq!(desk.make_file(path), 0);
    }
    assert_eq!(desk.write("/F", 0, 256), 0);
    assert_eq!(desk.write("/gone", 0, 100), 0);
    assert_eq!(desk.remove_file("/gone"), 0);
    assert_eq!(desk.make_file("/D/G"), 0);
    assert_eq!(desk.write("/D/G", 0, 255), 0);
    assert_eq!(desk.make_file("/D/E/H"), 0);
    desk.image
}

/// The longest file there is.
fn longest() -> Vec<u8> {
    let mut desk = Desk::fresh(&Plain, 65_536);
    assert_eq!(desk.make_file("/F"), 0);
    assert_eq!(desk.write("/F", 0, 65_025), 0);
    desk.image
}

#[test]
fn every_value_of_every_byte() {
    let subjects = compared();
    let mut tally = Tally::default();
    let mut image = rich();
    for at in 0..image.len() {
        let kept = image[at];
        for value in 0..=255 {
            image[at] = value;
            check_verdict(&image, &subjects, &mut tally);
        }
        image[at] = kept;
    }
    print_tally("bytes of an image of 8 pages", &tally);
    assert_eq!(tally[2], 3 * 255);
    check_coverage(&tally, 1);
}

#[test]
fn every_value_of_the_bytes_of_a_large_header() {
    let subjects = compared();
    let mut tally = Tally::default();
    let mut random = Random::new(settings::seed());
    let tree = random_tree(256, &mut random);
    let mut image = assemble(&tree, Order::Scattered, &mut random);
    for at in 0..256 {
        let kept = image[at];
        for value in 0..=255 {
            image[at] = value;
            check_verdict(&image, &subjects, &mut tally);
        }
        image[at] = kept;
    }
    print_tally("bytes of a header of 256 pages", &tally);
}

/// Every size of a file of two pages, of the longest there is, and of an empty
/// one: the sizes that want as many pages are good, among them 0 for one page.
/// With any other the chain ends where the size does not say.
#[test]
fn every_size() {
    let subjects = compared();
    for (image, at, good) in [(rich(), 96, 255), (longest(), 64, 255), (rich(), 160, 256)] {
        let mut tally = Tally::default();
        for size in 0..=65_535_u16 {
            let mut image = image.clone();
            image[at + 18..at + 20].copy_from_slice(&size.to_le_bytes());
            check_verdict(&image, &subjects, &mut tally);
        }
        print_tally("sizes", &tally);
        assert_eq!((tally[0], tally[17]), (good, 65_536 - good));
    }
}

/// Every start page and every link, the bitmap following it as far as it
/// goes: one page twice, page 0, pages past the image, loops.
#[test]
fn every_start_page_and_link() {
    let subjects = compared();
    let mut tally = Tally::default();
    let image = rich();
    let survey = Survey::of(&image);
    let starts = survey.entries.iter().map(|(at, _)| at + 17);
    let links = survey.owned().into_iter().map(|page| page * 256);
    for at in starts.chain(links) {
        for value in 0..=255 {
            let mut image = image.clone();
            image[at] = value;
            mend_bitmap(&mut image);
            check_verdict(&image, &subjects, &mut tally);
        }
    }
    print_tally("start pages and links", &tally);
}

/// Bits of the bitmap, with and without byte 3 following: an owned page is
/// then free, a free one lost, and bits past the image's pages do not count.
#[test]
fn every_bit_of_the_bitmap() {
    let subjects = compared();
    let mut tally = Tally::default();
    let mut random = Random::new(settings::seed());
    for length in [2048, 8192, 32_768, 65_536] {
        let tree = random_tree(length / 256, &mut random);
        let sound = assemble(&tree, Order::Scattered, &mut random);
        for page in 0..256 {
            for byte_3 in [0, 1, 255] {
                let mut image = sound.clone();
                image[4 + page / 8] ^= 1 << (page % 8);
                image[3] = image[3].wrapping_add(byte_3);
                check_verdict(&image, &subjects, &mut tally);
                let told = match page {
                    0 => Some(Refusal::number(3)),
                    _ if page >= length / 256 => (byte_3 != 0).then(|| Refusal::number(3)),
                    _ if is_allocated(&sound, page) => Some(Refusal::at_page(20, page)),
                    _ => Some(Refusal::at_page(19, page)),
                };
                assert_eq!(judge(&image).err(), told);
            }
        }
    }
    print_tally("bits of the bitmap", &tally);
}

/// A count of 256 zero bits must not pass for 0.
#[test]
fn a_whole_bitmap_of_zeros() {
    let subjects = compared();
    for length in [2048, 65_536] {
        let mut image = Desk::fresh(&Plain, length).image;
        image[4] = 0;
        for byte_3 in [0, 7, 8, 255] {
            image[3] = byte_3;
            let mut tally = Tally::default();
            check_verdict(&image, &subjects, &mut tally);
            assert_eq!(tally[3], 1);
        }
    }
}

/// Random damages, and then calls that would suit the image before.
#[test]
fn random_damages_and_calls() {
    let subjects = compared();
    let (first, images) = (settings::seed(), settings::damaged_images());
    let mut tally = Tally::default();
    for seed in (0..images).map(|image| first.wrapping_add(image)) {
        let origin = Origin(format!(
            "damaged image {seed} (ZEALFS_SEED={seed} ZEALFS_DAMAGED=1 runs it alone)"
        ));
        settings::trace(&origin.0);
        let scenario = damaged_scenario(seed);
        check(&origin, &scenario, &subjects, &mut tally);
    }
    print_tally("randomly damaged images", &tally);
    if images >= 20_000 {
        check_coverage(&tally, images / 200);
    }
}

fn damaged_scenario(seed: u64) -> Scenario {
    // Another sequence than that of the lists from sound images.
    let mut random = Random::new(seed ^ 0xDA4A_6ED0_0000_0000);
    let length = match random.weighted(&[20, 4, 1, 1]) {
        0 => 2048,
        1 => 2048 * random.between(2, 8),
        2 => 32_768,
        _ => 65_536,
    };
    let mut image = match random.chance(1, 6) {
        true => starting_image(length, &mut random),
        // Mostly one with something in it to damage.
        false => {
            let tree = random_tree(length / 256, &mut random);
            assemble(&tree, Order::Scattered, &mut random)
        }
    };
    let replay = Replay::of(&image).expect("sound");
    damage(&mut image, &mut random);
    let mut calls = vec![Call::Verdict];
    let count = random.between(1, 6);
    let mut generator = Generator::new(replay, &mut random);
    calls.extend((0..count).map(|_| generator.next_call()));
    Scenario { image, calls }
}
