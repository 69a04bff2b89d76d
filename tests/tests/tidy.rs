//! Tidy pages (document 02 §13): the library's check and what it writes against
//! a second implementation, and the proposals of a foreign proposer judged.

use zealfs_tests::assemble::{assemble, Order};
use zealfs_tests::calls::{Base, Calls};
use zealfs_tests::damage::damage;
use zealfs_tests::desk::Desk;
use zealfs_tests::generate::{random_tree, starting_image};
use zealfs_tests::plain::reader::judge;
use zealfs_tests::plain::Plain;
use zealfs_tests::random::Random;
use zealfs_tests::settings;
use zealfs_tests::subjects::{all, Subject};
use zealfs_tests::tidy::{is_accepted, litter, random_proposal};

/// Bytes around a lent target or row that the library has to leave alone.
const GUARD: usize = 64;

/// Runs tidy on a target within guards; answers the number, and what the target
/// then holds. The image has to stay, and a refused target too.
fn tidy(subject: &Subject, image: &[u8], places: &[u8], length: usize) -> (u8, Vec<u8>) {
    let who = subject.name;
    let kept = image.to_vec();
    let mut around = vec![0xA5; length + 2 * GUARD];
    let answer = subject
        .calls
        .tidy(image, places, &mut around[GUARD..GUARD + length]);
    assert_eq!(image, kept, "{who}: the image");
    let target = around[GUARD..GUARD + length].to_vec();
    around.drain(GUARD..GUARD + length);
    assert!(around.iter().all(|&byte| byte == 0xA5), "{who}: guards");
    if !answer.is_granted() {
        assert!(target.iter().all(|&byte| byte == 0xA5), "{who}: target");
    }
    let verdict = Plain.verdict(image);
    if !verdict.is_granted() {
        assert_eq!(answer, verdict, "{who}: the verdict's own");
    }
    (answer.number, target)
}

/// Every subject gives this number for a target of the image's length, and all
/// write the same bytes. A granted one is sound and has the same tree.
fn check(what: &str, image: &[u8], places: &[u8], number: u8, subjects: &[Subject]) {
    let (_, expected) = tidy(&all()[0], image, places, image.len());
    for subject in subjects {
        let (got, target) = tidy(subject, image, places, image.len());
        assert_eq!(got, number, "{what}: {}", subject.name);
        assert!(target == expected, "{what}: {}: bytes", subject.name);
        if number == 0 {
            let tree = judge(&target).expect("a sound target");
            assert!(tree == judge(image).expect("a sound image"), "{what}");
            assert_eq!(subject.calls.audit(&target).sound, 1, "{what}");
        }
    }
}

/// What our helper proposes is accepted, and alike; refused, its row stays.
fn check_helper(what: &str, image: &[u8], subjects: &[Subject]) {
    let pages = image.len() / 256;
    let mut wanted = vec![7; pages];
    let expected = Plain.propose(image, &mut wanted);
    for subject in subjects {
        for length in [pages, pages.wrapping_sub(1) % 300, pages + 1] {
            let mut row = vec![7; length];
            let answer = subject.calls.propose(image, &mut row);
            match (expected.is_granted(), length == pages) {
                (true, true) => assert_eq!((answer.number, &row), (0, &wanted), "{what}"),
                (true, false) => assert_eq!(answer.number, 27, "{what}"),
                (false, _) => assert_eq!(answer, expected, "{what}"),
            }
            if !answer.is_granted() {
                assert!(row.iter().all(|&number| number == 7), "{what}: row");
            }
        }
    }
    if expected.is_granted() {
        assert!(is_accepted(image, &wanted), "{what}");
        check(what, image, &wanted, 0, subjects);
    }
}

fn random_image(random: &mut Random) -> Vec<u8> {
    let length = 2048 * *random.pick(&[1, 1, 1, 1, 2, 4, 32]);
    let mut image = match random.chance(1, 3) {
        true => starting_image(length, random),
        false => assemble(&random_tree(length / 256, random), Order::Scattered, random),
    };
    if judge(&image).is_ok() {
        litter(&mut image, random);
    }
    image
}

/// One way a proposal can be wrong, or only another.
fn spoil(places: &mut Vec<u8>, random: &mut Random) {
    let pages = places.len();
    let (a, b) = (random.below(pages), random.below(pages));
    match random.below(8) {
        // Two numbers exchanged: of one file, of two, of the header.
        0..=2 => places.swap(a, b),
        // A number twice, N, any number.
        3 => places[a] = places[b],
        4 => places[a] = pages as u8,
        5 => places[a] = random.byte(),
        // Another number of numbers.
        6 => drop(places.pop()),
        _ => places.push(pages as u8),
    }
}

#[test]
fn by_hand() {
    let subjects = all();
    let mut desk = Desk::fresh(&Plain, 2048);
    assert_eq!(desk.make_file("/F"), 0);
    assert_eq!(desk.make_directory("/A"), 0);
    assert_eq!(desk.make_file("/A/7"), 0);
    assert_eq!(desk.write("/F", 0, 256), 0);
    let image = desk.image;
    // F is on 1 and 4, the directory on 2, 7 on 3.
    check(
        "an accepted one",
        &image,
        &[0, 5, 1, 7, 6, 4, 2, 3],
        0,
        &subjects,
    );
    check_helper("ours", &image, &subjects);
    let refused: [&[u8]; 9] = [
        &[0, 1, 2, 3, 4, 5, 6, 7],
        &[0, 6, 1, 7, 5, 4, 2, 3],
        &[0, 5, 1, 7, 6, 4, 2, 2],
        &[0, 5, 1, 7, 6, 4, 2, 8],
        &[0, 5, 1, 7, 6, 4, 2, 255],
        &[1, 5, 0, 7, 6, 4, 2, 3],
        &[0, 5, 1, 7, 6, 4, 2],
        &[0, 5, 1, 7, 6, 4, 2, 3, 8],
        &[],
    ];
    for places in refused {
        check("a refused one", &image, places, 27, &subjects);
        for subject in &subjects {
            for length in [0, 1, 2047, 2049, 4096] {
                assert_eq!(tidy(subject, &image, places, length).0, 28);
            }
        }
    }
    let mut lost = image.clone();
    lost[4] |= 0x80;
    for subject in &subjects {
        assert_eq!(tidy(subject, &lost, &[], 0).0, 19);
        assert_eq!(tidy(subject, &[], &[], 7).0, 1);
    }
    check_helper("a lost page", &lost, &subjects);
    check_helper("no bytes", &[], &subjects);
}

/// Random images, the proposals of a foreign proposer, what is spoilt of them,
/// and damaged images.
#[test]
fn random_proposals() {
    let subjects = all();
    let (first, images) = (settings::seed(), settings::damaged_images() / 8);
    let mut tally = [0; 2];
    for seed in (0..images).map(|image| first.wrapping_add(image)) {
        let what = format!("tidied image {seed}");
        settings::trace(&what);
        // Another sequence than those of the other tests.
        let mut random = Random::new(seed ^ 0x71D7_0000_0000_0000);
        let mut image = random_image(&mut random);
        if judge(&image).is_ok() {
            let mut places = random_proposal(&image, &mut random);
            check(&what, &image, &places, 0, &subjects);
            for _ in 0..4 {
                let kept = places.clone();
                spoil(&mut places, &mut random);
                let is_good = is_accepted(&image, &places);
                tally[usize::from(is_good)] += 1;
                check(
                    &what,
                    &image,
                    &places,
                    if is_good { 0 } else { 27 },
                    &subjects,
                );
                places = kept;
            }
        }
        check_helper(&what, &image, &subjects);
        damage(&mut image, &mut random);
        check_helper(&what, &image, &subjects);
        let length = image.len();
        for subject in &subjects {
            tidy(subject, &image, &[], length);
        }
    }
    println!("{images} images, spoilt proposals refused and accepted: {tally:?}");
    assert!(images < 100 || tally.iter().all(|&count| count > 0));
}

/// The longest file, scattered, in an image of 256 pages.
#[test]
fn a_full_image() {
    let mut random = Random::new(3);
    let mut desk = Desk::fresh(&Plain, 65_536);
    assert_eq!(desk.make_file("/F"), 0);
    assert_eq!(desk.write("/F", 0, 65_025), 0);
    let places = random_proposal(&desk.image, &mut random);
    check("full", &desk.image, &places, 0, &all());
    check_helper("full", &desk.image, &all());
}
