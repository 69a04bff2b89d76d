//! The second judge (document 02 §8): it says sound exactly when the first one
//! does, and then who owns each page. The harness compares it too, on every
//! image before and after a list of calls; tests/first_fault.rs on each of its
//! images.

use zealfs_tests::assemble::{assemble, nest, Order};
use zealfs_tests::calls::{Audit, Calls, NUMBERS, OWNERS};
use zealfs_tests::damage::{damage, Survey};
use zealfs_tests::desk::Desk;
use zealfs_tests::generate::{random_tree, starting_image};
use zealfs_tests::plain::reader::judge;
use zealfs_tests::plain::Plain;
use zealfs_tests::random::Random;
use zealfs_tests::settings;
use zealfs_tests::subjects::{all, Subject};

/// The row that begins with these owners; nobody owns the other pages.
fn row(first: &[u64]) -> Audit {
    let mut owners = [0; OWNERS];
    owners[..first.len()].copy_from_slice(first);
    Audit::sound(owners)
}

/// The row of a sound image by a survey of its entries, which is not the judge.
fn surveyed(image: &[u8]) -> Audit {
    if judge(image).is_err() {
        return Audit::no();
    }
    let mut audit = row(&[1]);
    for (at, pages) in Survey::of(image).entries {
        for page in pages {
            audit.owners[page] = at as u64;
        }
    }
    audit
}

/// Sees that each second judge says what its first one does and the row of the
/// survey; answers the verdict's number.
fn check(what: &str, image: &[u8], subjects: &[Subject]) -> u8 {
    let expected = surveyed(image);
    let mut number = 0;
    for subject in subjects {
        let (verdict, audit) = (subject.calls.verdict(image), subject.calls.audit(image));
        let who = subject.name;
        assert_eq!(
            audit.sound,
            u64::from(verdict.is_granted()),
            "{what}: {who}"
        );
        assert_eq!(audit, expected, "{what}: {who}");
        number = verdict.number;
    }
    number
}

fn check_row(what: &str, image: &[u8], first: &[u64]) {
    assert_eq!(Plain.audit(image), row(first), "{what}");
    assert_eq!(check(what, image, &all()), 0, "{what}");
}

/// Files of one and two pages, a directory, and what is in it.
fn shelf() -> Vec<u8> {
    let mut desk = Desk::fresh(&Plain, 2048);
    assert_eq!(desk.make_file("/F"), 0);
    assert_eq!(desk.make_directory("/A"), 0);
    assert_eq!(desk.make_file("/A/7"), 0);
    assert_eq!(desk.make_directory("/A/B"), 0);
    assert_eq!(desk.write("/F", 0, 256), 0);
    desk.image
}

#[test]
fn rows_by_hand() {
    check_row("8 pages", &Desk::fresh(&Plain, 2048).image, &[1]);
    check_row("256 pages", &Desk::fresh(&Plain, 65_536).image, &[1]);
    check_row("a shelf", &shelf(), &[1, 64, 96, 512, 544, 64]);
    let mut desk = Desk {
        calls: &Plain,
        image: shelf(),
    };
    assert_eq!(desk.make_file("/A/B/C"), 0);
    assert_eq!(desk.make_file("/last"), 0);
    check_row(
        "a full one",
        &desk.image,
        &[1, 64, 96, 512, 544, 64, 1024, 128],
    );
    assert_eq!(desk.remove_file("/F"), 0);
    check_row(
        "a removed file",
        &desk.image,
        &[1, 0, 96, 512, 544, 0, 1024, 128],
    );
    let mut desk = Desk::fresh(&Plain, 65_536);
    assert_eq!(desk.make_file("/F"), 0);
    assert_eq!(desk.write("/F", 0, 65_025), 0);
    let owners: Vec<u64> = [1].into_iter().chain([64; 255]).collect();
    check_row("the longest file", &desk.image, &owners);
    // Each directory's entry is the first on the page of the one above.
    let deep = assemble(&nest(256, 255, 16), Order::Rising, &mut Random::new(1));
    let below = (1..255).map(|page| page * 256);
    let owners: Vec<u64> = [1, 64].into_iter().chain(below).collect();
    check_row("the deepest nest", &deep, &owners);
}

/// One image for each number: no, and the row names nobody.
#[test]
fn each_fault_names_nobody() {
    let faults: [(u8, usize, u8); 9] = [
        (2, 2, 2),
        (16, 64 + 1, b'/'),
        (16, 96 + 1, b'F'),
        (17, 64 + 17, 0),
        (17, 256, 0),
        (18, 512 + 17, 1),
        (19, 4, 0x7F),
        (20, 4, 0x1F),
        (3, 3, 3),
    ];
    let subjects = all();
    for (number, at, value) in faults {
        let mut image = shelf();
        image[at] = value;
        let what = format!("byte {at} is {value}");
        assert_eq!(check(&what, &image, &subjects), number, "{what}");
        assert_eq!(Plain.audit(&image), Audit::no());
    }
    for length in [0, 1, 255, 256, 2047, 2049, 65_537] {
        let mut image = shelf();
        image.resize(length, 0);
        assert_eq!(check("a length", &image, &subjects), 1);
    }
}

/// Every value of every byte of the shelf.
#[test]
fn every_value_of_every_byte() {
    let subjects = all();
    let mut image = shelf();
    for at in 0..image.len() {
        let kept = image[at];
        for value in 0..=255 {
            image[at] = value;
            check("a byte", &image, &subjects);
        }
        image[at] = kept;
    }
}

/// Random sound images, and what random damages make of them.
#[test]
fn random_images() {
    let subjects = all();
    let (first, images) = (settings::seed(), settings::damaged_images() / 4);
    let mut tally = [0; NUMBERS];
    for seed in (0..images).map(|image| first.wrapping_add(image)) {
        let what = format!("audited image {seed}");
        settings::trace(&what);
        // Another sequence than those of the other tests.
        let mut random = Random::new(seed ^ 0xA0D1_7000_0000_0000);
        let length = 2048 * *random.pick(&[1, 1, 1, 1, 1, 1, 2, 4, 32]);
        let mut image = match random.chance(1, 3) {
            true => starting_image(length, &mut random),
            false => {
                let tree = random_tree(length / 256, &mut random);
                assemble(&tree, Order::Scattered, &mut random)
            }
        };
        assert_eq!(check(&what, &image, &subjects), 0);
        damage(&mut image, &mut random);
        tally[usize::from(check(&what, &image, &subjects))] += 1;
    }
    println!("{images} images, and damaged, by number: {tally:?}");
    for number in [0, 1, 2, 3, 16, 17, 18, 19, 20] {
        assert!(images < 2_000 || tally[number] > images / 400, "{number}");
    }
}
