//! Repair (document 02 §7): what the walk does not object to is mended, and
//! what it does is refused as the verdict refuses it; the bits and the count
//! are all that changes.

use zealfs_tests::assemble::{assemble, Order};
use zealfs_tests::calls::{Answer, Base, Call, Calls, Refusal};
use zealfs_tests::damage::{damage, mend_bitmap, Survey};
use zealfs_tests::desk::{Desk, DATE};
use zealfs_tests::generate::{random_tree, starting_image, Generator};
use zealfs_tests::harness::{compare, Origin, Scenario};
use zealfs_tests::plain::reader::{judge, tree_and_owned};
use zealfs_tests::plain::{Plain, Replay};
use zealfs_tests::random::Random;
use zealfs_tests::settings;
use zealfs_tests::shrink::report;
use zealfs_tests::subjects::{all, compared, Subject};

/// What repair answers, by what the verdict does.
fn expected_answer(verdict: &Answer) -> Answer {
    match verdict.number {
        0 | 3 | 19 => Answer::granted(),
        number => Answer::refused(Refusal {
            number,
            place: verdict.place,
        }),
    }
}

/// Sees of one implementation: the answer, the bytes before and after, the tree
/// before and after, and that a second repair changes nothing. The bits are
/// worked out a second time, by a survey of the image.
fn check(what: &str, image: &[u8], calls: &dyn Calls) -> Answer {
    let expected = expected_answer(&Plain.verdict(image));
    let mut after = image.to_vec();
    let answer = calls.repair(&mut after);
    assert_eq!(answer, expected, "{what}");
    if !answer.is_granted() {
        assert!(after == image, "{what}: a refused repair changes the image");
        return answer;
    }
    let mut mended = image.to_vec();
    mend_bitmap(&mut mended);
    assert!(after == mended, "{what}: other bits or another count");
    let pages = image.len() / 256;
    let kept = (0..image.len()).filter(|&at| at != 3 && !(4..4 + pages / 8).contains(&at));
    for at in kept {
        assert_eq!(after[at], image[at], "{what}: byte {at} is changed");
    }
    let (before, _) = tree_and_owned(image).expect("the walk is clean");
    assert_eq!(
        judge(&after),
        Ok(before),
        "{what}: not sound, or another tree"
    );
    if judge(image).is_ok() {
        assert!(after == image, "{what}: a sound image is changed");
    }
    let once = after.clone();
    assert_eq!(calls.repair(&mut after), Answer::granted(), "{what}: twice");
    assert!(after == once, "{what}: a second repair changes the image");
    answer
}

fn check_all(what: &str, image: &[u8]) -> Answer {
    let answers = all().into_iter().map(|subject| {
        let what = format!("{what}, {}", subject.name);
        check(&what, image, subject.calls.as_ref())
    });
    answers.last().expect("there are implementations")
}

/// An image of 8 pages, two of them free: a chain of two pages, a directory
/// with an empty file in it, and a locked file.
fn shelf() -> Vec<u8> {
    let mut desk = Desk::fresh(&Plain, 2048);
    assert_eq!(desk.make_directory("/D"), 0);
    for path in ["/F", "/D/G", "/L"] {
        assert_eq!(desk.make_file(path), 0);
    }
    assert_eq!(desk.write("/F", 0, 256), 0);
    assert_eq!(desk.lock("/L"), 0);
    assert_eq!(desk.free(), 2);
    desk.image[36..64].fill(0xA7);
    // Bits past the image's pages.
    desk.image[5..36].fill(0x5C);
    desk.image
}

/// Every first byte of the bitmap with every count: granted exactly if all owned
/// pages are marked, and the result is the sound image.
#[test]
fn every_bitmap_byte_and_count() {
    let sound = shelf();
    let owned = sound[4] & !1;
    let subjects = all();
    let mut granted = 0;
    for bits in 0..=255 {
        for count in 0..=255 {
            let mut image = sound.clone();
            (image[4], image[3]) = (bits, count);
            for subject in &subjects {
                let mut after = image.clone();
                let answer = subject.calls.repair(&mut after);
                let is_clean = bits & owned == owned;
                assert_eq!(answer.is_granted(), is_clean, "{bits:02X} {count}");
                let expected = if is_clean { &sound } else { &image };
                assert!(after == *expected, "{}: {bits:02X} {count}", subject.name);
                granted += u64::from(is_clean);
            }
        }
    }
    // Bit 0 and the two free pages may be anything.
    assert_eq!(granted, 8 * 256 * subjects.len() as u64);
}

/// 256 zero bits, or none: the header is marked, so that a byte holds the count.
#[test]
fn the_largest_bitmap() {
    let fresh = Desk::fresh(&Plain, 65_536).image;
    for bits in [0x00, 0xFF, 0x01, 0xFE] {
        for count in [0, 1, 254, 255] {
            let mut image = fresh.clone();
            image[4..36].fill(bits);
            image[3] = count;
            assert!(check_all("256 pages", &image).is_granted());
        }
    }
}

/// Lengths and headers: 1 and 2, as the verdict.
#[test]
fn lengths_and_headers() {
    for length in [0, 1, 3, 4, 5, 36, 256, 2047, 2049, 4096 + 256, 67_584] {
        let mut image = shelf();
        image[4] |= 0x80;
        image.resize(length, 0);
        assert_eq!(check_all("a length", &image).number, 1);
    }
    for (at, value) in [(0, 0x5B), (1, 2), (2, 2), (2, 0)] {
        let mut image = shelf();
        image[4] |= 0x80;
        image[at] = value;
        assert_eq!(check_all("a header", &image).number, 2);
    }
    let mut image = shelf();
    image.resize(4096, 0);
    assert_eq!(check_all("twice the length", &image).number, 2);
}

/// A cartridge pulled between the header's page and the directory's: the new
/// file's page is marked and nobody owns it. Repair gives back the old image,
/// but for that page.
#[test]
fn a_cartridge_pulled_too_early() {
    let before = shelf();
    let mut after = before.clone();
    assert!(Plain.make_file(&mut after, b"/D/new", &DATE).is_granted());
    let mut pulled = after.clone();
    let directory = 256..512;
    pulled[directory.clone()].copy_from_slice(&before[directory]);
    let verdict = Plain.verdict(&pulled);
    assert_eq!((verdict.number, verdict.place), (19, [6, 0, 0]));
    check_all("pulled too early", &pulled);
    for subject in all() {
        let mut image = pulled.clone();
        assert!(subject.calls.repair(&mut image).is_granted());
        assert!(image[..256] == before[..256], "{}", subject.name);
        assert_eq!(judge(&image), judge(&before), "{}", subject.name);
        let made = subject.calls.make_file(&mut image, b"/D/new", &DATE);
        assert!(made.is_granted() && image == after, "{}", subject.name);
    }
}

/// What stands beside lost pages and a wrong count.
const BESIDE: [u8; 5] = [0, 16, 17, 18, 20];

/// Makes the walk meet the fault, if the image has what that takes.
fn spoil_walk(image: &mut [u8], number: u8, random: &mut Random) -> Option<()> {
    let entries = Survey::of(image).entries;
    let which = match number {
        18 if entries.len() < 2 => return None,
        18 => random.between(1, entries.len() - 1),
        _ => random.below(entries.len().max(1)),
    };
    let (at, pages) = entries.get(which)?;
    match number {
        16 => image[at + 1] = *random.pick(&[0, 0x1F, 0x2F, 0x7F]),
        17 => image[at + 17] = 0,
        18 => {
            // Of the walk's order, so that the page has its owner already.
            let (earlier, _) = entries.get(random.below(which))?;
            image[at + 17] = image[earlier + 17];
        }
        20 => {
            let page = *random.pick(pages);
            image[4 + page / 8] &= !(1 << (page % 8));
        }
        _ => {}
    }
    Some(())
}

/// Marks some free pages, byte 3 following or not. None if no page is free.
fn lose_pages(image: &mut [u8], counted: bool, random: &mut Random) -> Option<()> {
    let is_free = |image: &[u8], page: usize| image[4 + page / 8] >> (page % 8) & 1 == 0;
    let free: Vec<usize> = (1..image.len() / 256)
        .filter(|&page| is_free(image, page))
        .collect();
    if free.is_empty() {
        return None;
    }
    for _ in 0..random.between(1, 4) {
        let page = *random.pick(&free);
        if is_free(image, page) {
            image[4 + page / 8] |= 1 << (page % 8);
            image[3] = image[3].wrapping_sub(u8::from(counted));
        }
    }
    Some(())
}

/// Makes bit 0 or byte 3 wrong.
fn miscount(image: &mut [u8], random: &mut Random) {
    match random.below(3) {
        0 => image[4] &= !1,
        1 => image[3] = image[3].wrapping_add(random.between(1, 255) as u8),
        _ => {
            image[4] &= !1;
            image[3] = image[3].wrapping_add(1);
        }
    }
}

/// The faults that an image is given.
#[derive(Clone, Copy, Debug)]
struct Faults {
    /// Of the walk; 0 for none.
    beside: u8,
    lost: bool,
    miscounted: bool,
}

impl Faults {
    /// A sound image with these faults, if it has what they take.
    fn put(self, sound: &[u8], random: &mut Random) -> Option<Vec<u8>> {
        let mut image = sound.to_vec();
        if self.lost {
            lose_pages(&mut image, !self.miscounted, random)?;
        }
        if self.beside != 0 {
            spoil_walk(&mut image, self.beside, random)?;
        }
        if self.miscounted {
            miscount(&mut image, random);
        }
        Some(image)
    }

    /// The number that the verdict gives.
    fn first(self) -> u8 {
        match (self.beside, self.lost, self.miscounted) {
            (0, true, _) => 19,
            (0, false, true) => 3,
            (beside, ..) => beside,
        }
    }
}

/// Random trees with lost pages, a wrong count, both or neither, and each fault
/// of the walk beside them or none.
#[test]
fn lost_pages_and_counts_beside_each_fault() {
    let rounds = (settings::damaged_images() / 200).clamp(40, 2_000);
    for beside in BESIDE {
        for (lost, miscounted) in [(false, false), (true, false), (false, true), (true, true)] {
            let faults = Faults {
                beside,
                lost,
                miscounted,
            };
            let mut random = Random::new(settings::seed());
            let mut met = 0;
            for _ in 0..rounds {
                let pages = 8 * *random.pick(&[1, 1, 2, 4, 32]);
                let tree = random_tree(pages, &mut random);
                let sound = assemble(&tree, Order::Scattered, &mut random);
                let Some(image) = faults.put(&sound, &mut random) else {
                    continue;
                };
                assert_eq!(Plain.verdict(&image).number, faults.first(), "{faults:?}");
                let answer = check_all(&format!("{faults:?}"), &image);
                assert_eq!(answer.number, beside, "{faults:?}");
                met += 1;
            }
            println!("{faults:?}: {met} of {rounds} images");
            assert!(met > rounds / 4, "{faults:?}");
        }
    }
}

fn check_list(origin: &Origin, scenario: &Scenario, subjects: &[Subject]) {
    for subject in subjects {
        let calls = subject.calls.as_ref();
        if compare(scenario, &Plain, calls, &mut |_, _| {}).is_some() {
            let text = report(&origin.0, scenario, &Plain, calls);
            panic!("{} differs from plain:\n{text}", subject.name);
        }
    }
}

/// Any damages, then a repair, and calls on what it leaves: where it was granted
/// the replay starts afresh from there.
#[test]
fn random_damages_repaired() {
    let subjects = compared();
    let (first, images) = (settings::seed(), settings::damaged_images() / 4);
    let (mut mended, mut sound) = (0, 0);
    for seed in (0..images).map(|image| first.wrapping_add(image)) {
        let origin = Origin(format!("repaired image {seed}"));
        settings::trace(&origin.0);
        // Another sequence than those of the other tests.
        let mut random = Random::new(seed ^ 0x4E9A_1400_0000_0000);
        let length = 2048 * *random.pick(&[1, 1, 1, 1, 1, 1, 2, 4, 32]);
        let mut image = starting_image(length, &mut random);
        let replay = Replay::of(&image).expect("sound");
        match random.below(4) {
            0 => drop(lose_pages(&mut image, random.chance(1, 2), &mut random)),
            1 => miscount(&mut image, &mut random),
            _ => damage(&mut image, &mut random),
        }
        let verdict = Plain.verdict(&image).number;
        for subject in &subjects {
            check(&origin.0, &image, subject.calls.as_ref());
        }
        sound += u64::from(verdict == 0);
        mended += u64::from(matches!(verdict, 3 | 19));
        let mut generator = Generator::new(replay, &mut random);
        let mut calls = vec![Call::Verdict, Call::Repair, Call::Verdict];
        calls.extend((0..4).map(|_| generator.next_call()));
        calls.push(Call::Repair);
        check_list(&origin, &Scenario { image, calls }, &subjects);
    }
    println!("{images} images: {sound} were sound, {mended} were mended");
    assert!(mended >= images / 4 && mended + sound <= images * 9 / 10);
}
