//! Version 2: damaged images. The judges agree on the first fault of every one
//! and on its place, calls on those that are refused change nothing, and no bytes
//! at all make an implementation panic.

use zealfs_tests::calls::{Base, Call as Shared, NUMBERS};
use zealfs_tests::desk::DATE;
use zealfs_tests::harness::Origin;
use zealfs_tests::random::Random;
use zealfs_tests::settings;
use zealfs_tests::v2::calls::Call;
use zealfs_tests::v2::damage::{mend_bitmap, Survey};
use zealfs_tests::v2::desk::Desk;
use zealfs_tests::v2::generate::{damaged_scenario, random_size};
use zealfs_tests::v2::harness::{compare, report, Scenario};
use zealfs_tests::v2::layout::{layout, BITMAP_BYTES, CODE};
use zealfs_tests::v2::plain::PLAIN;
use zealfs_tests::v2::subjects::{compared, Subject};

/// How many of the images get each number from the verdict.
type Tally = [u64; NUMBERS];

fn check(origin: &Origin, scenario: &Scenario, subjects: &[Subject], tally: &mut Tally) {
    let verdict = PLAIN.verdict(&scenario.image);
    tally[usize::from(verdict.number)] += 1;
    for subject in subjects {
        let calls = subject.calls.as_ref();
        if compare(scenario, &PLAIN, calls, &mut |_, _| {}).is_some() {
            let text = report(&origin.0, scenario, &PLAIN, calls);
            panic!("{} differs from plain:\n{text}", subject.name);
        }
    }
}

/// Compares the verdicts on an image.
fn check_verdict(image: &[u8], subjects: &[Subject], tally: &mut Tally) {
    let wanted = PLAIN.verdict(image);
    tally[usize::from(wanted.number)] += 1;
    for subject in subjects {
        let told = subject.calls.verdict(image);
        if told != wanted {
            let scenario = Scenario {
                image: image.to_vec(),
                calls: vec![Call::Same(Shared::Verdict)],
            };
            let origin = "an image that is damaged in turn";
            let text = report(origin, &scenario, &PLAIN, subject.calls.as_ref());
            panic!("{} differs from plain:\n{text}", subject.name);
        }
    }
}

fn print_tally(what: &str, tally: &Tally) {
    let met = tally.iter().enumerate().filter(|(_, &count)| count > 0);
    let met: Vec<String> = met
        .map(|(number, count)| format!("{number}: {count}"))
        .collect();
    println!("{what}: {}", met.join(", "));
}

/// Random damages to images of every size, and then calls that would suit the
/// image before.
#[test]
fn random_damages_and_calls() {
    let subjects = compared();
    let (first, images) = (settings::seed(), settings::damaged_images_of_version_2());
    let mut tally = Tally::default();
    for seed in (0..images).map(|image| first.wrapping_add(image)) {
        let origin = Origin(format!("damaged image {seed} of version 2"));
        settings::trace(&origin.0);
        check(&origin, &damaged_scenario(seed), &subjects, &mut tally);
    }
    print_tally("randomly damaged images", &tally);
    if images >= 20_000 {
        for number in [0, 1, 2, 3, 16, 17, 18, 19, 20, 26] {
            let count = tally[number];
            assert!(count >= images / 200, "{number} was told {count} times");
        }
    }
}

/// An image of 16 pages with a bit of everything: a grown root, a grown
/// directory, a chain of two pages, a directory in a directory, removed files.
fn rich(length: usize, code: u64) -> Vec<u8> {
    let mut desk = Desk::fresh(&PLAIN, length, code);
    desk.make_all(&["/D", "/D/E"], &["/F", "/gone", "/D/G", "/D/E/H"]);
    let layout = layout(length, code).expect("a length and its page code");
    let one_page_more = layout.page + 1;
    assert_eq!(desk.write("/F", 0, one_page_more), 0);
    assert_eq!(desk.write("/gone", 0, one_page_more), 0);
    assert_eq!(desk.remove_file("/gone"), 0);
    // Directories are lengthened by hand, as many files need many pages.
    for path in [&b"/"[..], b"/D"] {
        let mut writer = zealfs_tests::v2::plain::writer::Writer {
            image: &mut desk.image,
            layout,
        };
        let last = *writer.pages_at(path).last().expect("a page");
        writer.join(last);
    }
    desk.make_all(&[], &["/Z"]);
    desk.free();
    desk.image
}

/// Every value of every byte of pages set aside and of directories' pages.
#[test]
fn every_value_of_every_byte() {
    let subjects = compared();
    for (length, code) in [(4096, 0), (69_632, 1)] {
        let mut tally = Tally::default();
        let mut image = rich(length, code);
        let layout = layout(length, code).expect("a length and its page code");
        let directories = Survey::of(&image, layout).directories.concat();
        let pages =
            (0..layout.pages).filter(|page| *page < layout.aside || directories.contains(page));
        let bytes: Vec<usize> = pages
            .flat_map(|page| page * layout.page..(page + 1) * layout.page)
            .collect();
        // Of the larger image only every third value of a byte.
        let step = if length > 4096 { 3 } else { 1 };
        for &at in &bytes {
            let kept = image[at];
            for value in (0..=255).step_by(step) {
                image[at] = value;
                check_verdict(&image, &subjects, &mut tally);
            }
            image[at] = kept;
        }
        print_tally("bytes of pages", &tally);
        for number in [0, 2, 3, 16, 17, 18, 19, 20, 26] {
            assert!(tally[number] > 0, "{number} was not told");
        }
    }
}

/// Every start page and every link, the bitmap following it as far as it goes.
#[test]
fn every_start_page_and_link() {
    let subjects = compared();
    let mut tally = Tally::default();
    for (length, code, values) in [(4096, 0, 256), (69_632, 1, 1024)] {
        let image = rich(length, code);
        let layout = layout(length, code).expect("a length and its page code");
        let survey = Survey::of(&image, layout);
        let starts = survey.entries.iter().map(|met| met.at + layout.start.at);
        let links = survey.owned().into_iter().chain([0]);
        let links = links.map(|page| layout.link(page).at);
        for at in starts.chain(links) {
            let is_start = at < layout.table_at || at >= layout.aside * layout.page;
            for value in 0..values {
                let mut image = image.clone();
                match is_start || code > 0 {
                    true => image[at..at + 2].copy_from_slice(&(value as u16).to_le_bytes()),
                    false => image[at] = value as u8,
                }
                mend_bitmap(&mut image, layout);
                check_verdict(&image, &subjects, &mut tally);
            }
        }
    }
    print_tally("start pages and links", &tally);
}

/// Any bytes: noise of any length, with more and more of a good header, and all
/// calls on it.
#[test]
fn any_bytes() {
    let subjects = compared();
    let mut tally = Tally::default();
    let mut random = Random::new(settings::seed());
    for round in 0..20_000 {
        let (length, code) = match random.chance(1, 100) {
            true => random_size(&mut random),
            false => (2048 * random.between(1, 4), 0),
        };
        let mut image = match random.below(3) {
            0 => vec![0; length],
            1 => vec![*random.pick(&[0xFF, 0x80, 0x81, 0x01, 0x5A]); length],
            _ => random.bytes(length),
        };
        if random.chance(1, 20) {
            image.truncate(random.below(300));
        } else if random.chance(19, 20) {
            image[..2].copy_from_slice(&[0x5A, 2]);
            CODE.put(&mut image, code as usize);
            BITMAP_BYTES.put(&mut image, length >> (8 + code) >> 3);
            // Sparse noise in the rest gets further than dense noise.
            for _ in 0..random.below(200) {
                let at = random.between(7, length - 1);
                image[at] = *random.pick(&[0, 1, 2, 3, b'A', 0x80, 0x81, 0xFF]);
            }
        }
        let path = random
            .pick(&[&b"/"[..], b"/A", b"/A/A", b"", b"//"])
            .to_vec();
        let entries = path.clone();
        let calls = vec![
            Shared::Verdict,
            Shared::Find(path.clone()),
            Shared::List(path.clone(), random.below(40) as u64),
            Shared::Read(path.clone(), 0, vec![0; 40]),
            Shared::MakeFile(path.clone(), DATE.to_vec()),
            Shared::MakeDirectory(path.clone(), DATE.to_vec()),
            Shared::Write(path.clone(), 0, vec![7; 40]),
            Shared::Lock(path.clone()),
            Shared::Unlock(path.clone()),
            Shared::RemoveFile(path.clone()),
            Shared::RemoveDirectory(path),
        ];
        let mut calls: Vec<Call> = calls.into_iter().map(Call::Same).collect();
        calls.insert(
            3,
            Call::Entries(entries, random.below(40) as u64, vec![7; 99]),
        );
        calls.push(Call::Format(random.below(4) as u64));
        calls.push(Call::Same(Shared::Verdict));
        let origin = Origin(format!("bytes {round}"));
        check(&origin, &Scenario { image, calls }, &subjects, &mut tally);
    }
    print_tally("any bytes", &tally);
}
