//! Every number in every call that can give it, and every two lines of the
//! refusal table that can hold at once: the higher one is given.

use zealfs_tests::calls::{Answer, Call, Calls, Refusal};
use zealfs_tests::desk::{Desk, DATE};
use zealfs_tests::plain::Plain;
use zealfs_tests::subjects::all;

/// The numbers in the order of the table. Of the faults that the judge's walk
/// tells, [`WALK`], no image here has two; tests/first_fault.rs has their order.
const TABLE: [u8; 22] = [
    1, 2, 16, 17, 18, 20, 19, 3, 4, 11, 14, 5, 6, 8, 7, 25, 21, 22, 12, 9, 10, 13,
];

const WALK: [u8; 4] = [16, 17, 18, 20];

const BAD_DATE: [u8; 8] = [0x20, 0x26, 0x13, 0x15, 0x07, 0x20, 0x30, 0x59];

/// An image of 16 pages, two of them free: /F with 255 bytes, /D with /D/G, /E
/// empty, and /full, a directory whose entries are all taken. /full/5 is locked,
/// and /D has bit 6, which means nothing there.
fn roomy() -> Vec<u8> {
    let mut desk = Desk::fresh(&Plain, 4096);
    assert_eq!(desk.make_file("/F"), 0);
    assert_eq!(desk.write("/F", 0, 255), 0);
    for path in ["/D", "/E", "/full"] {
        assert_eq!(desk.make_directory(path), 0);
    }
    assert_eq!(desk.make_file("/D/G"), 0);
    for name in 0..8 {
        assert_eq!(desk.make_file(&format!("/full/{name}")), 0);
    }
    assert_eq!(desk.lock("/full/5"), 0);
    desk.image[96] |= 0x40;
    desk.image
}

/// The same without a free page, and with a full root.
fn full() -> Vec<u8> {
    let mut desk = Desk {
        calls: &Plain,
        image: roomy(),
    };
    assert_eq!(desk.make_file("/1"), 0);
    assert_eq!(desk.make_file("/2"), 0);
    assert_eq!(desk.free(), 0);
    desk.image
}

/// Which image a case is about.
#[derive(Clone, Copy)]
enum On {
    Roomy,
    Full,
}

/// The lines of the table that hold.
type Lines = &'static [u8];

/// A call, the lines of the table that hold for it, and the first number of
/// the place.
type Case = (On, Call, Lines, u64);

fn path(path: &str) -> Vec<u8> {
    path.as_bytes().to_vec()
}

fn find_cases() -> Vec<Case> {
    let case = |text, holds: Lines, place| (On::Roomy, Call::Find(path(text)), holds, place);
    vec![
        case("", &[4], 0),
        case("F", &[4], 0),
        case("/F/", &[4], 0),
        case("/X", &[5], 1),
        case("/D/X", &[5], 3),
        case("/X/Y", &[5], 1),
        case("/D/X/Y", &[5], 3),
        case("/F/X", &[6], 1),
        case("/D/G/X", &[6], 3),
        case("/F/X/Y", &[6], 1),
    ]
}

fn list_cases() -> Vec<Case> {
    let case =
        |text, entry, holds: Lines, place| (On::Roomy, Call::List(path(text), entry), holds, place);
    vec![
        case("D", 0, &[4], 0),
        case("D", 8, &[4], 0),
        case("/X", 0, &[5], 1),
        case("/X", 8, &[5], 1),
        case("/F", 0, &[6], 1),
        case("/F", 8, &[6, 12], 1),
        case("/F/X", 0, &[6], 1),
        case("/D/G", u64::MAX, &[6, 12], 3),
        case("/", 6, &[12], 0),
        case("/", 7, &[12], 0),
        case("/D", 8, &[12], 0),
        case("/D", 256, &[12], 0),
        case("/D", u64::MAX, &[12], 0),
    ]
}

fn read_cases() -> Vec<Case> {
    let case = |text, position, room, holds: Lines, place| {
        let buffer = vec![0xB7; room];
        let call = Call::Read(path(text), position, buffer);
        (On::Roomy, call, holds, place)
    };
    vec![
        case("//F", 0, 9, &[4], 0),
        case("//F", 300, 9, &[4, 12], 0),
        case("/X", 0, 9, &[5], 1),
        case("/X", u64::MAX, 9, &[5], 1),
        case("/F/X", 0, 9, &[6], 1),
        case("/D", 0, 9, &[7], 0),
        case("/", 0, 9, &[7], 0),
        case("/", 0, 0, &[7], 0),
        case("/D", 257, 9, &[7, 12], 0),
        case("/", u64::MAX, 0, &[7, 12], 0),
        case("/F", 256, 9, &[12], 0),
        case("/F", 256, 0, &[12], 0),
        case("/D/G", 1, 9, &[12], 0),
        case("/F", 1 << 32, 9, &[12], 0),
        case("/F", u64::MAX, 9, &[12], 0),
    ]
}

/// Cases of both makes in which pages are not wanting, or a higher line holds.
fn make_cases(make: fn(Vec<u8>, Vec<u8>) -> Call) -> Vec<Case> {
    let case = |on, text, date: &[u8], holds: Lines, place| {
        let call = make(path(text), date.to_vec());
        (on, call, holds, place)
    };
    let (roomy, full) = (On::Roomy, On::Full);
    vec![
        case(roomy, "", &DATE, &[4], 0),
        case(roomy, "/X/", &BAD_DATE, &[4, 11], 0),
        case(roomy, "/X", &BAD_DATE, &[11], 0),
        case(roomy, "/X", &DATE[..7], &[11], 0),
        case(roomy, "/X", &[], &[11], 0),
        case(roomy, "/X/Y", &BAD_DATE, &[11, 5], 0),
        case(roomy, "/F/Y", &BAD_DATE, &[11, 6], 0),
        case(roomy, "/F", &BAD_DATE, &[11, 8], 0),
        case(roomy, "/", &BAD_DATE, &[11, 8], 0),
        case(full, "/X", &BAD_DATE, &[11, 9, 10], 0),
        case(roomy, "/X/Y", &DATE, &[5], 1),
        case(roomy, "/D/X/Y", &DATE, &[5], 3),
        case(full, "/X/Y", &DATE, &[5, 10], 1),
        case(roomy, "/F/X", &DATE, &[6], 1),
        case(roomy, "/D/G/X", &DATE, &[6], 3),
        case(full, "/F/X", &DATE, &[6, 10], 1),
        case(roomy, "/F", &DATE, &[8], 0),
        case(roomy, "/D", &DATE, &[8], 0),
        case(roomy, "/D/G", &DATE, &[8], 0),
        case(roomy, "/", &DATE, &[8], 0),
        case(roomy, "/full/0", &DATE, &[8, 9], 0),
        case(roomy, "/full/5", &DATE, &[8, 9], 0),
        case(full, "/F", &DATE, &[8, 9, 10], 0),
        case(full, "/", &DATE, &[8, 9, 10], 0),
        case(roomy, "/full/X", &DATE, &[9], 0),
        case(full, "/X", &DATE, &[9, 10], 0),
    ]
}

/// Cases in which a file or a directory wants a page that is not there.
fn page_wanting_cases(make: fn(Vec<u8>, Vec<u8>) -> Call) -> Vec<Case> {
    let case = |text, date: &[u8], holds: Lines, place| {
        let call = make(path(text), date.to_vec());
        (On::Full, call, holds, place)
    };
    vec![
        case("/D/X", &DATE, &[10], 0),
        case("/D/X", &BAD_DATE, &[11, 10], 0),
        case("X", &DATE, &[4, 10], 0),
        case("/X/Y", &DATE, &[5, 10], 1),
        case("/F/X", &DATE, &[6, 10], 1),
        case("/D/G", &DATE, &[8, 10], 0),
        case("/full/X", &DATE, &[9, 10], 0),
    ]
}

fn write_cases() -> Vec<Case> {
    let case = |text, position, length, holds: Lines, place| {
        let call = Call::Write(path(text), position, vec![0xB7; length]);
        (On::Roomy, call, holds, place)
    };
    vec![
        case("/F/", 0, 9, &[4], 0),
        case("/X", 0, 9, &[5], 1),
        case("/X", u64::MAX, 9000, &[5], 1),
        case("/F/X", 0, 9, &[6], 1),
        case("/full/5/X", 0, 9, &[6], 6),
        case("/D", 0, 9, &[7], 0),
        case("/D", 0, 0, &[7], 0),
        case("/", 0, 9, &[7], 0),
        case("/D", 257, 9, &[7, 12], 0),
        case("/", 0, 9000, &[7, 10], 0),
        case("/full/5", 0, 9, &[25], 0),
        case("/full/5", 0, 0, &[25], 0),
        case("/full/5", 1, 0, &[25, 12], 0),
        case("/full/5", u64::MAX, 9, &[25, 12], 0),
        case("/full/5", 0, 9000, &[25, 10], 0),
        case("/full/5", 1, 9000, &[25, 12, 10], 0),
        case("/F", 256, 9, &[12], 0),
        case("/F", 256, 0, &[12], 0),
        case("/F", u64::MAX, 0, &[12], 0),
        case("/F", u64::MAX, 1, &[12], 0),
        case("/F", 256, 9000, &[12, 10], 0),
        case("/F", u64::MAX - 8999, 9000, &[12, 10], 0),
        case("/F", 0, 3 * 255 + 1, &[10], 0),
        case("/F", 255, 2 * 255 + 1, &[10], 0),
        case("/D/G", 0, 3 * 255 + 1, &[10], 0),
        case("/D/G", 0, 65_535, &[10], 0),
        case("/D/G", 0, 65_536 + 255, &[10], 0),
    ]
}

/// Cases of both removals, those of the walk and above it.
fn removal_cases(remove: fn(Vec<u8>) -> Call) -> Vec<Case> {
    let case = |text, holds: Lines, place| (On::Roomy, remove(path(text)), holds, place);
    vec![
        case("", &[4], 0),
        case("//", &[4], 0),
        case("/D/", &[4], 0),
        case("/X", &[5], 1),
        case("/D/X", &[5], 3),
        case("/X/Y", &[5], 1),
        case("/F/X", &[6], 1),
        case("/D/G/X", &[6], 3),
    ]
}

fn remove_file_cases() -> Vec<Case> {
    let case = |text, holds: Lines| (On::Roomy, Call::RemoveFile(path(text)), holds, 0);
    let own = vec![
        case("/", &[14, 7]),
        case("/D", &[7]),
        case("/E", &[7]),
        case("/full", &[7]),
        case("/full/5", &[25]),
    ];
    [removal_cases(Call::RemoveFile), own].concat()
}

/// A file at the end is where the walk needs a directory; it holds something or
/// not, and 6 stands above 13.
fn remove_directory_cases() -> Vec<Case> {
    let case =
        |text, holds: Lines, place| (On::Roomy, Call::RemoveDirectory(path(text)), holds, place);
    let own = vec![
        case("/", &[14, 13], 0),
        case("/F", &[6], 1),
        case("/D/G", &[6], 3),
        case("/full/0", &[6], 6),
        case("/full/5", &[6], 6),
        case("/D", &[13], 0),
        case("/full", &[13], 0),
    ];
    [removal_cases(Call::RemoveDirectory), own].concat()
}

/// Cases of lock and unlock, whether or not bit 6 is set.
fn lock_cases(lock: fn(Vec<u8>) -> Call) -> Vec<Case> {
    let case = |text, holds: Lines, place| (On::Roomy, lock(path(text)), holds, place);
    vec![
        case("", &[4], 0),
        case("F", &[4], 0),
        case("/full/5/", &[4], 0),
        case("/X", &[5], 1),
        case("/D/X", &[5], 3),
        case("/X/Y", &[5], 1),
        case("/F/X", &[6], 1),
        case("/full/5/X", &[6], 6),
        case("/", &[7], 0),
        case("/D", &[7], 0),
        case("/E", &[7], 0),
    ]
}

/// The three calls that read a link list, of which the images have none;
/// tests/links.rs has their other numbers.
fn links_cases() -> Vec<Case> {
    let places: [(&str, Lines, u64); 9] = [
        ("", &[4], 0),
        ("D", &[4], 0),
        ("/D/", &[4], 0),
        ("/X", &[5], 1),
        ("/D/X", &[5], 3),
        ("/F", &[6], 1),
        ("/D/G/X", &[6], 3),
        ("/", &[5], 1),
        ("/D", &[5], 3),
    ];
    let calls = |directory: &str| {
        [
            Call::LinksRead(path(directory), vec![0xB7; 4]),
            Call::LinksRead(path(directory), Vec::new()),
            Call::LinksFind(path(directory), 17, 0),
            Call::LinksCheck(path(directory)),
        ]
    };
    let of_place =
        |(directory, holds, place)| calls(directory).map(|call| (On::Roomy, call, holds, place));
    places.into_iter().flat_map(of_place).collect()
}

fn links_write_cases() -> Vec<Case> {
    let case = |on, text, date: &[u8], numbers: &[u64], holds: Lines, place| {
        let call = Call::LinksWrite(path(text), date.to_vec(), numbers.to_vec());
        (on, call, holds, place)
    };
    let (roomy, full) = (On::Roomy, On::Full);
    let good = [1, 7, 1];
    let (broken, equal) = ([1, 7, 1, 1, 10, 1], [1, 7, 1, 1, 7, 2]);
    // Rows of 7 bytes, on three pages.
    let long: Vec<u64> = (0..100)
        .flat_map(|value| [3, value + 200, 1 << 21])
        .collect();
    vec![
        case(roomy, "", &DATE, &good, &[4], 0),
        case(roomy, "/D/", &BAD_DATE, &broken, &[4, 11, 21], 0),
        case(roomy, "/D", &BAD_DATE, &good, &[11], 0),
        case(roomy, "/D", &DATE[..7], &broken, &[11, 21], 0),
        case(roomy, "/X", &BAD_DATE, &equal, &[11, 5, 22], 0),
        case(roomy, "/F", &BAD_DATE, &good, &[11, 6], 0),
        case(roomy, "/X", &DATE, &broken, &[5, 21], 1),
        case(roomy, "/D/X/Y", &DATE, &good, &[5], 3),
        case(roomy, "/F", &DATE, &equal, &[6, 22], 1),
        case(roomy, "/F/LINKS", &DATE, &good, &[6], 1),
        case(roomy, "/D", &DATE, &broken, &[21], 1),
        case(roomy, "/D", &DATE, &equal, &[22], 1),
        case(roomy, "/D", &DATE, &long, &[10], 0),
        case(roomy, "/full", &DATE, &broken, &[21, 9], 1),
        case(roomy, "/full", &DATE, &equal, &[22, 9], 1),
        case(roomy, "/full", &DATE, &good, &[9], 0),
        case(roomy, "/full", &DATE, &long, &[9, 10], 0),
        case(full, "/full", &DATE, &good, &[9, 10], 0),
        case(full, "/", &DATE, &good, &[9, 10], 0),
        case(full, "/", &DATE, &broken, &[21, 9, 10], 1),
        case(full, "/D", &DATE, &good, &[10], 0),
        case(full, "/D", &DATE, &[], &[10], 0),
        case(full, "/D", &DATE, &broken, &[21, 10], 1),
        case(full, "/D", &DATE, &equal, &[22, 10], 1),
        case(full, "/D", &BAD_DATE, &good, &[11, 10], 0),
    ]
}

fn cases() -> Vec<Case> {
    [
        links_cases(),
        links_write_cases(),
        find_cases(),
        list_cases(),
        read_cases(),
        make_cases(Call::MakeFile),
        make_cases(Call::MakeDirectory),
        page_wanting_cases(Call::MakeFile),
        page_wanting_cases(Call::MakeDirectory),
        write_cases(),
        remove_file_cases(),
        remove_directory_cases(),
        lock_cases(Call::Lock),
        lock_cases(Call::Unlock),
    ]
    .concat()
}

/// The one of the lines that stands highest in the table.
fn highest(holds: &[u8]) -> u8 {
    let given = TABLE.iter().find(|number| holds.contains(number));
    *given.expect("a line holds")
}

/// Performs the call and sees it refused, with nothing lent changed.
fn check(calls: &dyn Calls, image: &[u8], call: &Call, refusal: Refusal) {
    let mut lent_image = image.to_vec();
    let mut lent = call.clone();
    let answer = lent.perform(calls, &mut lent_image);
    assert_eq!(answer, Answer::refused(refusal), "{call:?}");
    assert!(lent_image == image, "{call:?} changes the image");
    assert!(lent == *call, "{call:?} changes a buffer");
}

#[test]
fn every_refusal_on_sound_images() {
    let (roomy, full) = (roomy(), full());
    for subject in all() {
        println!("{}", subject.name);
        for (on, call, holds, place) in cases() {
            let image = match on {
                On::Roomy => &roomy,
                On::Full => &full,
            };
            let refusal = Refusal {
                number: highest(holds),
                place: [place, 0, 0],
            };
            check(subject.calls.as_ref(), image, &call, refusal);
        }
    }
}

/// Breaks the image [`roomy`] so that these lines of the judge hold, and none
/// above the highest of them. With 17 and 18 a page is lost too.
fn broken(image: &[u8], holds: &[u8]) -> Vec<u8> {
    let mut image = image.to_vec();
    for number in holds {
        match number {
            1 => {}
            2 => image[1] = 2,
            3 => image[3] ^= 8,
            // The name of /full.
            16 => image[160 + 1] = b'/',
            // The start page of /D/G.
            17 => image[512 + 17] = 0,
            // /E on the page of /F.
            18 => image[128 + 17] = 1,
            // Both free pages are marked, or that of /full/7 is not.
            19 => {
                image[4 + 1] |= 0xC0;
                image[3] -= 2;
            }
            20 => {
                image[4 + 1] &= !0x20;
                image[3] += 1;
            }
            _ => unreachable!("{number} is not of the judge"),
        }
    }
    if holds.contains(&1) {
        image.pop();
    }
    image
}

/// What is told of the image that [`broken`] makes.
fn told(holds: &[u8]) -> Refusal {
    match highest(holds) {
        16 => Refusal::at_entry(0, 3),
        17 => Refusal::at_chain(2, 0, 0),
        18 => Refusal::at_page(18, 1),
        19 => Refusal::at_page(19, 14),
        20 => Refusal::at_page(20, 13),
        number => Refusal::number(number),
    }
}

/// Every choice of 1, 2, one fault of the walk, 19 and 3, but for none.
fn faults() -> Vec<Vec<u8>> {
    let chosen = |choice: usize, walk: u8| -> Vec<u8> {
        let lines = [1, 2, walk, 19, 3].into_iter().enumerate();
        let taken = lines.filter(|(bit, _)| choice >> bit & 1 == 1);
        taken.map(|(_, number)| number).collect()
    };
    let choices = (1..32).flat_map(|choice| WALK.map(|walk| chosen(choice, walk)));
    let mut choices: Vec<Vec<u8>> = choices.collect();
    // Those without a fault of the walk come four times.
    choices.dedup();
    choices
}

/// What the judge tells stands above whatever else holds, in every call but
/// format.
#[test]
fn the_image_is_judged_first() {
    let mut calls: Vec<Call> = cases().into_iter().map(|(_, call, _, _)| call).collect();
    calls.extend(granted());
    calls.push(Call::Verdict);
    let roomy = roomy();
    let faults = faults();
    println!("{} calls on {} broken images", calls.len(), faults.len());
    for subject in all() {
        for holds in &faults {
            let image = broken(&roomy, holds);
            for call in &calls {
                check(subject.calls.as_ref(), &image, call, told(holds));
            }
        }
    }
}

/// Calls that the image [`roomy`] grants, just inside each limit.
fn granted() -> Vec<Call> {
    let date = DATE.to_vec();
    vec![
        Call::Find(path("/")),
        Call::Find(path("/D/G")),
        Call::List(path("/"), 5),
        Call::List(path("/D"), 7),
        Call::Read(path("/F"), 255, vec![1; 9]),
        Call::Read(path("/F"), 0, vec![1; 300]),
        Call::MakeFile(path("/X"), date.clone()),
        Call::MakeDirectory(path("/E/X"), date),
        Call::Write(path("/F"), 255, vec![1; 2 * 255]),
        Call::Write(path("/F"), 255, Vec::new()),
        Call::RemoveFile(path("/F")),
        Call::RemoveFile(path("/full/3")),
        Call::RemoveDirectory(path("/E")),
        Call::Find(path("/full/5")),
        Call::Read(path("/full/5"), 0, vec![1; 9]),
        Call::Lock(path("/F")),
        Call::Lock(path("/full/5")),
        Call::Unlock(path("/F")),
        Call::Unlock(path("/full/5")),
        Call::LinksWrite(path("/D"), DATE.to_vec(), vec![1, 7, 1]),
        Call::LinksWrite(path("/"), DATE.to_vec(), vec![16, 0, (1 << 32) - 1]),
    ]
}

#[test]
fn just_inside_the_limits() {
    let image = roomy();
    for subject in all() {
        for mut call in granted() {
            let answer = call.perform(subject.calls.as_ref(), &mut image.clone());
            assert_eq!(answer.number, 0, "{}: {call:?}", subject.name);
        }
    }
}

/// Lengths about every page boundary, and some whose N or N/8 is a good one if
/// it is cut to fewer bits.
fn lengths() -> impl Iterator<Item = usize> {
    let about_pages = (0..=65_537).filter(|length| length % 256 < 2);
    about_pages.chain([67_584, 131_072, 133_120, 524_288, 526_336, 16_779_264])
}

#[test]
fn format_judges_only_the_length() {
    for subject in all() {
        let calls = subject.calls.as_ref();
        for length in lengths() {
            let mut image = vec![0xFF; length];
            let allowed = length % 2048 == 0 && (2048..=65_536).contains(&length);
            let answer = calls.format(&mut image);
            assert_eq!(answer.is_granted(), allowed, "{length}");
            if !allowed {
                assert_eq!(answer, Answer::refused(Refusal::number(1)));
                assert!(image.iter().all(|&byte| byte == 0xFF));
            }
        }
    }
}

#[test]
fn the_length_is_judged_before_the_header() {
    let fresh = Desk::fresh(&Plain, 2048).image;
    for subject in all() {
        for length in lengths() {
            let mut image = fresh.clone();
            image.resize(length, 0);
            let allowed = length % 2048 == 0 && (2048..=65_536).contains(&length);
            let expected = match (allowed, length) {
                (false, _) => 1,
                (true, 2048) => 0,
                (true, _) => 2,
            };
            let answer = subject.calls.verdict(&image);
            assert_eq!(answer.number, expected, "{length}");
        }
    }
}

/// Lengths whose pages are few if they are counted in 16 bits.
#[test]
fn writes_of_very_many_bytes() {
    let image = roomy();
    for subject in all() {
        for length in [65_536 * 255, 65_537 * 255, 65_536 * 256] {
            let call = Call::Write(path("/F"), 0, vec![0; length]);
            check(subject.calls.as_ref(), &image, &call, Refusal::number(10));
        }
    }
}

/// Lengths that are small if they are cut to 32 bits. The bytes are never
/// touched, but 4 GiB of addresses are wanted.
#[test]
#[ignore = "wants 4 GiB of address space"]
fn lengths_of_more_than_32_bits() {
    let image = roomy();
    let mut many = vec![0; (1 << 32) + 1];
    for subject in all() {
        let calls = subject.calls.as_ref();
        let answer = calls.write(&mut image.clone(), b"/F", 0, &many);
        assert_eq!(answer, Answer::refused(Refusal::number(10)));
        let answer = calls.read(&image, b"/F", 0, &mut many);
        assert_eq!(answer, Answer::count(255));
        let answer = calls.find(&image, &many);
        assert_eq!(answer, Answer::refused(Refusal::number(4)));
        let answer = calls.make_file(&mut image.clone(), b"/N", &many);
        assert_eq!(answer, Answer::refused(Refusal::number(11)));
        let answer = calls.verdict(&many);
        assert_eq!(answer, Answer::refused(Refusal::number(1)));
    }
}

/// Every byte of a date through all its values, the others those of a day in
/// November.
#[test]
fn dates() {
    let image = Desk::fresh(&Plain, 2048).image;
    let fields = [
        (0, 99),
        (0, 99),
        (1, 12),
        (1, 30),
        (0, 99),
        (0, 23),
        (0, 59),
        (0, 59),
    ];
    for subject in all() {
        for (field, (low, high)) in fields.into_iter().enumerate() {
            for value in 0..=255 {
                let mut date = DATE;
                date[field] = value;
                let number = value / 16 * 10 + value % 16;
                let is_bcd = value / 16 < 10 && value % 16 < 10;
                let good = is_bcd && (low..=high).contains(&number);
                let mut lent = image.clone();
                let answer = subject.calls.make_file(&mut lent, b"/F", &date);
                let expected = if good { 0 } else { 11 };
                assert_eq!(answer.number, expected, "{}: {date:02X?}", subject.name);
            }
        }
    }
}

fn bcd(number: u16) -> u8 {
    (number / 10 * 16 + number % 10) as u8
}

/// Whether a file is made with the date.
fn is_made(calls: &dyn Calls, image: &[u8], year: u16, month: u16, day: u16) -> bool {
    let mut date = DATE;
    let numbers = [year / 100, year % 100, month, day];
    date[..4].copy_from_slice(&numbers.map(bcd));
    let answer = calls.make_file(&mut image.to_vec(), b"/F", &date);
    assert!([0, 11].contains(&answer.number), "{date:02X?}");
    answer.is_granted()
}

/// The 29th of February, and the 30th and 31st of every month.
#[test]
fn last_days_of_months() {
    let image = Desk::fresh(&Plain, 2048).image;
    let leap_days = [
        (0, true),
        (1500, false),
        (1600, true),
        (1900, false),
        (2000, true),
        (2023, false),
        (2024, true),
        (2100, false),
    ];
    for subject in all() {
        let is_made = |year, month, day| is_made(subject.calls.as_ref(), &image, year, month, day);
        for (year, is_leap) in leap_days {
            assert!(is_made(year, 2, 28), "{}: {year}", subject.name);
            assert_eq!(is_made(year, 2, 29), is_leap, "{}: {year}", subject.name);
        }
        for month in 1..=12 {
            let (thirty, thirty_one) = (is_made(2023, month, 30), is_made(2023, month, 31));
            assert_eq!(thirty, month != 2, "{}: {month}", subject.name);
            let long = [1, 3, 5, 7, 8, 10, 12].contains(&month);
            assert_eq!(thirty_one, long, "{}: {month}", subject.name);
        }
        // No day is left out where the older calendar ended.
        assert!((1..=31).all(|day| is_made(1582, 10, day)));
    }
}

/// The calendar repeats after 400 years, which have 146,097 days: 20,871 weeks.
#[test]
fn days_of_400_years() {
    let image = Desk::fresh(&Plain, 2048).image;
    for subject in all() {
        for first in [0, 1600, 9600] {
            let mut days = 0;
            for year in first..first + 400 {
                for month in 0..=13 {
                    let made =
                        |&day: &u16| is_made(subject.calls.as_ref(), &image, year, month, day);
                    days += (0..=32).filter(made).count();
                }
            }
            assert_eq!(days, 146_097, "{}: from {first}", subject.name);
        }
    }
}

/// The verdict judges no stored date, and find and list tell it as it is.
#[test]
fn stored_dates_are_not_judged() {
    let mut sound = Desk::fresh(&Plain, 2048);
    assert_eq!(sound.make_file("/F"), 0);
    let unreal = [0x20, 0x26, 0x02, 0x31, 0x07, 0x20, 0x30, 0x59];
    sound.image[64 + 20..64 + 28].copy_from_slice(&unreal);
    for subject in all() {
        let calls = subject.calls.as_ref();
        assert!(calls.verdict(&sound.image).is_granted());
        assert_eq!(calls.find(&sound.image, b"/F").date, unreal);
        assert_eq!(calls.list(&sound.image, b"/", 0).date, unreal);
    }
}

/// Every byte as a name of its own, and inside a longer one.
#[test]
fn bytes_of_names() {
    let image = Desk::fresh(&Plain, 2048).image;
    for subject in all() {
        for byte in 0..=255 {
            let legal = (0x20..=0x7E).contains(&byte) && byte != b'/';
            for path in [vec![b'/', byte], vec![b'/', b'A', byte]] {
                let mut lent = image.clone();
                let answer = subject.calls.make_file(&mut lent, &path, &DATE);
                assert_eq!(answer.number, if legal { 0 } else { 4 }, "{path:?}");
            }
            // Two names, if the byte is the slash.
            let mut lent = image.clone();
            let answer = subject
                .calls
                .make_file(&mut lent, &[b'/', b'A', byte, b'B'], &DATE);
            let expected = match byte {
                b'/' => 5,
                _ if legal => 0,
                _ => 4,
            };
            assert_eq!(answer.number, expected, "{byte:02X}");
        }
    }
}
