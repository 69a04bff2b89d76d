//! Version 2: cases at the borders, with values that were worked out by hand
//! from document 02 §12 and the second edition of document 001, on every
//! implementation.

use zealfs_tests::assemble::Order;
use zealfs_tests::calls::{Answer, Base, Kind, Refusal};
use zealfs_tests::desk::{pattern, DATE};
use zealfs_tests::random::Random;
use zealfs_tests::v2::assemble::assemble;
use zealfs_tests::v2::desk::Desk;
use zealfs_tests::v2::generate::nested_tree;
use zealfs_tests::v2::layout::layout;
use zealfs_tests::v2::plain::PLAIN;
use zealfs_tests::v2::subjects::all;

/// Runs a case on each implementation, on an image formatted over E5.
fn on_all(length: usize, code: u64, case: fn(&mut Desk)) {
    for subject in all() {
        println!("{}", subject.name);
        case(&mut Desk::fresh(subject.calls.as_ref(), length, code));
    }
}

/// An image of E5 with these bytes in it.
fn image_of(length: usize, parts: &[(usize, Vec<u8>)]) -> Vec<u8> {
    let mut image = vec![0xE5; length];
    for (at, bytes) in parts {
        image[*at..at + bytes.len()].copy_from_slice(bytes);
    }
    image
}

fn zeros(count: usize) -> Vec<u8> {
    vec![0; count]
}

/// The 32 bytes of an entry.
fn entry(flags: u8, name: &str, start: u16, size: u32) -> Vec<u8> {
    let mut bytes = zeros(32);
    bytes[0] = flags;
    bytes[1..1 + name.len()].copy_from_slice(name.as_bytes());
    bytes[17..19].copy_from_slice(&start.to_le_bytes());
    bytes[19..23].copy_from_slice(&size.to_le_bytes());
    bytes[23..31].copy_from_slice(&DATE);
    bytes
}

/// Tells the first byte at which two images differ.
fn assert_image(image: &[u8], expected: &[u8]) {
    let differs = (0..expected.len()).find(|&at| image[at] != expected[at]);
    if let Some(at) = differs {
        let to = (at + 16).min(expected.len());
        let (got, wanted) = (&image[at..to], &expected[at..to]);
        panic!("byte {at}: {got:02X?}, expected {wanted:02X?}");
    }
}

const FORMATS: [(usize, [u8; 4]); 19] = [
    (0, [1; 4]),
    (2047, [1; 4]),
    (2048, [0, 26, 26, 26]),
    (2304, [1; 4]),
    (4096, [0, 0, 26, 26]),
    (6144, [0, 26, 26, 26]),
    (8192, [0, 0, 0, 26]),
    (63_488, [0, 26, 26, 26]),
    (65_536, [0, 0, 0, 26]),
    (65_537, [1; 4]),
    (67_584, [26; 4]),
    (69_632, [26, 0, 26, 26]),
    (73_728, [26, 0, 0, 26]),
    (262_144, [26, 0, 0, 26]),
    (264_192, [26; 4]),
    (266_240, [26; 4]),
    (270_336, [26, 26, 0, 26]),
    (1_048_576, [26, 26, 0, 26]),
    (1_050_624, [1; 4]),
];

/// Every border of the lengths with every page code: 1, 26 or done. A refused
/// format changes nothing, a granted one gives a sound image.
#[test]
fn formats() {
    for subject in all() {
        let calls = subject.calls.as_ref();
        for (length, numbers) in FORMATS {
            let codes = [0, 1, 2, 3, 255, 256, 257, 1 << 32, u64::MAX];
            for (index, code) in codes.into_iter().enumerate() {
                let number = numbers[index.min(3)];
                let mut image = vec![0xE5; length];
                let told = calls.format(&mut image, code);
                assert_eq!(told.number, number, "{length} bytes, code {code}");
                if number == 0 {
                    let pages = (length as u64) >> (8 + code);
                    let aside = if length > 65_536 { 3 } else { 2 };
                    let verdict = Answer::verdict(pages, pages - aside);
                    assert_eq!(
                        calls.verdict(&image),
                        verdict,
                        "{length} bytes, code {code}"
                    );
                } else {
                    assert_eq!(told, Answer::refused(Refusal::number(number)));
                    assert!(image.iter().all(|&byte| byte == 0xE5));
                }
            }
        }
    }
}

#[test]
fn the_smallest_format_whole() {
    on_all(2048, 0, |desk| {
        let header = vec![0x5A, 2, 1, 0, 6, 0, 0, 3];
        assert_image(
            &desk.image,
            &image_of(2048, &[(0, zeros(512)), (0, header)]),
        );
    });
}

#[test]
fn a_format_with_links_of_two_bytes_whole() {
    on_all(69_632, 1, |desk| {
        let header = vec![0x5A, 2, 0x11, 0, 0x85, 0, 1, 7];
        assert_image(
            &desk.image,
            &image_of(69_632, &[(0, zeros(1536)), (0, header)]),
        );
    });
}

#[test]
fn the_largest_format_whole() {
    on_all(1_048_576, 2, |desk| {
        // 1,024 pages: 128 bytes of bitmap, 1,021 free pages.
        let header = vec![0x5A, 2, 0x80, 0, 0xFD, 3, 2, 7];
        assert_image(
            &desk.image,
            &image_of(1_048_576, &[(0, zeros(3072)), (0, header)]),
        );
        // The root's entries begin at 160.
        assert_eq!(desk.list("/", 26), Answer::empty_entry());
        assert_eq!(desk.list("/", 27), Answer::refused(Refusal::number(12)));
        assert_eq!(desk.make_file("/F"), 0);
        assert_image(&desk.image[160..192], &entry(0x80, "F", 3, 0));
    });
}

/// The root's entries by the bitmap's bytes: 7 up to 200 pages of 256 bytes, 6
/// from 208 on.
#[test]
fn entries_of_the_root() {
    let cases = [
        (2048, 0, 7),
        (51_200, 0, 7),
        (53_248, 0, 6),
        (65_536, 0, 6),
        (4096, 1, 15),
        (65_536, 1, 15),
        (102_400, 1, 15),
        (106_496, 1, 14),
        (262_144, 1, 13),
        (8192, 2, 31),
        (204_800, 2, 31),
        (212_992, 2, 30),
        (1_048_576, 2, 27),
    ];
    for subject in all() {
        for (length, code, entries) in cases {
            let desk = Desk::fresh(subject.calls.as_ref(), length, code);
            assert_eq!(
                desk.list("/", entries - 1),
                Answer::empty_entry(),
                "{length}"
            );
            assert_eq!(desk.list("/", entries).number, 12, "{length}");
        }
    }
}

#[test]
fn a_file_with_links_of_two_bytes() {
    on_all(69_632, 1, |desk| {
        assert_eq!(desk.make_file("/a"), 0);
        assert_eq!(desk.write("/a", 0, 1025), 0);
        let mut parts = vec![
            (0, zeros(1536)),
            (0, vec![0x5A, 2, 0x11, 0, 0x82, 0, 1, 0x3F]),
            (32, entry(0x80, "a", 3, 1025)),
            (512 + 6, vec![4, 0, 5, 0, 0, 0]),
            (1536, zeros(3 * 512)),
            (1536, pattern(1025)),
        ];
        assert_image(&desk.image, &image_of(69_632, &parts));
        assert_eq!(desk.content("/a"), pattern(1025));

        // The removal changes the flags, the bits and the count alone.
        assert_eq!(desk.remove_file("/a"), 0);
        parts.push((0, vec![0x5A, 2, 0x11, 0, 0x85, 0, 1, 7]));
        parts.push((32, vec![0]));
        assert_image(&desk.image, &image_of(69_632, &parts));
    });
}

#[test]
fn a_directory_of_512_bytes() {
    on_all(4096, 1, |desk| {
        assert_eq!(desk.make_directory("/D"), 0);
        assert_image(&desk.image[32..64], &entry(0x81, "D", 2, 512));
        assert_eq!(
            desk.find("/D"),
            Answer::found(Kind::Directory, 512, false, DATE)
        );
        assert_eq!(
            desk.find("/"),
            Answer::found(Kind::Directory, 512, false, [0; 8])
        );
        for (path, last) in [("/", 14), ("/D", 15)] {
            assert_eq!(desk.list(path, last), Answer::empty_entry());
            assert_eq!(desk.list(path, last + 1).number, 12);
        }
    });
}

#[test]
fn a_directory_of_1024_bytes() {
    on_all(8192, 2, |desk| {
        assert_eq!(desk.make_directory("/D"), 0);
        assert_image(&desk.image[32..64], &entry(0x81, "D", 2, 1024));
        assert_eq!(desk.find("/D").values, [1, 1024, 0, 0]);
        for (path, last) in [("/", 30), ("/D", 31)] {
            assert_eq!(desk.list(path, last), Answer::empty_entry());
            assert_eq!(desk.list(path, last + 1).number, 12);
        }
    });
}

const IN_D: [&str; 8] = [
    "/D/0", "/D/1", "/D/2", "/D/3", "/D/4", "/D/5", "/D/6", "/D/7",
];

/// /D on page 2 with eight files on 3 to 10: it is full, and 11 to 15 are free.
fn with_full_directory(desk: &mut Desk) {
    desk.make_all(&["/D"], &IN_D);
    assert_eq!(desk.free(), 5);
}

/// A make in a full directory wants two pages, elsewhere one.
#[test]
fn a_full_directory_with_few_free_pages() {
    type Make = fn(&mut Desk) -> u8;
    let makes: [(Make, [u8; 4]); 4] = [
        (|desk| desk.make_file("/D/8"), [10, 10, 0, 0]),
        (|desk| desk.make_directory("/D/8"), [10, 10, 0, 0]),
        (|desk| desk.make_file("/E"), [10, 0, 0, 0]),
        (|desk| desk.make_directory("/E"), [10, 0, 0, 0]),
    ];
    for subject in all() {
        for (make, numbers) in makes {
            for (free, number) in numbers.into_iter().enumerate() {
                let mut desk = Desk::fresh(subject.calls.as_ref(), 4096, 0);
                with_full_directory(&mut desk);
                // One page, and one more for each page less that is to be free.
                let length = (1 + 5 - free) * 256;
                assert_eq!(desk.write("/D/0", 0, length), 0);
                assert_eq!(desk.free(), free as u64);
                let before = desk.image.clone();
                assert_eq!(make(&mut desk), number, "{free} free pages");
                assert!(number == 0 || desk.image == before);
                desk.free();
            }
        }
    }
}

/// The directory's page is taken before the file's.
#[test]
fn a_directory_grows() {
    on_all(4096, 0, |desk| {
        with_full_directory(desk);
        assert_eq!(desk.write("/D/0", 0, 1024), 0);
        assert_eq!(desk.free(), 2);
        assert_eq!(desk.list("/D", 8).number, 12);
        assert_eq!(desk.make_file("/D/8"), 0);
        let files: Vec<u8> = (0..8)
            .flat_map(|file| {
                let size = if file == 0 { 1024 } else { 0 };
                entry(0x80, &file.to_string(), 3 + file, size)
            })
            .collect();
        let content = pattern(1024);
        let expected = image_of(
            4096,
            &[
                (0, zeros(4096)),
                (0, vec![0x5A, 2, 2, 0, 0, 0, 0, 0xFF, 0xFF]),
                (32, entry(0x81, "D", 2, 256)),
                // Links of 2, 3, 11 and 12; the others are 0.
                (256 + 2, vec![14, 11]),
                (256 + 11, vec![12, 13]),
                (512, files),
                (3 * 256, content[..256].to_vec()),
                (11 * 256, content[256..].to_vec()),
                (14 * 256, entry(0x80, "8", 15, 0)),
            ],
        );
        assert_image(&desk.image, &expected);
        assert_eq!(desk.find("/D").values, [1, 256, 0, 0]);
        assert_eq!(desk.list("/D", 8).values, [1, 0, 0, 0]);
        assert_eq!(desk.list("/D", 15), Answer::empty_entry());
        assert_eq!(desk.list("/D", 16).number, 12);
        assert_eq!(desk.make_file("/D/8"), 8);
        assert_eq!(desk.make_file("/D/7"), 8);
        assert_eq!(desk.make_file("/D/9"), 10);
    });
}

/// A grown directory keeps its page when it is emptied, and gives back both when
/// it is removed; links stay.
#[test]
fn a_directory_never_shrinks() {
    on_all(4096, 0, |desk| {
        with_full_directory(desk);
        assert_eq!(desk.make_file("/D/8"), 0);
        assert_eq!(desk.free(), 3);
        assert_eq!(desk.remove_directory("/D"), 13);
        for path in IN_D {
            assert_eq!(desk.remove_file(path), 0);
        }
        // What is left is on the second page.
        assert_eq!(desk.remove_directory("/D"), 13);
        assert_eq!(desk.list("/D", 8).values[0], 1);
        assert_eq!(desk.remove_file("/D/8"), 0);
        assert_eq!(desk.free(), 12);
        assert_eq!(desk.list("/D", 15), Answer::empty_entry());
        assert_eq!(desk.image[256 + 2], 11);
        assert_eq!(desk.remove_directory("/D"), 0);
        assert_eq!(desk.free(), 14);
        assert_eq!(desk.image[256 + 2], 11);
        assert_eq!(desk.image[7..9], [0x03, 0x00]);
    });
}

/// The lowest empty entry is filled, on whatever page it is.
#[test]
fn an_earlier_page_has_the_lowest_empty_entry() {
    on_all(4096, 0, |desk| {
        with_full_directory(desk);
        desk.make_all(&[], &["/D/8", "/D/9"]);
        assert_eq!(desk.remove_file("/D/8"), 0);
        assert_eq!(desk.remove_file("/D/3"), 0);
        desk.make_all(&[], &["/D/x", "/D/y"]);
        let named = |desk: &Desk, number| desk.list("/D", number).name[0];
        assert_eq!((named(desk, 3), named(desk, 8)), (b'x', b'y'));
        assert_eq!(named(desk, 9), b'9');
    });
}

/// The root's eighth file: page 9 for the root, 10 for the file.
#[test]
fn the_root_grows() {
    on_all(4096, 0, |desk| {
        desk.make_all(&[], &["/0", "/1", "/2", "/3", "/4", "/5", "/6"]);
        assert_eq!(desk.free(), 7);
        assert_eq!(desk.list("/", 7).number, 12);
        assert_eq!(desk.make_file("/7"), 0);
        let files: Vec<u8> = (0..7)
            .flat_map(|file| entry(0x80, &file.to_string(), 2 + file, 0))
            .collect();
        let expected = image_of(
            4096,
            &[
                (0, zeros(11 * 256)),
                (0, vec![0x5A, 2, 2, 0, 5, 0, 0, 0xFF, 0x07]),
                (32, files),
                (256, vec![9]),
                (9 * 256, entry(0x80, "7", 10, 0)),
            ],
        );
        assert_image(&desk.image, &expected);
        assert_eq!(desk.list("/", 14), Answer::empty_entry());
        assert_eq!(desk.list("/", 15).number, 12);
        for path in ["/0", "/1", "/2", "/3", "/4", "/5", "/6", "/7"] {
            assert_eq!(desk.remove_file(path), 0);
        }
        assert_eq!(desk.free(), 13);
        assert_eq!(desk.list("/", 14), Answer::empty_entry());
        assert_eq!(desk.image[256], 9);
    });
}

/// A page that was freed with a link gets link 0 when it is added again.
#[test]
fn stale_links() {
    on_all(2048, 0, |desk| {
        assert_eq!(desk.make_file("/a"), 0);
        assert_eq!(desk.write("/a", 0, 700), 0);
        assert_eq!(desk.remove_file("/a"), 0);
        assert_eq!(desk.image[256..261], [0, 0, 3, 4, 0]);
        assert_eq!(desk.make_file("/b"), 0);
        assert_eq!(desk.image[256..261], [0, 0, 0, 4, 0]);
        assert_eq!(desk.write("/b", 0, 257), 0);
        let expected = image_of(
            2048,
            &[
                (0, zeros(1280)),
                (0, vec![0x5A, 2, 1, 0, 4, 0, 0, 0x0F]),
                (32, entry(0x80, "b", 2, 257)),
                (256 + 2, vec![3, 0]),
                (512, pattern(257)),
                // What was freed keeps its bytes.
                (1024, pattern(700)[512..].to_vec()),
            ],
        );
        assert_image(&desk.image, &expected);
    });
}

#[test]
fn a_file_over_two_pages() {
    on_all(2048, 0, |desk| {
        assert_eq!(desk.make_file("/F"), 0);
        assert_eq!(desk.write("/F", 0, 300), 0);
        assert_eq!(desk.write("/F", 250, 20), 0);
        let mut content = pattern(300);
        content[250..270].copy_from_slice(&pattern(20));
        assert_eq!(desk.content("/F"), content);
        let mut read = vec![0xAA; 12];
        let answer = desk.calls.read(&desk.image, b"/F", 251, &mut read[..10]);
        assert_eq!(answer, Answer::count(10));
        assert_eq!(
            (&read[..10], &read[10..]),
            (&content[251..261], &[0xAA; 2][..])
        );
        let mut past = |position| desk.calls.read(&desk.image, b"/F", position, &mut read);
        assert_eq!(past(299), Answer::count(1));
        assert_eq!(past(300), Answer::count(0));
        assert_eq!(past(301).number, 12);
        assert_eq!(past(u64::MAX).number, 12);
        assert_eq!(desk.write("/F", 301, 1), 12);
        assert_eq!(desk.write("/F", 300, 0), 0);
        assert_eq!(desk.write("/F", 301, 0), 12);
        // A full page of content each: 6 pages are all there are.
        assert_eq!(desk.write("/F", 300, 1537 - 300), 10);
        assert_eq!(desk.write("/F", 300, 1536 - 300), 0);
        assert_eq!(desk.free(), 0);
        assert_eq!(desk.make_file("/G"), 10);
        assert_eq!(desk.write("/F", 1536, 0), 0);
        assert_eq!(desk.write("/F", 1536, 1), 10);
    });
}

/// The longest file of each link width has a size of more than 16 bits, or just
/// not.
#[test]
fn the_longest_files() {
    let cases: [(usize, u64, usize); 4] = [
        (65_536, 0, 254 * 256),
        (69_632, 1, 133 * 512),
        (262_144, 1, 509 * 512),
        (1_048_576, 2, 1021 * 1024),
    ];
    for subject in all() {
        for (length, code, most) in cases {
            let mut desk = Desk::fresh(subject.calls.as_ref(), length, code);
            assert_eq!(desk.make_file("/F"), 0);
            assert_eq!(desk.write("/F", 0, most + 1), 10);
            assert_eq!(desk.write("/F", 0, most), 0);
            assert_eq!(desk.free(), 0);
            assert_eq!(desk.content("/F"), pattern(most));
            assert_eq!(desk.remove_file("/F"), 0);
            assert_eq!(desk.make_file("/G"), 0);
            assert_eq!(desk.write("/G", 0, most), 0);
            assert_eq!(desk.find("/G").values, [0, most as u64, 0, 0]);
        }
    }
}

/// The other flags of a file stay when it is locked and unlocked.
#[test]
fn locks() {
    on_all(2048, 0, |desk| {
        assert_eq!(desk.make_file("/F"), 0);
        assert_eq!(desk.image[32], 0x80);
        desk.image[32] = 0xBE;
        for _ in 0..2 {
            assert_eq!(desk.lock("/F"), 0);
            assert_eq!(desk.image[32], 0xFE);
        }
        assert_eq!(desk.find("/F").values, [0, 0, 1, 0]);
        assert_eq!(desk.list("/", 0).values, [1, 0, 0, 1]);
        assert_eq!(desk.write("/F", 9999, 0), 25);
        assert_eq!(desk.write("/F", 0, 9999), 25);
        assert_eq!(desk.remove_file("/F"), 25);
        assert_eq!(desk.remove_directory("/F"), 6);
        for _ in 0..2 {
            assert_eq!(desk.unlock("/F"), 0);
            assert_eq!(desk.image[32], 0xBE);
        }
        assert_eq!(desk.make_directory("/D"), 0);
        desk.image[64] = 0xC1;
        assert_eq!(desk.find("/D").values, [1, 256, 0, 0]);
        assert_eq!((desk.lock("/D"), desk.unlock("/D")), (7, 7));
        assert_eq!(desk.remove_file("/D"), 7);
        assert_eq!(desk.remove_directory("/D"), 0);
    });
}

#[test]
fn the_root_as_a_path() {
    on_all(2048, 0, |desk| {
        let before = desk.image.clone();
        assert_eq!(
            (desk.remove_file("/"), desk.remove_directory("/")),
            (14, 14)
        );
        assert_eq!((desk.lock("/"), desk.unlock("/")), (7, 7));
        assert_eq!((desk.make_file("/"), desk.make_directory("/")), (8, 8));
        assert_eq!(desk.calls.read(&desk.image, b"/", 0, &mut []).number, 7);
        assert_eq!(desk.write("/", 0, 0), 7);
        let bad_date = desk.calls.make_file(&mut desk.image, b"/", &[0; 8]);
        assert_eq!(bad_date.number, 11);
        assert_eq!(desk.image, before);
    });
}

/// Numbers that stand above others, and the places of 5 and 6.
#[test]
fn the_order_of_refusals() {
    on_all(2048, 0, |desk| {
        desk.make_all(&["/D"], &["/F", "/D/G"]);
        let told = |answer: Answer| (answer.number, answer.place[0]);
        let february = [0x20, 0x26, 0x02, 0x29, 0, 0, 0, 0];
        let make = |desk: &mut Desk, path: &[u8], date: &[u8]| {
            told(desk.calls.make_file(&mut desk.image, path, date))
        };
        assert_eq!(make(desk, b"/F/", &february), (4, 0));
        assert_eq!(make(desk, b"/missing/x", &february), (11, 0));
        assert_eq!(make(desk, b"/missing/x", &DATE), (5, 1));
        assert_eq!(make(desk, b"/D/missing/x", &DATE), (5, 3));
        assert_eq!(make(desk, b"/D/G/x", &DATE), (6, 3));
        assert_eq!(make(desk, b"/D/G", &DATE), (8, 0));
        assert_eq!(told(desk.list("/D/G", 99)), (6, 3));
        assert_eq!(told(desk.find("/D/G/x")), (6, 3));
        assert_eq!(told(desk.list("/D", 8)), (12, 0));
        assert_eq!(desk.write("/D", 1, 9999), 7);
        assert_eq!(desk.write("/F", 1, 9999), 12);
        assert_eq!(desk.remove_directory("/D"), 13);
    });
}

/// As many nested directories as there are pages, on the largest image: 1,021.
#[test]
fn the_deepest_directory() {
    let tree = nested_tree(1_048_576, 2, usize::MAX, &mut Random::new(1));
    let image = assemble(&tree, Order::Scattered, &mut Random::new(2));
    assert_eq!(layout(1_048_576, 2).map(|layout| layout.pages), Ok(1024));
    for subject in all() {
        let mut desk = Desk {
            calls: subject.calls.as_ref(),
            image: image.clone(),
        };
        assert_eq!(desk.free(), 0);
        let path = "/D".repeat(1021);
        assert_eq!(desk.find(&path).values, [1, 1024, 0, 0]);
        assert_eq!(desk.remove_directory(&path), 0);
        assert_eq!(desk.make_file(&path), 0);
        assert_eq!(desk.find(&path).values, [0, 0, 0, 0]);
    }
}

/// A directory of more than a thousand entries, on the largest image.
#[test]
fn a_directory_of_many_pages() {
    for subject in all() {
        let mut desk = Desk::fresh(subject.calls.as_ref(), 1_048_576, 2);
        // The root has 27 entries, and 32 more for each page. Each file has a
        // page, so that 990 files come with 31 pages of the root: all 1,021.
        for number in 0..990 {
            assert_eq!(desk.make_file(&format!("/{number}")), 0);
        }
        assert_eq!(desk.free(), 0);
        assert_eq!(desk.make_file("/990"), 10);
        assert_eq!(desk.list("/", 27 + 31 * 32 - 1), Answer::empty_entry());
        assert_eq!(desk.list("/", 27 + 31 * 32).number, 12);
        assert_eq!(desk.find("/989").values, [0, 0, 0, 0]);
    }
}

/// Every byte of a date through all its values, dates of other lengths, every byte
/// of a name, and names of all lengths about the longest: each implementation
/// makes and refuses as the plain one does.
#[test]
fn dates_and_names() {
    let image = Desk::fresh(&PLAIN, 2048, 0).image;
    let mut dates: Vec<Vec<u8>> = (0..=17)
        .map(|length| DATE.into_iter().cycle().take(length).collect())
        .collect();
    for field in 0..DATE.len() {
        dates.extend((0..=255).map(|value| {
            let mut date = DATE;
            date[field] = value;
            date.to_vec()
        }));
    }
    let mut paths: Vec<Vec<u8>> = (0..=18)
        .map(|length| [b"/".to_vec(), vec![b'A'; length]].concat())
        .collect();
    for value in 0..=255 {
        paths.extend([
            vec![b'/', value],
            vec![b'/', b'A', value],
            vec![value, b'A'],
        ]);
    }
    let with_dates = dates.iter().map(|date| (&b"/A"[..], date.as_slice()));
    let with_paths = paths.iter().map(|path| (path.as_slice(), &DATE[..]));
    for (path, date) in with_dates.chain(with_paths) {
        let mut expected = image.clone();
        let file = PLAIN.make_file(&mut expected, path, date);
        let directory = PLAIN.make_directory(&mut expected, path, date);
        for subject in all() {
            let calls = subject.calls.as_ref();
            let mut made = image.clone();
            let who = subject.name;
            let told = calls.make_file(&mut made, path, date);
            assert_eq!(told, file, "{who}: {path:02X?} {date:02X?}");
            let told = calls.make_directory(&mut made, path, date);
            assert_eq!(told, directory, "{who}: {path:02X?} {date:02X?}");
            assert_image(&made, &expected);
        }
    }
}

/// Lengths that are small if they are cut to 32 bits. The bytes are never touched,
/// but 4 GiB of addresses are wanted.
#[test]
#[ignore = "wants 4 GiB of address space"]
fn lengths_of_more_than_32_bits() {
    let mut desk = Desk::fresh(&PLAIN, 2048, 0);
    desk.make_all(&[], &["/F"]);
    let image = desk.image;
    let mut many = vec![0; (1 << 32) + 2048];
    let refused = |number| Answer::refused(Refusal::number(number));
    for subject in all() {
        let calls = subject.calls.as_ref();
        let mut lent = image.clone();
        assert_eq!(calls.write(&mut lent, b"/F", 0, &many), refused(10));
        assert_eq!(calls.read(&image, b"/F", 0, &mut many), Answer::count(0));
        assert_eq!(calls.find(&image, &many), refused(4));
        assert_eq!(calls.make_file(&mut lent, b"/N", &many), refused(11));
        assert_eq!(calls.verdict(&many), refused(1));
        assert_eq!(calls.format(&mut many, 0), refused(1));
        assert_eq!(lent, image, "{}", subject.name);
        let told = calls.entries(&image, b"/", 0, &mut many);
        assert_eq!(told, Answer::entries(7, 7));
        many[..7 * 32].fill(0);
    }
}
