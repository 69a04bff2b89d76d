//! Version 2: images made by hand, each with the number and the place of its
//! first fault, by document 02 §2 and §12.

use zealfs_tests::calls::{Answer, Refusal};
use zealfs_tests::v2::desk::Desk;
use zealfs_tests::v2::plain::PLAIN;
use zealfs_tests::v2::subjects::all;

/// What is told of an image: a number, and the three parts of its place.
type Told = (u8, [u64; 3]);

const SOUND: Told = (0, [0; 3]);

/// Bytes to put into an image: where, and which.
type Change = (usize, &'static [u8]);

type Case = (&'static str, Told, &'static [Change]);

/// Sees that every implementation tells this of the image, in every call that
/// judges, and changes nothing.
fn check(what: &str, image: &[u8], (number, place): Told) {
    for subject in all() {
        let calls = subject.calls.as_ref();
        let verdict = calls.verdict(image);
        let who = subject.name;
        if number == 0 {
            assert!(verdict.is_granted(), "{what}: {who} tells {verdict}");
            continue;
        }
        let told = Answer::refused(Refusal { number, place });
        assert_eq!(verdict, told, "{what}: {who} tells {verdict}");
        let mut lent = image.to_vec();
        let mut rows = [0x55; 40];
        let path = b"no path";
        let answers = [
            calls.find(&lent, path),
            calls.list(&lent, path, u64::MAX),
            calls.entries(&lent, path, u64::MAX, &mut rows),
            calls.read(&lent, path, 0, &mut []),
            calls.make_file(&mut lent, path, &[]),
            calls.make_directory(&mut lent, path, &[]),
            calls.write(&mut lent, path, 0, &[]),
            calls.remove_file(&mut lent, path),
            calls.remove_directory(&mut lent, path),
            calls.lock(&mut lent, path),
            calls.unlock(&mut lent, path),
        ];
        assert!(
            answers.iter().all(|answer| *answer == told),
            "{what}: {who}"
        );
        assert_eq!(lent, image, "{what}: {who}");
        assert_eq!(rows, [0x55; 40], "{what}: {who}");
    }
}

fn check_all(image: &[u8], cases: &[Case]) {
    check("as it is", image, SOUND);
    for (what, told, changes) in cases {
        let mut image = image.to_vec();
        for (at, bytes) in *changes {
            image[*at..at + bytes.len()].copy_from_slice(bytes);
        }
        check(what, &image, *told);
    }
}

// On 4,096 bytes with page code 0 there are 16 pages. The header has the count
// in bytes 4 and 5 and the bits of pages 0 to 15 in 7 and 8; the root's seven
// entries begin at 32; the link of page p is byte 256 + p.

/// Seven files on pages 2 to 8; an eighth, for which the root has page 9, on 10;
/// and a directory on 11. Bits FF 0F, 4 free.
fn grown_root() -> Vec<u8> {
    let mut desk = Desk::fresh(&PLAIN, 4096, 0);
    desk.make_all(&[], &["/0", "/1", "/2", "/3", "/4", "/5", "/6", "/7"]);
    desk.make_all(&["/D"], &[]);
    assert_eq!(desk.image[4..9], [4, 0, 0, 0xFF, 0x0F]);
    desk.image
}

const ON_PAGE_9: usize = 9 * 256;

#[rustfmt::skip]
const ROOT: [Case; 34] = [
    ("page 0 to page 1", (17, [0, 255, 0]), &[(256, &[1])]),
    ("page 0 to N", (17, [0, 255, 0]), &[(256, &[16])]),
    ("page 0 to 255", (17, [0, 255, 0]), &[(256, &[255])]),
    ("page 0 to a free page", (20, [15, 0, 0]), &[(256, &[15])]),
    ("page 0 to a file's page, which has no link", (18, [2, 0, 0]), &[(256, &[2])]),
    ("page 0 to nothing", (19, [9, 0, 0]), &[(256, &[0])]),
    ("page 9 to page 1", (17, [0, 255, 1]), &[(265, &[1])]),
    ("page 9 to N", (17, [0, 255, 1]), &[(265, &[16])]),
    ("page 9 to itself", (18, [9, 0, 0]), &[(265, &[9])]),
    ("page 9 to a file's page", (18, [3, 0, 0]), &[(265, &[3])]),
    ("page 9 to the directory's page", (18, [11, 0, 0]), &[(265, &[11])]),
    ("page 9 to a free page", (20, [14, 0, 0]), &[(265, &[14])]),
    ("page 9 to 14 to 1", (17, [0, 255, 2]), &[(265, &[14]), (270, &[1]), (8, &[0x4F])]),
    ("page 9 to 14, which is marked", SOUND,
        &[(265, &[14]), (270, &[0]), (8, &[0x4F]), (4, &[3]), (14 * 256, &[0; 256])]),
    ("page 9 marked free", (20, [9, 0, 0]), &[(8, &[0x0D]), (4, &[5])]),
    ("the root's links before its entries", (17, [0, 255, 0]), &[(256, &[1]), (32 + 1, b"/")]),
    ("the root's links, free, before its entries", (20, [9, 0, 0]), &[(8, &[0x0D]), (32 + 1, b"/")]),
    ("a bad name on page 0", (16, [0, 0, 0]), &[(32 + 1, b"/")]),
    ("a bad name, the last on page 0", (16, [0, 6, 0]), &[(32 + 6 * 32 + 1, &[0])]),
    ("a bad name on page 9", (16, [9, 0, 0]), &[(ON_PAGE_9 + 1, &[0x7F])]),
    ("two equal names on page 0", (16, [0, 5, 0]), &[(32 + 5 * 32 + 1, b"0")]),
    ("equal names on pages 0 and 9", (16, [9, 0, 0]), &[(ON_PAGE_9 + 1, b"0")]),
    ("a directory's name again on page 9", (16, [9, 1, 0]), &[(ON_PAGE_9 + 32 + 1, b"6")]),
    ("start 1 on page 9", (17, [9, 0, 0]), &[(ON_PAGE_9 + 17, &[1])]),
    ("start 0 on page 9", (17, [9, 0, 0]), &[(ON_PAGE_9 + 17, &[0])]),
    ("start 10 + 256 on page 9", (17, [9, 0, 0]), &[(ON_PAGE_9 + 17, &[10, 1])]),
    ("start on the root's own page", (18, [9, 0, 0]), &[(ON_PAGE_9 + 17, &[9])]),
    ("a link behind the only page", (17, [9, 0, 1]), &[(266, &[12])]),
    ("a directory's size 512", (16, [9, 1, 0]), &[(ON_PAGE_9 + 32 + 19, &[0, 2])]),
    ("a directory's size 256 + 65,536", (16, [9, 1, 0]), &[(ON_PAGE_9 + 32 + 21, &[1])]),
    ("a vacant page between", (17, [14, 0, 0]), &[(256, &[13]), (269, &[9]), (265, &[14]), (270, &[0]),
        (8, &[0x6F]), (4, &[2]), (13 * 256, &[0; 256]), (14 * 256, &[0; 256]), (14 * 256, b"\x80x")]),
    ("links of page 1, of a free page and past N", SOUND, &[(257, &[0xEE]), (271, &[0xEE]), (456, &[0xEE])]),
    ("reserved bytes of header and entry", SOUND, &[(9, &[0xEE; 23]), (32 + 31, &[0xEE])]),
    ("pages of a file past its size", SOUND, &[(2 * 256, &[0xEE; 256])]),
];

#[test]
fn the_root() {
    check_all(&grown_root(), &ROOT);
}

#[rustfmt::skip]
const MARKS: [Case; 16] = [
    ("the count one less", (3, [0; 3]), &[(4, &[3])]),
    ("the count one more", (3, [0; 3]), &[(4, &[5])]),
    ("the count 256 more", (3, [0; 3]), &[(5, &[1])]),
    ("bit 0 at 0", (3, [0; 3]), &[(7, &[0xFE])]),
    ("bit 0 at 0, counted", (3, [0; 3]), &[(7, &[0xFE]), (4, &[5])]),
    ("the table's bit at 0", (3, [0; 3]), &[(7, &[0xFD])]),
    ("the table's bit at 0, counted", (3, [0; 3]), &[(7, &[0xFD]), (4, &[5])]),
    ("both, counted", (3, [0; 3]), &[(7, &[0xFC]), (4, &[6])]),
    ("the table's bit at 0, and a lost page", (19, [12, 0, 0]), &[(7, &[0xFD]), (8, &[0x1F])]),
    ("a lost page", (19, [12, 0, 0]), &[(8, &[0x1F]), (4, &[3])]),
    ("two lost pages", (19, [13, 0, 0]), &[(8, &[0xAF]), (4, &[2])]),
    ("a lost page, and the count", (19, [15, 0, 0]), &[(8, &[0x8F])]),
    ("an owned page marked free", (20, [2, 0, 0]), &[(7, &[0xFB]), (4, &[5])]),
    ("a free mark before a lost page", (20, [8, 0, 0]), &[(8, &[0x1E])]),
    ("a bad name before a lost page", (16, [9, 0, 0]), &[(ON_PAGE_9 + 1, b"/"), (8, &[0x1F])]),
    ("a bad name before the count", (16, [9, 0, 0]), &[(ON_PAGE_9 + 1, b"/"), (4, &[0])]),
];

#[test]
fn bitmap_and_count() {
    check_all(&grown_root(), &MARKS);
}

#[rustfmt::skip]
const HEADER: [Case; 14] = [
    ("byte 0", (2, [0; 3]), &[(0, &[0x5B])]),
    ("version 1", (2, [0; 3]), &[(1, &[1])]),
    ("version 1, and a bad code", (2, [0; 3]), &[(1, &[1]), (6, &[9])]),
    ("version 3, and bitmap bytes", (2, [0; 3]), &[(1, &[3]), (2, &[1])]),
    ("bitmap bytes one less", (26, [0; 3]), &[(2, &[1])]),
    ("bitmap bytes one more", (26, [0; 3]), &[(2, &[3])]),
    ("bitmap bytes 256 more", (26, [0; 3]), &[(3, &[1])]),
    ("code 1 without its bitmap bytes", (26, [0; 3]), &[(6, &[1])]),
    ("code 2, of whose pages there are four", (26, [0; 3]), &[(6, &[2])]),
    ("code 2, with half a bitmap byte", (26, [0; 3]), &[(6, &[2]), (2, &[0])]),
    ("code 3", (26, [0; 3]), &[(6, &[3])]),
    ("code 255", (26, [0; 3]), &[(6, &[255])]),
    ("a bad code before a fault", (26, [0; 3]), &[(6, &[3]), (32 + 1, b"/")]),
    ("bitmap bytes before the count", (26, [0; 3]), &[(2, &[3]), (4, &[0])]),
];

#[test]
fn the_header() {
    check_all(&grown_root(), &HEADER);
}

/// Codes that do not go with larger images.
#[test]
fn codes_of_larger_images() {
    let cases: [(usize, u64, u8, usize); 8] = [
        (65_536, 2, 3, 4),
        (65_536, 0, 8, 0),
        (65_536, 0, 1, 32),
        (69_632, 1, 0, 34),
        (69_632, 1, 2, 8),
        (131_072, 1, 0, 64),
        (270_336, 2, 1, 66),
        (1_048_576, 2, 0, 512),
    ];
    for (length, code, other, bitmap_bytes) in cases {
        let mut image = Desk::fresh(&PLAIN, length, code).image;
        check("as it is", &image, SOUND);
        image[6] = other;
        check("another code", &image, (26, [0; 3]));
        image[2..4].copy_from_slice(&(bitmap_bytes as u16).to_le_bytes());
        let goes_with = (length, other) == (65_536, 1);
        if !goes_with {
            check("and its bitmap bytes", &image, (26, [0; 3]));
        }
    }
}

#[test]
fn lengths() {
    for length in [
        0, 1, 7, 2047, 2049, 2304, 4095, 65_537, 1_048_575, 1_048_577, 1_050_624,
    ] {
        let mut image = vec![0; length];
        for (byte, value) in image.iter_mut().zip([0x5A, 2, 1, 0, 6, 0, 0, 3]) {
            *byte = value;
        }
        check("a length", &image, (1, [0; 3]));
    }
}

/// /D on page 2 with eight files on 3 to 10, grown by page 11 for a ninth on 12,
/// which has 300 bytes and so page 13. Bits FF 3F, 2 free.
fn grown_directory() -> Vec<u8> {
    let mut desk = Desk::fresh(&PLAIN, 4096, 0);
    let files = [
        "/D/0", "/D/1", "/D/2", "/D/3", "/D/4", "/D/5", "/D/6", "/D/7", "/D/8",
    ];
    desk.make_all(&["/D"], &files);
    assert_eq!(desk.write("/D/8", 0, 300), 0);
    assert_eq!(desk.image[4..9], [2, 0, 0, 0xFF, 0x3F]);
    assert_eq!(
        desk.image[256 + 2..256 + 14],
        [11, 0, 0, 0, 0, 0, 0, 0, 0, 0, 13, 0]
    );
    desk.image
}

const ON_PAGE_11: usize = 11 * 256;

#[rustfmt::skip]
const DIRECTORY: [Case; 30] = [
    ("the second page to the first", (18, [2, 0, 0]), &[(267, &[2])]),
    ("the second page to itself", (18, [11, 0, 0]), &[(267, &[11])]),
    ("the second page to page 1", (17, [0, 0, 2]), &[(267, &[1])]),
    ("the second page to N", (17, [0, 0, 2]), &[(267, &[16])]),
    ("the second page to a free page", (20, [14, 0, 0]), &[(267, &[14])]),
    ("the first page to page 1", (17, [0, 0, 1]), &[(258, &[1])]),
    ("the first page to N", (17, [0, 0, 1]), &[(258, &[16])]),
    ("the first page to nothing", (19, [11, 0, 0]), &[(258, &[0])]),
    ("start 0", (17, [0, 0, 0]), &[(32 + 17, &[0])]),
    ("start 1", (17, [0, 0, 0]), &[(32 + 17, &[1])]),
    ("start N", (17, [0, 0, 0]), &[(32 + 17, &[16])]),
    ("start on the second page", (19, [2, 0, 0]), &[(32 + 17, &[11])]),
    ("the pages before what is in them", (17, [0, 0, 2]), &[(267, &[1]), (512 + 1, b"/")]),
    ("size 0", (16, [0, 0, 0]), &[(32 + 19, &[0, 0])]),
    ("size 512, the bytes of both pages", (16, [0, 0, 0]), &[(32 + 19, &[0, 2])]),
    ("size before pages", (16, [0, 0, 0]), &[(32 + 19, &[0, 2]), (32 + 17, &[0])]),
    ("a name on the first page", (16, [2, 7, 0]), &[(512 + 7 * 32 + 1, &[0x1F])]),
    ("a name on the second page", (16, [11, 0, 0]), &[(ON_PAGE_11 + 1, &[0x1F])]),
    ("equal names across the pages", (16, [11, 0, 0]), &[(ON_PAGE_11 + 1, b"3")]),
    ("the same, and a fault of the earlier file", (17, [2, 3, 0]),
        &[(ON_PAGE_11 + 1, b"3"), (512 + 3 * 32 + 17, &[0])]),
    ("start bytes 03 01", (17, [2, 0, 0]), &[(512 + 17, &[3, 1])]),
    ("65,536 bytes on one page", (17, [2, 0, 1]), &[(512 + 19, &[0, 0, 1, 0])]),
    ("16,777,216 bytes on one page", (17, [2, 0, 1]), &[(512 + 19, &[0, 0, 0, 1])]),
    ("4,294,967,295 bytes on two pages", (17, [11, 0, 2]), &[(ON_PAGE_11 + 19, &[0xFF; 4])]),
    ("256 bytes on two pages", (17, [11, 0, 1]), &[(ON_PAGE_11 + 19, &[0, 1])]),
    ("257 bytes on two pages", SOUND, &[(ON_PAGE_11 + 19, &[1, 1])]),
    ("512 bytes on two pages", SOUND, &[(ON_PAGE_11 + 19, &[0, 2])]),
    ("513 bytes on two pages", (17, [11, 0, 2]), &[(ON_PAGE_11 + 19, &[1, 2])]),
    ("a file's page to the directory's", (18, [11, 0, 0]), &[(268, &[11])]),
    ("a file's page to itself", (18, [12, 0, 0]), &[(268, &[12])]),
];

#[test]
fn a_directory_of_two_pages() {
    check_all(&grown_directory(), &DIRECTORY);
}

// On 69,632 bytes with page code 1 there are 136 pages and links of two bytes
// from 512 on, for page p at 512 + 2 p. The root's entries begin at 32.

/// /a on pages 3 to 5.
fn two_byte_links() -> Vec<u8> {
    let mut desk = Desk::fresh(&PLAIN, 69_632, 1);
    desk.make_all(&[], &["/a"]);
    assert_eq!(desk.write("/a", 0, 1025), 0);
    desk.image
}

#[rustfmt::skip]
const WIDE: [Case; 13] = [
    ("a link of 256 more", (17, [0, 0, 1]), &[(512 + 6, &[4, 1])]),
    ("a link to page 2", (17, [0, 0, 1]), &[(512 + 6, &[2, 0])]),
    ("a link to N", (17, [0, 0, 1]), &[(512 + 6, &[136, 0])]),
    ("a link to N - 1", (20, [135, 0, 0]), &[(512 + 6, &[135, 0])]),
    ("a last link of 256", (17, [0, 0, 3]), &[(512 + 10, &[0, 1])]),
    ("page 0 to 256", (17, [0, 255, 0]), &[(512, &[0, 1])]),
    ("page 0 to 2", (17, [0, 255, 0]), &[(512, &[2, 0])]),
    ("start 2", (17, [0, 0, 0]), &[(32 + 17, &[2])]),
    ("page 2's bit at 0, counted", (3, [0; 3]), &[(7, &[0x3B]), (4, &[0x83])]),
    ("page 3's bit at 0", (20, [3, 0, 0]), &[(7, &[0x37])]),
    ("links of the table's pages", SOUND, &[(512 + 2, &[0xEE; 4])]),
    ("a link past N", SOUND, &[(512 + 2 * 136, &[0xEE; 2])]),
    ("a link of a free page", SOUND, &[(512 + 2 * 135, &[0xEE; 2])]),
];

#[test]
fn links_of_two_bytes() {
    check_all(&two_byte_links(), &WIDE);
}

/// Page numbers and counts of more than a byte: a file on every page of 512.
#[test]
fn more_than_256_pages() {
    let mut desk = Desk::fresh(&PLAIN, 262_144, 1);
    desk.make_all(&[], &["/a"]);
    assert_eq!(desk.write("/a", 0, 509 * 512), 0);
    let image = desk.image;
    check("as it is", &image, SOUND);
    let link = |page: usize| 512 + 2 * page;
    let changed = |at: usize, value: u16, told| {
        let mut image = image.clone();
        image[at..at + 2].copy_from_slice(&value.to_le_bytes());
        check("a link or a size", &image, told);
    };
    changed(link(511), 3, (17, [0, 0, 509]));
    changed(link(510), 0, (17, [0, 0, 508]));
    changed(link(510), 511 - 256, (18, [255, 0, 0]));
    changed(link(300), 512, (17, [0, 0, 298]));
    changed(link(300), 300, (18, [300, 0, 0]));
    // The size, 509 * 512, is 00 FA 03 00; here 00 02 03 00 and 00 FA 00 00.
    changed(96 + 19, 0x0200, (17, [0, 0, 385]));
    changed(96 + 21, 0, (17, [0, 0, 125]));
    changed(4, 256, (3, [0; 3]));
}
