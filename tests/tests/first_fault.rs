//! Images made by hand, each with the number and the place of its first fault:
//! every kind of fault by itself, and two or more at once for every step of the
//! order in which document 02 §2 judges.

use zealfs_tests::calls::{Answer, Calls, Refusal};
use zealfs_tests::damage::mend_bitmap;
use zealfs_tests::desk::Desk;
use zealfs_tests::plain::Plain;
use zealfs_tests::subjects::all;
use Part::{Bits, Byte, Chain, Count, Directory, File, Flags, Free, Mark, Name};

/// What an image is made of, on a fresh one of 8 pages. An entry is named by
/// the page of its directory, 0 for the root, and its number there.
enum Part {
    /// A file: its entry, name, start page and size.
    File(usize, usize, u8, u8, u16),
    /// A directory: the same.
    Directory(usize, usize, u8, u8, u16),
    /// Another name of an entry, from its first byte on.
    Name(usize, usize, &'static [u8]),
    /// The flags of an entry.
    Flags(usize, usize, u8),
    /// Each page leads to the next; the last one keeps its link, 0.
    Chain(&'static [u8]),
    /// Any byte.
    Byte(usize, u8),
    // The bitmap follows what is above; these change it afterwards.
    /// A page is marked as taken, and the count follows.
    Mark(usize),
    /// A page is marked as free, and the count follows.
    Free(usize),
    /// The first byte of the bitmap.
    Bits(u8),
    /// Byte 3.
    Count(u8),
}

/// Where an entry begins.
fn entry(directory: usize, number: usize) -> usize {
    match directory {
        0 => 64 + number * 32,
        page => page * 256 + number * 32,
    }
}

fn put_entry(image: &mut [u8], at: usize, flags: u8, name: u8, start: u8, size: u16) {
    image[at..at + 32].fill(0);
    image[at] = flags;
    image[at + 1] = name;
    image[at + 17] = start;
    image[at + 18..at + 20].copy_from_slice(&size.to_le_bytes());
}

impl Part {
    /// Puts a part of the tree into the image.
    fn put(&self, image: &mut [u8]) {
        match *self {
            File(directory, number, name, start, size) => {
                put_entry(image, entry(directory, number), 0x80, name, start, size);
            }
            Directory(directory, number, name, start, size) => {
                put_entry(image, entry(directory, number), 0x81, name, start, size);
            }
            Name(directory, number, name) => {
                let at = entry(directory, number) + 1;
                image[at..at + name.len()].copy_from_slice(name);
            }
            Flags(directory, number, flags) => image[entry(directory, number)] = flags,
            Chain(pages) => {
                for pair in pages.windows(2) {
                    image[usize::from(pair[0]) * 256] = pair[1];
                }
            }
            Byte(at, value) => image[at] = value,
            Mark(_) | Free(_) | Bits(_) | Count(_) => {}
        }
    }

    /// Changes the bitmap or the count.
    fn put_mark(&self, image: &mut [u8]) {
        match *self {
            Mark(page) => {
                image[4 + page / 8] += 1 << (page % 8);
                image[3] -= 1;
            }
            Free(page) => {
                image[4 + page / 8] -= 1 << (page % 8);
                image[3] += 1;
            }
            Bits(bits) => image[4] = bits,
            Count(count) => image[3] = count,
            _ => {}
        }
    }
}

fn made(parts: &[Part]) -> Vec<u8> {
    let mut image = Desk::fresh(&Plain, 2048).image;
    image[256..].fill(0);
    parts.iter().for_each(|part| part.put(&mut image));
    mend_bitmap(&mut image);
    parts.iter().for_each(|part| part.put_mark(&mut image));
    image
}

/// What is told of an image: a number, and the three parts of its place.
type Told = (u8, [u64; 3]);

const SOUND: Told = (0, [0; 3]);

/// Sees that every implementation tells this of the image, and that the second
/// judge says sound exactly where nothing is told.
fn check(what: &str, image: &[u8], (number, place): Told) {
    for subject in all() {
        let verdict = subject.calls.verdict(image);
        let who = subject.name;
        if number == 0 {
            assert!(verdict.is_granted(), "{what}: {who} tells {verdict}");
        } else {
            let told = Answer::refused(Refusal { number, place });
            assert_eq!(verdict, told, "{what}: {who} tells {verdict}");
        }
        let audit = subject.calls.audit(image);
        assert_eq!(audit.sound, u64::from(number == 0), "{what}: {who}");
        assert_eq!(audit, Plain.audit(image), "{what}: {who}");
    }
}

type Case = (&'static str, Told, &'static [Part]);

fn check_all(cases: &[Case]) {
    for (what, told, parts) in cases {
        check(what, &made(parts), *told);
    }
}

#[rustfmt::skip]
const NAMES: [Case; 12] = [
    ("a byte below the letters", (16, [0, 0, 0]), &[File(0, 0, 0x1F, 1, 0)]),
    ("a byte above the letters", (16, [0, 5, 0]), &[File(0, 5, 0x7F, 1, 0)]),
    ("a slash", (16, [0, 1, 0]), &[File(0, 1, b'/', 1, 0)]),
    ("no name", (16, [0, 2, 0]), &[File(0, 2, 0, 1, 0)]),
    ("padding that is not zeros", (16, [0, 0, 0]), &[File(0, 0, b'A', 1, 0), Name(0, 0, b"A\0A")]),
    ("a bad last byte of 16", (16, [0, 1, 0]), &[File(0, 1, 0, 1, 0), Name(0, 1, b"AAAAAAAAAAAAAAA\x80")]),
    ("a directory's", (16, [0, 0, 0]), &[Directory(0, 0, b'/', 1, 256)]),
    ("16 bytes", SOUND, &[File(0, 0, 0, 1, 0), Name(0, 0, b"AAAAAAAAAAAAAAAA")]),
    ("a free entry's", SOUND, &[File(0, 0, b'/', 9, 1), Flags(0, 0, 0x7F)]),
    ("in a directory", (16, [1, 7, 0]), &[Directory(0, 0, b'A', 1, 256), File(1, 7, 0x7F, 2, 0)]),
    ("two directories down", (16, [2, 3, 0]),
        &[Directory(0, 5, b'A', 1, 256), Directory(1, 7, b'A', 2, 256), File(2, 3, 0x7F, 3, 0)]),
    ("where no directory leads", SOUND, &[File(0, 0, b'A', 1, 255), File(1, 1, b'/', 9, 1)]),
];

#[rustfmt::skip]
const EQUAL_NAMES: [Case; 8] = [
    ("two", (16, [0, 5, 0]), &[File(0, 0, b'A', 1, 0), File(0, 5, b'A', 2, 0)]),
    ("three", (16, [0, 1, 0]), &[File(0, 0, b'A', 1, 0), File(0, 1, b'A', 2, 0), File(0, 2, b'A', 3, 0)]),
    ("a file's and a directory's", (16, [0, 1, 0]), &[File(0, 0, b'A', 2, 0), Directory(0, 1, b'A', 1, 256)]),
    ("of 16 bytes", (16, [0, 1, 0]), &[File(0, 0, 0, 1, 0), Name(0, 0, b"AAAAAAAAAAAAAAAA"),
        File(0, 1, 0, 2, 0), Name(0, 1, b"AAAAAAAAAAAAAAAA")]),
    ("but for the last byte", SOUND, &[File(0, 0, 0, 1, 0), Name(0, 0, b"AAAAAAAAAAAAAAAA"),
        File(0, 1, 0, 2, 0), Name(0, 1, b"AAAAAAAAAAAAAAA")]),
    ("a free entry's", SOUND, &[File(0, 0, b'A', 0, 0), Flags(0, 0, 0), File(0, 1, b'A', 1, 0)]),
    ("in two directories", SOUND, &[Directory(0, 0, b'A', 1, 256), File(1, 0, b'A', 2, 0)]),
    ("in one directory", (16, [1, 4, 0]),
        &[Directory(0, 2, b'A', 1, 256), File(1, 2, b'A', 2, 0), File(1, 4, b'A', 3, 0)]),
];

#[rustfmt::skip]
const DIRECTORY_SIZES: [Case; 7] = [
    ("256", SOUND, &[Directory(0, 0, b'A', 1, 256)]),
    ("256 with reserved flags", SOUND, &[Directory(0, 0, b'A', 1, 256), Flags(0, 0, 0xFF)]),
    ("0", (16, [0, 0, 0]), &[Directory(0, 0, b'A', 1, 0)]),
    ("255", (16, [0, 0, 0]), &[Directory(0, 0, b'A', 1, 255)]),
    ("512", (16, [0, 5, 0]), &[Directory(0, 5, b'A', 1, 512)]),
    ("257 in a directory", (16, [1, 6, 0]), &[Directory(0, 0, b'A', 1, 256), Directory(1, 6, b'A', 2, 257)]),
    ("256 of a file", SOUND, &[File(0, 0, b'A', 1, 256), Flags(0, 0, 0xFE), Chain(&[1, 2])]),
];

#[rustfmt::skip]
const RANGES: [Case; 13] = [
    ("an empty file without a page", (17, [0, 0, 0]), &[File(0, 0, b'A', 0, 0)]),
    ("a file without a page", (17, [0, 2, 0]), &[File(0, 2, b'A', 0, 1)]),
    ("page N", (17, [0, 0, 0]), &[File(0, 0, b'A', 8, 1)]),
    ("page N of an empty file", (17, [0, 0, 0]), &[File(0, 0, b'A', 8, 0)]),
    ("page 255", (17, [0, 5, 0]), &[File(0, 5, b'A', 255, 1)]),
    ("page N - 1", SOUND, &[File(0, 0, b'A', 7, 1)]),
    ("a directory on page 0", (17, [0, 0, 0]), &[Directory(0, 0, b'A', 0, 256)]),
    ("a directory on page N", (17, [0, 1, 0]), &[Directory(0, 1, b'A', 8, 256)]),
    ("a directory on page 255", (17, [0, 0, 0]), &[Directory(0, 0, b'A', 255, 256)]),
    ("a directory that holds the root's page", (17, [1, 0, 0]),
        &[Directory(0, 0, b'A', 1, 256), Directory(1, 0, b'A', 0, 256)]),
    ("a link to page N", (17, [0, 0, 1]), &[File(0, 0, b'A', 1, 256), Chain(&[1, 8])]),
    ("a third page 255", (17, [0, 0, 2]), &[File(0, 0, b'A', 3, 511), Chain(&[3, 1, 255])]),
    ("two directories down", (17, [2, 3, 2]), &[Directory(0, 0, b'A', 1, 256), Directory(1, 7, b'A', 2, 256),
        File(2, 3, b'A', 7, 765), Chain(&[7, 6, 200])]),
];

#[rustfmt::skip]
const ENDS: [Case; 12] = [
    ("one page", SOUND, &[File(0, 0, b'A', 1, 255)]),
    ("the page of an empty file", SOUND, &[File(0, 0, b'A', 1, 0)]),
    ("one page for 256 bytes", (17, [0, 0, 1]), &[File(0, 0, b'A', 1, 256)]),
    ("two pages for 511 bytes", (17, [0, 1, 2]), &[File(0, 1, b'A', 4, 511), Chain(&[4, 3])]),
    ("one page for 65,535 bytes", (17, [0, 0, 1]), &[File(0, 0, b'A', 1, 65_535)]),
    ("a link after one page", (17, [0, 0, 1]), &[File(0, 0, b'A', 1, 255), Chain(&[1, 2])]),
    ("a link after an empty file's page", (17, [0, 0, 1]), &[File(0, 0, b'A', 1, 0), Chain(&[1, 2])]),
    ("a link out of the image at the end", (17, [0, 0, 1]), &[File(0, 0, b'A', 1, 255), Chain(&[1, 255])]),
    ("a link back at the end", (17, [0, 4, 2]), &[File(0, 4, b'A', 1, 510), Chain(&[1, 2, 1])]),
    ("early, in a directory", (17, [5, 7, 1]), &[Directory(0, 0, b'A', 5, 256), File(5, 7, b'A', 2, 300)]),
    ("late, two directories down", (17, [6, 2, 3]), &[Directory(0, 0, b'A', 5, 256),
        Directory(5, 7, b'A', 6, 256), File(6, 2, b'A', 1, 765), Chain(&[1, 2, 3, 4])]),
    ("a directory's page has no link", SOUND, &[Directory(0, 0, b'A', 1, 256), Byte(256, 9)]),
];

#[rustfmt::skip]
const SHARED_PAGES: [Case; 12] = [
    ("two files", (18, [1, 0, 0]), &[File(0, 0, b'A', 1, 255), File(0, 1, b'B', 1, 255)]),
    ("two empty files", (18, [7, 0, 0]), &[File(0, 0, b'A', 7, 0), File(0, 5, b'B', 7, 0)]),
    ("chains that meet", (18, [3, 0, 0]),
        &[File(0, 0, b'A', 1, 510), File(0, 1, b'B', 2, 510), Chain(&[1, 3]), Chain(&[2, 3])]),
    ("a chain back to its start", (18, [1, 0, 0]), &[File(0, 0, b'A', 1, 511), Chain(&[1, 2, 1])]),
    ("a chain back to its middle", (18, [4, 0, 0]), &[File(0, 0, b'A', 1, 65_535), Chain(&[1, 4, 2, 4])]),
    ("a page that leads to itself", (18, [1, 0, 0]), &[File(0, 0, b'A', 1, 256), Chain(&[1, 1])]),
    ("a directory, then a file", (18, [1, 0, 0]), &[Directory(0, 0, b'A', 1, 256), File(0, 1, b'B', 1, 1)]),
    ("a file, then a directory", (18, [2, 0, 0]),
        &[File(0, 0, b'B', 1, 256), Chain(&[1, 2]), Directory(0, 1, b'A', 2, 256)]),
    ("two directories", (18, [1, 0, 0]), &[Directory(0, 0, b'A', 1, 256), Directory(0, 1, b'B', 1, 256)]),
    ("a directory that holds itself", (18, [1, 0, 0]),
        &[Directory(0, 0, b'A', 1, 256), Directory(1, 0, b'A', 1, 256)]),
    ("two directories that hold each other", (18, [1, 0, 0]),
        &[Directory(0, 0, b'A', 1, 256), Directory(1, 0, b'A', 2, 256), Directory(2, 0, b'A', 1, 256)]),
    ("a file on its directory's page", (18, [3, 0, 0]),
        &[Directory(0, 0, b'A', 3, 256), File(3, 5, b'A', 3, 0)]),
];

/// Pages 1 and 2, 3, 4, and 5 in the directory on 4.
#[rustfmt::skip]
const TREE: [Part; 5] = [
    File(0, 0, b'A', 1, 256), Chain(&[1, 2]), File(0, 2, b'B', 3, 0), Directory(0, 5, b'C', 4, 256), File(4, 2, b'A', 5, 9),
];

/// Changes to the bitmap and the count of [`TREE`].
#[rustfmt::skip]
const MARKS: [Case; 17] = [
    ("none", SOUND, &[]),
    ("a file's only page free", (20, [3, 0, 0]), &[Free(3)]),
    ("a file's second page free", (20, [2, 0, 0]), &[Free(2)]),
    ("a directory's page free", (20, [4, 0, 0]), &[Free(4)]),
    ("a page in a directory free", (20, [5, 0, 0]), &[Free(5)]),
    ("a page free, the count kept", (20, [5, 0, 0]), &[Bits(0x1F)]),
    ("all pages free", (20, [1, 0, 0]), &[Bits(0x01)]),
    ("a lost page", (19, [6, 0, 0]), &[Mark(6)]),
    ("the last page lost", (19, [7, 0, 0]), &[Mark(7)]),
    ("two lost pages", (19, [6, 0, 0]), &[Mark(7), Mark(6)]),
    ("a lost page, the count kept", (19, [7, 0, 0]), &[Bits(0xBF)]),
    ("bit 0", (3, [0; 3]), &[Free(0)]),
    ("bit 0, the count kept", (3, [0; 3]), &[Bits(0x3E)]),
    ("the count too low", (3, [0; 3]), &[Count(1)]),
    ("the count too high", (3, [0; 3]), &[Count(3)]),
    ("the count far too high", (3, [0; 3]), &[Count(255)]),
    ("the count that is right", SOUND, &[Count(2)]),
];

// Pairs of faults. Name, equality and size give the same number and place, so
// that of their order nothing shows; they come before the pages.
#[rustfmt::skip]
const IN_AN_ENTRY: [Case; 11] = [
    ("name, size", (16, [0, 0, 0]), &[Directory(0, 0, b'/', 1, 0)]),
    ("name, range", (16, [0, 0, 0]), &[File(0, 0, b'/', 9, 0)]),
    ("name, free", (16, [0, 0, 0]), &[File(0, 0, b'/', 1, 0), Free(1)]),
    ("equal name, owned twice", (16, [0, 1, 0]), &[File(0, 0, b'A', 1, 0), File(0, 1, b'A', 1, 0)]),
    ("size, range", (16, [0, 0, 0]), &[Directory(0, 0, b'A', 0, 0)]),
    ("size, owned twice", (16, [0, 1, 0]), &[File(0, 0, b'A', 1, 0), Directory(0, 1, b'B', 1, 0)]),
    ("size, free", (16, [0, 0, 0]), &[Directory(0, 0, b'A', 1, 1), Free(1)]),
    ("size, contents", (16, [0, 0, 0]), &[Directory(0, 0, b'A', 1, 255), File(1, 0, b'/', 2, 0)]),
    ("owned twice, contents", (18, [1, 0, 0]),
        &[File(0, 0, b'A', 1, 0), Directory(0, 1, b'B', 1, 256), File(1, 1, b'/', 2, 0)]),
    ("free, contents", (20, [1, 0, 0]), &[Directory(0, 0, b'A', 1, 256), File(1, 0, b'/', 2, 0), Free(1)]),
    ("free, contents free", (20, [2, 0, 0]),
        &[Directory(0, 0, b'A', 2, 256), File(2, 0, b'A', 1, 0), Free(1), Free(2)]),
];

// A page that has an earlier owner and is marked free shows only at the earlier
// owner, as 20: the order of these two tests of one page does not show.
#[rustfmt::skip]
const IN_A_CHAIN: [Case; 8] = [
    ("page 0, bit 0", (17, [0, 0, 0]), &[File(0, 0, b'A', 0, 0), Free(0)]),
    ("page N, its bit at 1", (17, [0, 0, 0]), &[File(0, 0, b'A', 8, 0), Byte(5, 1)]),
    ("two owners of a free page", (20, [1, 0, 0]), &[File(0, 0, b'A', 1, 0), File(0, 1, b'B', 1, 0), Free(1)]),
    ("second free, third out of range", (20, [2, 0, 0]),
        &[File(0, 0, b'A', 1, 511), Chain(&[1, 2, 8]), Free(2)]),
    ("second free, third owned twice", (20, [2, 0, 0]),
        &[File(0, 0, b'A', 1, 511), Chain(&[1, 2, 1]), Free(2)]),
    ("second free, third free", (20, [5, 0, 0]),
        &[File(0, 0, b'A', 6, 511), Chain(&[6, 5, 2]), Free(2), Free(5)]),
    ("last free, with a link", (20, [2, 0, 0]), &[File(0, 0, b'A', 1, 510), Chain(&[1, 2, 3]), Free(2)]),
    ("last owned twice, with a link", (18, [2, 0, 0]),
        &[File(0, 0, b'A', 2, 510), File(0, 1, b'B', 1, 510), Chain(&[1, 2, 3])]),
];

#[rustfmt::skip]
const FROM_ENTRY_TO_ENTRY: [Case; 8] = [
    ("range, then name", (17, [0, 0, 0]), &[File(0, 0, b'A', 9, 0), File(0, 1, b'/', 1, 0)]),
    ("third page, then name", (17, [0, 0, 2]),
        &[File(0, 0, b'A', 1, 511), Chain(&[1, 2, 8]), File(0, 1, b'/', 3, 0)]),
    ("last link, then equal name", (17, [0, 0, 1]),
        &[File(0, 0, b'A', 1, 255), Chain(&[1, 2]), File(0, 1, b'A', 3, 0)]),
    ("owned twice, then size", (18, [1, 0, 0]),
        &[File(0, 0, b'A', 1, 0), File(0, 1, b'B', 1, 0), Directory(0, 2, b'C', 2, 0)]),
    ("free, then range", (20, [1, 0, 0]), &[File(0, 0, b'A', 1, 0), File(0, 1, b'B', 0, 0), Free(1)]),
    ("free, then owned twice", (20, [5, 0, 0]),
        &[File(0, 0, b'A', 5, 0), File(0, 1, b'B', 2, 0), File(0, 2, b'C', 2, 0), Free(5)]),
    ("free, then free and lower", (20, [6, 0, 0]),
        &[File(0, 0, b'A', 6, 0), File(0, 1, b'B', 3, 0), Free(3), Free(6)]),
    ("name, then range", (16, [0, 0, 0]), &[File(0, 0, b'/', 1, 0), File(0, 1, b'A', 0, 0)]),
];

#[rustfmt::skip]
const DEPTH_FIRST: [Case; 7] = [
    ("name in a directory, then name", (16, [1, 7, 0]),
        &[Directory(0, 0, b'A', 1, 256), File(1, 7, b'/', 2, 0), File(0, 1, b'/', 3, 0)]),
    ("chain in a directory, then name", (17, [1, 0, 1]),
        &[Directory(0, 0, b'A', 1, 256), File(1, 0, b'A', 2, 300), File(0, 1, b'/', 3, 0)]),
    ("two down, then one down, then above", (17, [2, 7, 0]), &[Directory(0, 1, b'A', 1, 256),
        Directory(1, 3, b'A', 2, 256), File(2, 7, b'A', 0, 0), File(1, 4, b'/', 3, 0), File(0, 2, b'/', 4, 0)]),
    ("name, then name in a directory", (16, [0, 0, 0]),
        &[File(0, 0, b'/', 3, 0), Directory(0, 1, b'A', 1, 256), File(1, 0, b'/', 2, 0)]),
    ("free in a directory, then range", (20, [2, 0, 0]),
        &[Directory(0, 0, b'A', 1, 256), File(1, 0, b'A', 2, 0), File(0, 1, b'B', 0, 0), Free(2)]),
    ("a directory's page again above, then name", (18, [2, 0, 0]),
        &[Directory(0, 0, b'A', 1, 256), File(1, 0, b'A', 2, 0), File(0, 1, b'B', 2, 0), File(0, 2, b'/', 3, 0)]),
    ("the first directory, then the second", (17, [6, 1, 0]),
        &[Directory(0, 0, b'A', 6, 256), Directory(0, 1, b'B', 5, 256), File(6, 1, b'A', 0, 0), File(5, 0, b'/', 4, 0)]),
];

#[rustfmt::skip]
const AFTER_THE_WALK: [Case; 14] = [
    ("name, lost page", (16, [0, 5, 0]), &[File(0, 5, b'/', 2, 0), Mark(1)]),
    ("name in a directory, lost page", (16, [7, 7, 0]),
        &[Directory(0, 5, b'A', 7, 256), File(7, 7, b'/', 2, 0), Mark(1)]),
    ("range, lost page", (17, [0, 5, 0]), &[File(0, 5, b'A', 0, 0), Mark(1)]),
    ("owned twice, lost page", (18, [2, 0, 0]), &[File(0, 0, b'A', 2, 0), File(0, 5, b'B', 2, 0), Mark(1)]),
    ("free, lost page", (20, [5, 0, 0]), &[File(0, 0, b'A', 5, 0), Free(5), Mark(2)]),
    ("name, bit 0", (16, [0, 5, 0]), &[File(0, 5, b'/', 2, 0), Free(0)]),
    ("name, count", (16, [0, 5, 0]), &[File(0, 5, b'/', 2, 0), Count(0)]),
    ("range, count", (17, [0, 5, 0]), &[File(0, 5, b'A', 9, 0), Count(0)]),
    ("owned twice, count", (18, [2, 0, 0]), &[File(0, 0, b'A', 2, 0), File(0, 5, b'B', 2, 0), Count(0)]),
    ("free, count", (20, [1, 0, 0]), &[File(0, 5, b'A', 1, 0), Bits(1)]),
    ("lost page, bit 0", (19, [3, 0, 0]), &[Mark(3), Free(0)]),
    ("lost page, count", (19, [7, 0, 0]), &[Bits(0x81)]),
    ("lost pages, count, bit 0", (19, [3, 0, 0]), &[Bits(0x48)]),
    ("bit 0, count", (3, [0; 3]), &[Bits(0)]),
];

#[test]
fn one_fault_of_an_entry() {
    check_all(&NAMES);
    check_all(&EQUAL_NAMES);
    check_all(&DIRECTORY_SIZES);
}

#[test]
fn one_fault_of_a_chain() {
    check_all(&RANGES);
    check_all(&ENDS);
    check_all(&SHARED_PAGES);
}

#[test]
fn one_fault_of_the_bitmap_or_the_count() {
    for (what, told, changes) in &MARKS {
        let mut image = made(&TREE);
        changes
            .iter()
            .for_each(|change| change.put_mark(&mut image));
        check(what, &image, *told);
    }
}

#[test]
fn pages_of_removed_entries_are_lost() {
    for (number, page) in [(0, 1), (2, 3), (5, 4)] {
        let mut image = made(&TREE);
        Flags(0, number, 0).put(&mut image);
        check("a removed entry", &image, (19, [page, 0, 0]));
    }
}

#[test]
fn the_order_in_an_entry() {
    check_all(&IN_AN_ENTRY);
    check_all(&IN_A_CHAIN);
}

#[test]
fn the_order_of_entries() {
    check_all(&FROM_ENTRY_TO_ENTRY);
    check_all(&DEPTH_FIRST);
}

#[test]
fn the_order_after_the_walk() {
    check_all(&AFTER_THE_WALK);
}

/// An image of 256 pages with one file, whose chain is 1, 2, 3 and so on.
fn long_chain(size: u16, pages: usize, last_link: u8) -> Vec<u8> {
    let mut image = vec![0; 65_536];
    image[..5].copy_from_slice(&[0x5A, 1, 32, 255, 1]);
    File(0, 0, b'A', 1, size).put(&mut image);
    for page in 1..=pages {
        Mark(page).put_mark(&mut image);
        image[page * 256] = (page + 1) as u8;
    }
    image[pages * 256] = last_link;
    image
}

/// Sizes that want 254 to 257 pages, which is more than a byte counts and more
/// than there are.
#[test]
fn the_longest_chains() {
    let cases: [(u16, usize, u8, Told); 11] = [
        (65_025, 255, 0, SOUND),
        (64_770, 254, 0, SOUND),
        (64_770, 255, 0, (17, [0, 0, 254])),
        (65_025, 254, 0, (17, [0, 0, 254])),
        (65_025, 254, 255, (20, [255, 0, 0])),
        (65_025, 255, 1, (17, [0, 0, 255])),
        (65_026, 255, 0, (17, [0, 0, 255])),
        (65_281, 255, 0, (17, [0, 0, 255])),
        (65_535, 255, 0, (17, [0, 0, 255])),
        (65_026, 255, 255, (18, [255, 0, 0])),
        (65_535, 255, 1, (18, [1, 0, 0])),
    ];
    for (size, pages, last_link, told) in cases {
        let what = format!("{size} bytes on {pages} pages, then {last_link}");
        check(&what, &long_chain(size, pages, last_link), told);
    }
}

/// A file in a directory on the last page of an image of 248, whose second
/// page is any.
#[test]
fn every_link_in_a_large_image() {
    let mut image = Desk::fresh(&Plain, 248 * 256).image;
    image[256..].fill(0);
    Directory(0, 0, b'A', 247, 256).put(&mut image);
    File(247, 7, b'A', 246, 256).put(&mut image);
    Mark(247).put_mark(&mut image);
    Mark(246).put_mark(&mut image);
    for link in 0..=255 {
        image[246 * 256] = link;
        let told = match link {
            0 | 248.. => (17, [247, 7, 1]),
            246 | 247 => (18, [link.into(), 0, 0]),
            1..=245 => (20, [link.into(), 0, 0]),
        };
        check("a link", &image, told);
    }
    image[246 * 256] = 245;
    Mark(245).put_mark(&mut image);
    check("a link to a marked page", &image, SOUND);
    Mark(244).put_mark(&mut image);
    check("and a lost page", &image, (19, [244, 0, 0]));
    Mark(9).put_mark(&mut image);
    check("and a lower one", &image, (19, [9, 0, 0]));
}
