//! Version 2: the rows of a directory's entries, by values that were worked out
//! by hand, and against list, entry by entry.

use zealfs_tests::assemble::Order;
use zealfs_tests::calls::{Answer, Refusal};
use zealfs_tests::desk::DATE;
use zealfs_tests::random::Random;
use zealfs_tests::v2::assemble::assemble;
use zealfs_tests::v2::calls::{Calls, ROW};
use zealfs_tests::v2::desk::Desk;
use zealfs_tests::v2::generate::{nested_tree, random_tree};
use zealfs_tests::v2::plain::PLAIN;
use zealfs_tests::v2::subjects::all;

/// A row: kind, locked, size, name.
fn row(kind: u8, locked: u8, size: u32, name: &str) -> [u8; ROW] {
    let mut row = [0; ROW];
    row[..4].copy_from_slice(&[1, kind, locked, 0]);
    row[4..8].copy_from_slice(&size.to_le_bytes());
    row[8..16].copy_from_slice(&DATE);
    row[16..16 + name.len()].copy_from_slice(name.as_bytes());
    row
}

/// The row that list's answer makes.
fn row_of(listed: &Answer) -> [u8; ROW] {
    let mut row = [0; ROW];
    let [occupied, kind, size, locked] = listed.values;
    row[..4].copy_from_slice(&[occupied as u8, kind as u8, locked as u8, 0]);
    row[4..8].copy_from_slice(&(size as u32).to_le_bytes());
    row[8..16].copy_from_slice(&listed.date);
    row[16..].copy_from_slice(&listed.name);
    row
}

const EMPTY: [u8; ROW] = [0; ROW];

/// A root of seven entries and a directory of eight, with an entry that is empty
/// again between others, a locked file, and a size of more than 65,535.
#[test]
fn rows_by_hand() {
    for subject in all() {
        let mut desk = Desk::fresh(subject.calls.as_ref(), 262_144, 2);
        desk.make_all(&["/D"], &["/gone", "/F", "/AAAAAAAAAAAAAAAA", "/D/x"]);
        assert_eq!(desk.write("/F", 0, 65_536 + 7), 0);
        assert_eq!(desk.remove_file("/gone"), 0);
        assert_eq!(desk.lock("/AAAAAAAAAAAAAAAA"), 0);
        // 256 pages: 32 bytes of bitmap, 30 entries from byte 64 on.
        let (answer, rows) = desk.entries("/", 0, 40);
        assert_eq!(answer, Answer::entries(30, 30), "{}", subject.name);
        let mut wanted = vec![
            row(1, 0, 1024, "D"),
            EMPTY,
            row(0, 0, 65_543, "F"),
            row(0, 1, 0, "AAAAAAAAAAAAAAAA"),
        ];
        wanted.resize(30, EMPTY);
        assert_eq!(rows, wanted, "{}", subject.name);

        let (answer, rows) = desk.entries("/", 2, 1);
        assert_eq!(answer, Answer::entries(1, 30));
        assert_eq!(rows, [row(0, 0, 65_543, "F")]);
        let (answer, rows) = desk.entries("/D", 0, 40);
        assert_eq!(answer, Answer::entries(32, 32));
        assert_eq!(rows[..2], [row(0, 0, 0, "x"), EMPTY]);
    }
}

/// Refusals in their order, at the borders of `first`, with the rows unchanged.
#[test]
fn refusals() {
    for subject in all() {
        let mut desk = Desk::fresh(subject.calls.as_ref(), 2048, 0);
        desk.make_all(&["/D"], &["/F", "/D/F"]);
        let refused = |path: &[u8], first: u64, image: &[u8]| {
            let mut rows = [0x55; 65];
            let answer = desk.calls.entries(image, path, first, &mut rows);
            assert_eq!(rows, [0x55; 65], "{}", subject.name);
            answer
        };
        let image = desk.image.clone();
        let far = u64::MAX;
        let number = |number| Answer::refused(Refusal::number(number));
        let at_name = |number, begins| Answer::refused(Refusal::at_name(number, begins));
        let cases: [(&[u8], u64, Answer); 13] = [
            (b"", far, number(4)),
            (b"D", far, number(4)),
            (b"/D/", far, number(4)),
            (b"/D//F", far, number(4)),
            (b"/G", far, at_name(5, 1)),
            (b"/D/G", far, at_name(5, 3)),
            (b"/F", far, at_name(6, 1)),
            (b"/D/F", 0, at_name(6, 3)),
            (b"/D/F/x", 0, at_name(6, 3)),
            (b"/", 8, number(12)),
            (b"/D", 9, number(12)),
            (b"/D", 8 + (1 << 32), number(12)),
            (b"/D", far, number(12)),
        ];
        for (path, first, wanted) in cases {
            let told = refused(path, first, &image);
            assert_eq!(told, wanted, "{}: {path:?} {first}", subject.name);
        }
        // The image comes before the path, the length before the version, that
        // before the code, and all before what is in it.
        let with = |changes: &[(usize, u8)], length: usize| {
            let mut image = image.clone();
            image.resize(length, 0);
            for (at, value) in changes {
                image[*at] = *value;
            }
            refused(b"", far, &image).number
        };
        assert_eq!(with(&[(0, 0), (6, 9), (4, 99)], 2047), 1);
        assert_eq!(with(&[(0, 0), (6, 9), (4, 99)], 2048), 2);
        assert_eq!(with(&[(1, 1), (6, 9), (4, 99)], 2048), 2);
        assert_eq!(with(&[(6, 9), (4, 99)], 2048), 26);
        assert_eq!(with(&[(3, 1), (4, 99)], 2048), 26);
        assert_eq!(with(&[(4, 99)], 2048), 3);
        assert_eq!(with(&[(33, b'/'), (4, 99)], 2048), 16);
        // The end itself is granted, and tells none.
        for (path, all) in [("/", 7), ("/D", 8)] {
            let (answer, rows) = desk.entries(path, all, 4);
            assert_eq!((answer, rows.len()), (Answer::entries(0, all), 0));
        }
    }
}

/// Room for a row and less than one more, at every length: what lies behind the
/// last row stays.
#[test]
fn every_room() {
    for subject in all() {
        let mut desk = Desk::fresh(subject.calls.as_ref(), 2048, 0);
        desk.make_all(&[], &["/1", "/2", "/3"]);
        for first in 0..=7 {
            for room in 0..=8 * ROW {
                let mut rows = vec![0x55; room];
                let answer = desk.calls.entries(&desk.image, b"/", first, &mut rows);
                let told = (room / ROW).min(7 - first as usize);
                assert_eq!(answer, Answer::entries(told as u64, 7), "{}", subject.name);
                for (number, row) in rows.chunks(ROW).enumerate() {
                    let is_told = number < told;
                    let wanted = row_of(&desk.list("/", first + number as u64));
                    match is_told {
                        true => assert_eq!(row, wanted),
                        false => assert!(row.iter().all(|&byte| byte == 0x55)),
                    }
                }
            }
        }
    }
}

/// Sees that the rows of every directory of an image, begun anywhere, are what
/// list tells of its entries, and that both count the same.
fn check_tree(calls: &dyn Calls, image: &[u8], path: &[u8]) {
    let mut rows = vec![0x55; 2048 * ROW];
    let answer = calls.entries(image, path, 0, &mut rows);
    let [told, all, ..] = answer.values;
    assert_eq!(answer, Answer::entries(all, all));
    assert_eq!(told, all);
    for number in 0..all {
        let row = &rows[number as usize * ROW..][..ROW];
        assert_eq!(row, row_of(&calls.list(image, path, number)), "{number}");
        let mut one = [0x55; ROW];
        let answer = calls.entries(image, path, number, &mut one);
        assert_eq!(answer, Answer::entries(1, all));
        assert_eq!(row, one);
    }
    let past = Answer::refused(Refusal::number(12));
    assert_eq!(calls.list(image, path, all), past);
    assert_eq!(calls.entries(image, path, all + 1, &mut []), past);
    for row in rows.chunks_exact(ROW).take(all as usize) {
        if row[1] == 1 {
            let name = row[16..].split(|&byte| byte == 0).next();
            let above = path.strip_suffix(b"/").unwrap_or(path);
            let below = [above, b"/", name.expect("a name")].concat();
            check_tree(calls, image, &below);
        }
    }
}

#[test]
fn rows_against_list() {
    let mut random = Random::new(0x5A02);
    let sizes = [
        (2048, 0),
        (8192, 1),
        (6144, 0),
        (16_384, 2),
        (53_248, 0),
        (69_632, 1),
        (73_728, 2),
    ];
    for round in 0..300 {
        let (length, code) = sizes[round % if round < 200 { 4 } else { sizes.len() }];
        let tree = random_tree(length, code, &mut random);
        let image = assemble(&tree, Order::Scattered, &mut random);
        for subject in all() {
            check_tree(subject.calls.as_ref(), &image, b"/");
        }
    }
    let tree = nested_tree(65_536, 0, usize::MAX, &mut random);
    let image = assemble(&tree, Order::Scattered, &mut random);
    for subject in all().into_iter().filter(|subject| subject.name != "plain") {
        check_tree(subject.calls.as_ref(), &image, b"/");
    }
}

/// A root of 32 pages, in windows of every width about a page.
#[test]
fn windows_of_a_long_root() {
    let mut desk = Desk::fresh(&PLAIN, 1_048_576, 2);
    for number in 0..600 {
        assert_eq!(desk.make_file(&format!("/{number}")), 0);
    }
    for number in (0..600).step_by(3) {
        assert_eq!(desk.remove_file(&format!("/{number}")), 0);
    }
    let (answer, all_rows) = desk.entries("/", 0, 2048);
    // 27 entries on page 0, and 18 pages of 32: the first of 600 files on page 19.
    assert_eq!(answer, Answer::entries(27 + 18 * 32, 27 + 18 * 32));
    for subject in all() {
        let calls = subject.calls.as_ref();
        for width in [1, 26, 27, 28, 31, 32, 33, 64, 602, 603, 604] {
            for first in [0, 1, 26, 27, 28, 58, 59, 60, 300, 570, 571, 602, 603] {
                let mut rows = vec![0x55; width * ROW];
                let answer = calls.entries(&desk.image, b"/", first as u64, &mut rows);
                let told = width.min(603 - first);
                assert_eq!(
                    answer,
                    Answer::entries(told as u64, 603),
                    "{}",
                    subject.name
                );
                assert_eq!(rows[..told * ROW], all_rows[first..first + told].concat());
                assert!(rows[told * ROW..].iter().all(|&byte| byte == 0x55));
            }
        }
    }
}
