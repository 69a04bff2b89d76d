//! The link list (document 02 §4): the limits of its numbers, every way a row
//! can be broken, the order of what is refused, and what a writing leaves; on
//! all implementations, with the places that are told.

use zealfs_tests::calls::{Answer, Calls, Refusal};
use zealfs_tests::desk::{Desk, DATE};
use zealfs_tests::plain::links::{file_of, rows_of, Row};
use zealfs_tests::plain::{pages_of_file, Plain};
use zealfs_tests::random::Random;
use zealfs_tests::rows::{
    most_rows, numbers_of, random_row, rows_filling, sorted, spoil_file, spoil_list,
};
use zealfs_tests::settings;
use zealfs_tests::subjects::all;

/// A date that no calendar has, and another good one.
const NO_DATE: [u8; 8] = [0; 8];
const OTHER_DATE: [u8; 8] = [0x19, 0x99, 0x12, 0x31, 0x05, 0x23, 0x59, 0x59];

/// What numbers of a list hold before a call.
const UNSET: u64 = 0x5A5A_5A5A_5A5A_5A5A;

/// The most rows that a file of an image has.
const MOST: usize = 16_731;

fn row(count: u64, value: u64, figure: u64) -> Row {
    Row {
        count,
        value,
        figure,
    }
}

fn broken(place: usize) -> Answer {
    Answer::refused(Refusal::at_row(21, place))
}

fn not_above(row: usize) -> Answer {
    Answer::refused(Refusal::at_row(22, row))
}

fn without_file(row: usize) -> Answer {
    Answer::refused(Refusal::at_row(23, row))
}

fn refused(number: u8) -> Answer {
    Answer::refused(Refusal::number(number))
}

fn rows(count: usize) -> Answer {
    Answer::count(count as u64)
}

/// The calls on a desk's image, each checked to change nothing but what it may.
trait Links {
    fn write_links(&mut self, directory: &str, numbers: &[u64]) -> Answer;
    fn write_dated(&mut self, directory: &str, date: &[u8], numbers: &[u64]) -> Answer;
    fn read_links(&self, directory: &str, room: usize) -> (Answer, Vec<u64>);
    fn find_link(&self, directory: &str, count: u64, value: u64) -> Answer;
    fn check_links(&self, directory: &str) -> Answer;
    /// A file of these bytes in the place of any LINKS.
    fn put_file(&mut self, path: &str, bytes: &[u8]);
}

impl Links for Desk<'_> {
    fn write_links(&mut self, directory: &str, numbers: &[u64]) -> Answer {
        self.write_dated(directory, &DATE, numbers)
    }

    /// A granted writing is a removal, a make and a write by the calls of the
    /// same implementation, and a refused one changes nothing.
    fn write_dated(&mut self, directory: &str, date: &[u8], numbers: &[u64]) -> Answer {
        let mut by_calls = self.image.clone();
        let path = path_in(directory);
        let (calls, directory) = (self.calls, directory.as_bytes());
        let answer = calls.links_write(&mut self.image, directory, date, numbers);
        if answer.is_granted() {
            if calls.find(&by_calls, path.as_bytes()).is_granted() {
                assert!(calls
                    .remove_file(&mut by_calls, path.as_bytes())
                    .is_granted());
            }
            assert!(calls
                .make_file(&mut by_calls, path.as_bytes(), date)
                .is_granted());
            let list: Vec<Row> = numbers.chunks_exact(3).map(Row::of).collect();
            let file = file_of(&list);
            assert!(calls
                .write(&mut by_calls, path.as_bytes(), 0, &file)
                .is_granted());
        }
        assert!(self.image == by_calls, "the image after {answer}");
        answer
    }

    /// Reads into a list with so many numbers; a refused one leaves it, and a
    /// granted one what is past the rows.
    fn read_links(&self, directory: &str, room: usize) -> (Answer, Vec<u64>) {
        let mut numbers = vec![UNSET; room];
        let answer = self
            .calls
            .links_read(&self.image, directory.as_bytes(), &mut numbers);
        let kept = match answer.is_granted() {
            true => 3 * answer.values[0] as usize,
            false => 0,
        };
        assert!(numbers[kept..].iter().all(|&number| number == UNSET));
        numbers.truncate(kept);
        (answer, numbers)
    }

    fn find_link(&self, directory: &str, count: u64, value: u64) -> Answer {
        let directory = directory.as_bytes();
        self.calls.links_find(&self.image, directory, count, value)
    }

    fn check_links(&self, directory: &str) -> Answer {
        self.calls.links_check(&self.image, directory.as_bytes())
    }

    fn put_file(&mut self, path: &str, bytes: &[u8]) {
        let path = path.as_bytes();
        self.calls.remove_file(&mut self.image, path);
        assert!(self
            .calls
            .make_file(&mut self.image, path, &DATE)
            .is_granted());
        assert!(self
            .calls
            .write(&mut self.image, path, 0, bytes)
            .is_granted());
    }
}

fn path_in(directory: &str) -> String {
    format!("{}/LINKS", directory.trim_end_matches('/'))
}

/// What the three calls that read a file give for these bytes: the rows, or the
/// same refusal each.
fn check_file(desk: &mut Desk, file: &[u8], expected: Result<&[Row], Answer>) {
    desk.put_file("/LINKS", file);
    let room = 3 * file.len();
    match expected {
        Ok(list) => {
            let numbers = numbers_of(list);
            assert_eq!(
                desk.read_links("/", room),
                (rows(list.len()), numbers),
                "{file:02X?}"
            );
            for &Row {
                count,
                value,
                figure,
            } in list.iter().take(40)
            {
                let answer = desk.find_link("/", count, value);
                assert_eq!(answer, Answer::figure(Some(figure)), "{file:02X?}");
            }
            assert_eq!(file, file_of(list));
        }
        Err(answer) => {
            assert_eq!(desk.read_links("/", room).0, answer, "{file:02X?}");
            // It is told before a list too short, a row that is found and one
            // without a file.
            assert_eq!(desk.read_links("/", 0).0, answer, "{file:02X?}");
            assert_eq!(desk.find_link("/", 1, 7), answer, "{file:02X?}");
            assert_eq!(desk.find_link("/", 99, 7), answer, "{file:02X?}");
            assert_eq!(desk.check_links("/"), answer, "{file:02X?}");
        }
    }
}

/// Three numbers in bytes that need not be their shortest.
fn spelled(numbers: [&[u8]; 3]) -> Vec<u8> {
    numbers.concat()
}

#[test]
fn numbers_and_their_groups() {
    for subject in all() {
        let desk = &mut Desk::fresh(subject.calls.as_ref(), 2048);
        // 300 is AC 02.
        check_file(desk, &[3, 0xAC, 2, 0], Ok(&[row(3, 300, 0)]));
        for (figure, bytes) in [(127, 1), (128, 2), (16_383, 2), (16_384, 3), (u32::MAX, 5)] {
            let list = [row(1, 7, figure.into())];
            assert_eq!(file_of(&list).len(), 2 + bytes);
            check_file(desk, &file_of(&list), Ok(&list));
        }
        // Eight groups, below and above ten to the sixteenth.
        let eight = |last: u8| spelled([&[16], &[&[0xFF; 7], &[last][..]].concat(), &[1]]);
        check_file(desk, &eight(0x10), Ok(&[row(16, 9_570_149_208_162_303, 1)]));
        check_file(desk, &eight(0x11), Err(broken(0)));
    }
}

/// Every malformed number in each place of a row, as the first row and behind a
/// good one.
#[test]
fn malformed_numbers() {
    let malformed: [&[u8]; 12] = [
        // Not shortest: a last group that says nothing.
        &[0x80, 0],
        &[0x81, 0],
        &[0x81, 0x80, 0],
        &[0xFF, 0x80, 0x80, 0],
        // Cut off.
        &[0x80],
        &[0x81, 0x80],
        &[0xFF; 9],
        // Too long, shortest or not.
        &[0x81, 0x80, 0x80, 0x80, 0x80, 0x80, 0x80, 0x80, 1],
        &[0x81, 0x80, 0x80, 0x80, 0x80, 0x80, 0x80, 0x80, 0],
        &[0xFF, 0xFF, 0xFF, 0xFF, 0xFF, 0xFF, 0xFF, 0xFF, 0xFF, 1],
        // The value that is 1 once it is cut to 64 bits.
        &[0x81, 0x80, 0x80, 0x80, 0x80, 0x80, 0x80, 0x80, 0x80, 2],
        &[
            0x81, 0x80, 0x80, 0x80, 0x80, 0x80, 0x80, 0x80, 0x80, 0x80, 1,
        ],
    ];
    let good = file_of(&[row(1, 7, 1)]);
    for subject in all() {
        let desk = &mut Desk::fresh(subject.calls.as_ref(), 2048);
        for bad in malformed {
            let is_cut = bad.last().is_some_and(|byte| byte & 0x80 != 0);
            for place in 0..3 {
                let mut numbers: [&[u8]; 3] = [&[2], &[9], &[5]];
                numbers[place] = bad;
                // Behind a number that is cut off nothing follows.
                let file = match is_cut {
                    true => numbers[..=place].concat(),
                    false => spelled(numbers),
                };
                check_file(desk, &file, Err(broken(0)));
                check_file(desk, &[good.as_slice(), &file].concat(), Err(broken(3)));
                // What follows is not looked at.
                let more = [good.as_slice(), &file, &[0, 0, 0]].concat();
                if !is_cut {
                    check_file(desk, &more, Err(broken(3)));
                }
            }
        }
        // A row that ends before its second or third number.
        for length in 1..3 {
            check_file(desk, &good[..length], Err(broken(0)));
            let file = [good.as_slice(), &file_of(&[row(2, 0, 0)])[..length]].concat();
            check_file(desk, &file, Err(broken(3)));
        }
        check_file(desk, &[good.as_slice(), &[0]].concat(), Err(broken(3)));
    }
}

/// Ten to the count less one, and ten to the count, for each count; the counts
/// and figures at the ends of their ranges. In the file and in a list.
#[test]
fn ranges() {
    for subject in all() {
        let desk = &mut Desk::fresh(subject.calls.as_ref(), 2048);
        let mut cases = vec![
            (row(0, 0, 1), false),
            (row(17, 1, 1), false),
            (row(128, 1, 1), false),
            (row(1, 0, 0), true),
            (row(16, 0, 0), true),
            (row(1, 7, (1 << 32) - 1), true),
            (row(1, 7, 1 << 32), false),
            (row(1, 7, 1 << 33), false),
            (row(1, 7, (1 << 32) + 7), false),
        ];
        for count in 1..=16 {
            let limit = 10_u64.pow(count as u32);
            cases.push((row(count, limit - 1, u32::MAX.into()), true));
            cases.push((row(count, limit, 1), false));
            cases.push((row(count, limit + 1, 1), false));
        }
        for (bad, is_good) in cases {
            let expected = [bad];
            let file = file_of(&expected);
            check_file(
                desk,
                &file,
                if is_good {
                    Ok(&expected)
                } else {
                    Err(broken(0))
                },
            );
            let written = if is_good {
                Answer::granted()
            } else {
                broken(0)
            };
            assert_eq!(desk.write_links("/", &bad.numbers()), written, "{bad:?}");
            // As the second row, behind the lowest there is.
            let pair = [row(1, 0, 9), bad];
            let second = match is_good && (bad.count, bad.value) > (1, 0) {
                true => Answer::granted(),
                false if is_good => not_above(1),
                false => broken(1),
            };
            assert_eq!(desk.write_links("/", &numbers_of(&pair)), second, "{bad:?}");
        }
        // Numbers that only 64 bits hold, or that are good if they are cut.
        for wide in [1 << 32, 1 << 56, 1 << 63, u64::MAX] {
            for part in 0..3 {
                let mut numbers = row(1, 7, 1).numbers();
                numbers[part] = numbers[part].wrapping_add(wide);
                let is_good = Row::of(&numbers).is_in_range();
                let expected = if is_good {
                    Answer::granted()
                } else {
                    broken(0)
                };
                assert_eq!(desk.write_links("/", &numbers), expected, "{numbers:?}");
            }
        }
    }
}

/// Rows that are equal, that fall and that rise by count alone, and the first
/// of two faults.
#[test]
fn order_of_rows() {
    let good = row(2, 42, 7);
    let cases: [(&[Row], Result<(), Answer>); 12] = [
        (&[good, good], Err(not_above(1))),
        (&[good, row(2, 42, 8)], Err(not_above(1))),
        (&[good, row(2, 41, 7)], Err(not_above(1))),
        (&[good, row(1, 9, 7)], Err(not_above(1))),
        (&[good, row(2, 43, 0)], Ok(())),
        // By count alone: the value falls or stays.
        (&[good, row(3, 0, 0)], Ok(())),
        (&[good, row(4, 42, 7)], Ok(())),
        (&[row(1, 9, 1), row(2, 0, 2)], Ok(())),
        (&[row(2, 5, 1), row(1, 6, 2)], Err(not_above(1))),
        // The first bad row is told, and of one row 21 before 22.
        (&[good, good, row(0, 0, 0)], Err(not_above(1))),
        (&[good, row(2, 100, 0), good], Err(broken(1))),
        (&[good, row(1, 10, 0)], Err(broken(1))),
    ];
    for subject in all() {
        let desk = &mut Desk::fresh(subject.calls.as_ref(), 2048);
        for (list, expected) in cases.clone() {
            let written = desk.write_links("/", &numbers_of(list));
            let granted = expected
                .clone()
                .map_or_else(|answer| answer, |()| Answer::granted());
            assert_eq!(written, granted, "{list:?}");
            // In the file 21 has the byte where the row begins.
            let in_file = match expected {
                Ok(()) => Ok(list),
                Err(answer) if answer.number == 21 => {
                    Err(broken(file_of(&list[..answer.place[0] as usize]).len()))
                }
                Err(answer) => Err(answer),
            };
            check_file(desk, &file_of(list), in_file);
        }
    }
}

/// Lists too short by one, long enough, and longer; a rest of one or two numbers
/// is no row.
#[test]
fn room_for_the_rows() {
    let list = [row(1, 7, 70), row(2, 42, 71), row(4, 42, 72)];
    let numbers = numbers_of(&list);
    for subject in all() {
        let mut desk = Desk::fresh(subject.calls.as_ref(), 2048);
        assert_eq!(desk.make_directory("/A"), 0);
        for directory in ["/", "/A"] {
            assert_eq!(desk.write_links(directory, &numbers), Answer::granted());
            for room in 0..30 {
                let expected = match room / 3 < 3 {
                    true => (refused(24), Vec::new()),
                    false => (rows(3), numbers.clone()),
                };
                assert_eq!(desk.read_links(directory, room), expected, "{room} numbers");
            }
        }
        // In writing a rest is not looked at either.
        for rest in [&[] as &[u64], &[0], &[0, 0], &[u64::MAX, 5]] {
            let with_rest = [numbers.as_slice(), rest].concat();
            assert_eq!(desk.write_links("/", &with_rest), Answer::granted());
            assert_eq!(desk.read_links("/", 9), (rows(3), numbers.clone()));
            assert_eq!(desk.write_links("/A", rest), Answer::granted());
            assert_eq!(desk.read_links("/A", rest.len()), (rows(0), Vec::new()));
        }
    }
}

/// The empty list is an empty file, which owns a page.
#[test]
fn the_empty_list() {
    for subject in all() {
        let mut desk = Desk::fresh(subject.calls.as_ref(), 2048);
        assert_eq!(desk.write_links("/", &[]), Answer::granted());
        assert_eq!((desk.free(), desk.content("/LINKS")), (6, Vec::new()));
        assert_eq!(desk.read_links("/", 0), (rows(0), Vec::new()));
        assert_eq!(desk.find_link("/", 1, 7), Answer::figure(None));
        assert_eq!(desk.check_links("/"), Answer::granted());
        assert_eq!(desk.write_links("/", &[1, 7, 1]), Answer::granted());
        assert_eq!(desk.write_links("/", &[]), Answer::granted());
        assert_eq!((desk.free(), desk.content("/LINKS")), (6, Vec::new()));
    }
}

/// Find asks for count and value; what is in no range is not there.
#[test]
fn found_or_not() {
    let list = [
        row(2, 42, 1),
        row(4, 42, 2),
        row(16, 42, 3),
        row(16, 9_999_999_999_999_999, 0),
    ];
    for subject in all() {
        let mut desk = Desk::fresh(subject.calls.as_ref(), 2048);
        assert_eq!(desk.write_links("/", &numbers_of(&list)), Answer::granted());
        for asked in list {
            let answer = desk.find_link("/", asked.count, asked.value);
            assert_eq!(answer, Answer::figure(Some(asked.figure)));
        }
        for (count, value) in [
            (3, 42),
            (2, 4),
            (0, 0),
            (0, 42),
            (17, 42),
            (2, 142),
            (2 + (1 << 32), 42),
            (2, 42 + (1 << 32)),
            (u64::MAX, u64::MAX),
        ] {
            assert_eq!(desk.find_link("/", count, value), Answer::figure(None));
        }
    }
}

/// A row names a file by its exact digits: 0042 is not 42, and a directory is no
/// file. Of several rows without one the first is told.
#[test]
fn rows_and_their_files() {
    for subject in all() {
        let mut desk = Desk::fresh(subject.calls.as_ref(), 8192);
        assert_eq!(desk.make_directory("/A"), 0);
        for directory in ["", "/A"] {
            let path = |name: &str| format!("{directory}/{name}");
            let at = if directory.is_empty() { "/" } else { directory };
            assert_eq!(desk.make_file(&path("42")), 0);
            assert_eq!(desk.make_file(&path("9999999999999999")), 0);
            let check = |desk: &mut Desk, list: &[Row]| {
                assert_eq!(desk.write_links(at, &numbers_of(list)), Answer::granted());
                desk.check_links(at)
            };
            let last = row(16, 9_999_999_999_999_999, 5);
            assert_eq!(check(&mut desk, &[row(2, 42, 1), last]), Answer::granted());
            assert_eq!(
                check(&mut desk, &[row(2, 42, 1), row(4, 42, 1), last]),
                without_file(1)
            );
            assert_eq!(
                check(&mut desk, &[row(3, 42, 1), row(4, 42, 1)]),
                without_file(0)
            );
            assert_eq!(
                check(&mut desk, &[row(2, 42, 1), row(16, 0, 1)]),
                without_file(1)
            );
            assert_eq!(desk.make_file(&path("0042")), 0);
            assert_eq!(
                check(&mut desk, &[row(2, 42, 1), row(4, 42, 1), last]),
                Answer::granted()
            );
            assert_eq!(desk.remove_file(&path("42")), 0);
            assert_eq!(
                check(&mut desk, &[row(2, 42, 1), row(4, 42, 1)]),
                without_file(0)
            );
            // A directory has the digits, then a locked file.
            assert_eq!(desk.make_directory(&path("42")), 0);
            assert_eq!(
                check(&mut desk, &[row(2, 42, 1), row(4, 42, 1)]),
                without_file(0)
            );
            assert_eq!(desk.remove_directory(&path("42")), 0);
            assert_eq!(desk.make_file(&path("42")), 0);
            assert_eq!(desk.lock(&path("42")), 0);
            assert_eq!(
                check(&mut desk, &[row(2, 42, 1), row(4, 42, 1)]),
                Answer::granted()
            );
        }
        // A file of another directory is none of this one.
        assert_eq!(desk.make_file("/A/7"), 0);
        assert_eq!(desk.write_links("/", &[1, 7, 1]), Answer::granted());
        assert_eq!(desk.check_links("/"), without_file(0));
        assert_eq!(desk.write_links("/A", &[1, 7, 1]), Answer::granted());
        assert_eq!(desk.check_links("/A"), Answer::granted());
    }
}

/// Everything that a writing and a reading are refused for before the rows, in
/// the table's order.
#[test]
fn what_stands_before_the_rows() {
    let bad = [0, 0, 0];
    for subject in all() {
        let mut desk = Desk::fresh(subject.calls.as_ref(), 8192);
        let (name, byte) = (
            |at| Answer::refused(Refusal::at_name(5, at)),
            Refusal::at_name,
        );
        assert_eq!(desk.make_directory("/A"), 0);
        assert_eq!(desk.make_file("/42"), 0);
        // 4 first: the directory is a path of its own.
        for no_path in ["", "A", "/A/", "//", "/A//", "/AAAAAAAAAAAAAAAAA"] {
            assert_eq!(
                desk.write_dated(no_path, &NO_DATE, &bad),
                refused(4),
                "{no_path}"
            );
            assert_eq!(desk.read_links(no_path, 0).0, refused(4));
            assert_eq!(desk.find_link(no_path, 1, 1), refused(4));
            assert_eq!(desk.check_links(no_path), refused(4));
        }
        // Then 11, then 5 and 6 with the byte where the name begins.
        for (directory, answer) in [
            ("/Z", name(1)),
            ("/A/Z/Y", name(3)),
            ("/42", Answer::refused(byte(6, 1))),
            ("/42/x", Answer::refused(byte(6, 1))),
            ("/LINKS", name(1)),
        ] {
            assert_eq!(desk.write_dated(directory, &NO_DATE, &bad), refused(11));
            assert_eq!(desk.write_dated(directory, &DATE[..7], &bad), refused(11));
            assert_eq!(desk.write_links(directory, &bad), answer, "{directory}");
            assert_eq!(desk.read_links(directory, 0).0, answer, "{directory}");
            assert_eq!(desk.find_link(directory, 1, 1), answer);
            assert_eq!(desk.check_links(directory), answer);
        }
        assert_eq!(desk.write_dated("/A", &NO_DATE, &bad), refused(11));
        // No LINKS: 5, where LINKS begins; in writing it is made.
        for (directory, begins) in [("/", 1), ("/A", 3)] {
            assert_eq!(desk.read_links(directory, 0).0, name(begins));
            assert_eq!(desk.find_link(directory, 1, 1), name(begins));
            assert_eq!(desk.check_links(directory), name(begins));
            assert_eq!(desk.write_links(directory, &bad), broken(0));
        }
        // A directory of that name: 7, before the rows and after the date.
        assert_eq!(desk.make_directory("/A/LINKS"), 0);
        assert_eq!(desk.write_links("/A", &bad), refused(7));
        assert_eq!(desk.write_links("/A", &[1, 1, 1, 1, 1, 1]), refused(7));
        assert_eq!(desk.write_links("/A", &[]), refused(7));
        assert_eq!(desk.write_dated("/A", &NO_DATE, &bad), refused(11));
        assert_eq!(desk.read_links("/A", 0).0, refused(7));
        assert_eq!(desk.find_link("/A", 1, 1), refused(7));
        assert_eq!(desk.check_links("/A"), refused(7));
        // It may have a list of its own.
        assert_eq!(desk.write_links("/A/LINKS", &[1, 1, 1]), Answer::granted());
        assert_eq!(desk.read_links("/A/LINKS", 3), (rows(1), vec![1, 1, 1]));
        assert_eq!(
            desk.read_links("/A/LINKS/LINKS", 3).0,
            Answer::refused(byte(6, 9))
        );
        // A locked LINKS: 25 in writing, after 7 and before the rows; to read it
        // stays free.
        assert_eq!(desk.make_file("/1"), 0);
        assert_eq!(desk.write_links("/", &[1, 1, 1]), Answer::granted());
        assert_eq!(desk.lock("/LINKS"), 0);
        assert_eq!(desk.write_links("/", &bad), refused(25));
        assert_eq!(desk.write_links("/", &[]), refused(25));
        assert_eq!(desk.write_dated("/", &NO_DATE, &bad), refused(11));
        assert_eq!(desk.read_links("/", 3), (rows(1), vec![1, 1, 1]));
        assert_eq!(desk.find_link("/", 1, 1), Answer::figure(Some(1)));
        assert_eq!(desk.check_links("/"), Answer::granted());
        assert_eq!(desk.unlock("/LINKS"), 0);
        assert_eq!(desk.write_links("/", &[1, 2, 1]), Answer::granted());
        // Old content is not judged, and the new file is not locked.
        desk.put_file("/LINKS", &[0xFF; 700]);
        assert_eq!(desk.read_links("/", 3).0, broken(0));
        assert_eq!(desk.write_links("/", &[1, 2, 1]), Answer::granted());
        assert_eq!(desk.find("/LINKS").values, [0, 3, 0, 0]);
    }
}

/// On an image that is not sound every call tells its fault.
#[test]
fn unsound_images() {
    for subject in all() {
        let mut desk = Desk::fresh(subject.calls.as_ref(), 2048);
        assert_eq!(desk.write_links("/", &[1, 7, 1]), Answer::granted());
        let whole = desk.image.clone();
        let damages: [(usize, u8); 5] = [(0, 0), (3, 99), (4, 0x83), (4, 1), (65, b'/')];
        for (at, byte) in damages {
            desk.image = whole.clone();
            desk.image[at] = byte;
            check_unsound(&mut desk);
        }
        for length in [0, 1, 2047, 2049, 4096, 65_537, 70_000] {
            desk.image = whole.clone();
            desk.image.resize(length, 0);
            check_unsound(&mut desk);
        }
    }
}

fn check_unsound(desk: &mut Desk) {
    let verdict = desk.calls.verdict(&desk.image);
    assert!(!verdict.is_granted());
    for directory in ["", "/", "/A"] {
        assert_eq!(desk.write_dated(directory, &NO_DATE, &[0, 0, 0]), verdict);
        assert_eq!(desk.write_links(directory, &[1, 7, 1]), verdict);
        assert_eq!(desk.read_links(directory, 0).0, verdict);
        assert_eq!(desk.find_link(directory, 1, 7), verdict);
        assert_eq!(desk.check_links(directory), verdict);
    }
}

/// A full directory: 9, after the rows; not where the old LINKS goes, whose entry
/// or a lower one the new one takes, with the new date.
#[test]
fn entries_of_a_full_directory() {
    for subject in all() {
        let mut desk = Desk::fresh(subject.calls.as_ref(), 8192);
        assert_eq!(desk.make_directory("/A"), 0);
        for number in 0..8 {
            assert_eq!(desk.make_file(&format!("/A/{number}")), 0);
        }
        assert_eq!(desk.write_links("/A", &[0, 0, 0]), broken(0));
        assert_eq!(desk.write_links("/A", &[1, 7, 1, 1, 7, 1]), not_above(1));
        assert_eq!(desk.write_links("/A", &[1, 7, 1]), refused(9));
        assert_eq!(desk.write_links("/A", &[]), refused(9));
        // 9 before 10.
        assert_eq!(
            desk.write_links("/A", &numbers_of(&rows_filling(9000))),
            refused(9)
        );
        assert_eq!(desk.remove_file("/A/5"), 0);
        assert_eq!(desk.write_links("/A", &[1, 7, 1]), Answer::granted());
        assert_eq!(entry_of(&desk, "/A"), 5);
        // Full again, with the old LINKS in it.
        assert_eq!(
            desk.write_dated("/A", &OTHER_DATE, &[1, 6, 1]),
            Answer::granted()
        );
        assert_eq!(entry_of(&desk, "/A"), 5);
        assert_eq!(desk.find("/A/LINKS").date, OTHER_DATE);
        assert_eq!(desk.check_links("/A"), Answer::granted());
        // A lower entry is empty: the new one goes there.
        assert_eq!(desk.remove_file("/A/2"), 0);
        assert_eq!(desk.write_links("/A", &[1, 6, 1]), Answer::granted());
        assert_eq!(entry_of(&desk, "/A"), 2);
        // The root's six entries.
        for number in 1..5 {
            assert_eq!(desk.make_file(&format!("/{number}")), 0);
        }
        assert_eq!(desk.write_links("/", &[1, 7, 1]), Answer::granted());
        assert_eq!(desk.make_file("/6"), 9);
        assert_eq!(desk.write_links("/", &[1, 8, 1]), Answer::granted());
        assert_eq!(entry_of(&desk, "/"), 5);
        assert_eq!(desk.remove_file("/LINKS"), 0);
        assert_eq!(desk.make_file("/6"), 0);
        assert_eq!(desk.write_links("/", &[1, 8, 1]), refused(9));
    }
}

/// A directory of that name, a lock and the rows stand before want of an entry
/// and of pages.
#[test]
fn what_stands_before_want_of_room() {
    let long = numbers_of(&rows_filling(3000));
    let falling = [long.as_slice(), &[1, 7, 1]].concat();
    for subject in all() {
        for is_directory in [true, false] {
            let mut desk = Desk::fresh(subject.calls.as_ref(), 2048);
            match is_directory {
                true => assert_eq!(desk.make_directory("/LINKS"), 0),
                false => assert_eq!(desk.make_file("/LINKS"), 0),
            }
            for name in ["/1", "/2", "/3", "/4", "/5"] {
                assert_eq!(desk.make_file(name), 0);
            }
            assert_eq!(desk.write("/5", 0, 256), 0);
            assert_eq!(desk.free(), 0);
            let expected = match is_directory {
                true => refused(7),
                false => refused(25),
            };
            assert_eq!(desk.lock("/LINKS"), if is_directory { 7 } else { 0 });
            assert_eq!(desk.write_links("/", &long), expected);
            assert_eq!(desk.write_links("/", &falling), expected);
            if !is_directory {
                assert_eq!(desk.unlock("/LINKS"), 0);
                assert_eq!(
                    desk.write_links("/", &falling),
                    not_above(falling.len() / 3 - 1)
                );
                assert_eq!(desk.write_links("/", &long), refused(10));
                assert_eq!(desk.write_links("/", &[1, 7, 1]), Answer::granted());
            }
        }
    }
}

/// In which entry LINKS is.
fn entry_of(desk: &Desk, directory: &str) -> u64 {
    let is_list = |&entry: &u64| desk.list(directory, entry).name.starts_with(b"LINKS\0");
    (0..8).find(is_list).expect("a list")
}

/// 10 counts the pages with those of the old file: on an image with one page
/// free, with none, and exactly as many as are wanted.
#[test]
fn pages_of_a_full_image() {
    for subject in all() {
        for (free, old) in [
            (1, None),
            (0, None),
            (2, None),
            (0, Some(0)),
            (0, Some(600)),
            (1, Some(255)),
            (2, Some(1)),
        ] {
            let mut desk = Desk::fresh(subject.calls.as_ref(), 4096);
            assert_eq!(desk.make_file("/B"), 0);
            let mut room = free;
            if let Some(size) = old {
                desk.put_file("/LINKS", &vec![0xFF; size]);
                room += pages_of_file(size);
            }
            let taken = desk.free() as usize + 1 - free;
            assert_eq!(desk.write("/B", 0, 255 * taken), 0);
            assert_eq!(desk.free() as usize, free);
            let whole = desk.image.clone();
            let lengths = [
                0,
                3,
                254,
                255,
                256,
                255 * room,
                255 * room + 1,
                65_025,
                65_026,
                70_000,
            ];
            for length in lengths.into_iter().filter(|&length| length != 1) {
                desk.image = whole.clone();
                let list = rows_filling(length);
                let expected = match pages_of_file(length) <= room {
                    true => Answer::granted(),
                    false => refused(10),
                };
                let numbers = numbers_of(&list);
                assert_eq!(
                    desk.write_links("/", &numbers),
                    expected,
                    "{free} {old:?} {length}"
                );
                if expected.is_granted() {
                    assert_eq!(desk.content("/LINKS").len(), length);
                    assert_eq!(
                        desk.read_links("/", numbers.len()),
                        (rows(list.len()), numbers)
                    );
                }
                // The rows come before want of pages.
                desk.image = whole.clone();
                let mut bad = numbers_of(&list);
                bad.extend([0, 0, 0]);
                assert_eq!(desk.write_links("/", &bad), broken(list.len()));
            }
        }
    }
}

/// The longest lists: all that a file of 65,025 bytes holds, and more rows than
/// any has.
#[test]
fn the_longest_lists() {
    let most = most_rows(65_025);
    assert_eq!((most.len(), file_of(&most).len()), (MOST, 65_022));
    let numbers = numbers_of(&most);
    // 3 bytes a row at least: 21,675 rows are as many as fit the file by their
    // count, but no list of them rises.
    let short = file_of(&vec![row(1, 7, 1); 21_675]);
    assert_eq!(short.len(), 65_025);
    let long: Vec<Row> = (0..21_675).map(|value| row(5, value, value)).collect();
    let too_long: Vec<Row> = (0..100_000).map(|value| row(6, value, 1)).collect();
    for subject in all() {
        let mut desk = Desk::fresh(subject.calls.as_ref(), 65_536);
        assert_eq!(desk.write_links("/", &numbers), Answer::granted());
        assert_eq!(desk.free(), 0);
        let room = numbers.len();
        assert_eq!(desk.read_links("/", room), (rows(MOST), numbers.clone()));
        assert_eq!(desk.read_links("/", room + 4).0, rows(MOST));
        assert_eq!(desk.read_links("/", room - 1).0, refused(24));
        let last = most[MOST - 1];
        assert_eq!(
            desk.find_link("/", last.count, last.value),
            Answer::figure(Some(last.figure))
        );
        assert_eq!(desk.check_links("/"), without_file(0));
        // One row more.
        let mut more = numbers.clone();
        more.extend([16, 9_999_999_999_999_999, 1]);
        assert_eq!(desk.write_links("/", &more), refused(10));
        assert_eq!(desk.write_links("/", &numbers_of(&long)), refused(10));
        assert_eq!(desk.write_links("/", &numbers_of(&too_long)), refused(10));
        // A bad row far behind, also past 65,536.
        for at in [21_674, 65_535, 65_536, 99_999] {
            let mut bad = numbers_of(&too_long);
            bad[3 * at] = 17;
            assert_eq!(desk.write_links("/", &bad), broken(at));
            bad[3 * at] = 6;
            bad[3 * at + 1] = 0;
            assert_eq!(desk.write_links("/", &bad), not_above(at));
        }
        assert_eq!(desk.remove_file("/LINKS"), 0);
        check_file(&mut desk, &short, Err(not_above(1)));
        let mut file = file_of(&most);
        file.push(0x80);
        check_file(&mut desk, &file, Err(broken(65_022)));
        check_file(
            &mut desk,
            &file_of(&rows_filling(65_025)),
            Ok(&rows_filling(65_025)),
        );
    }
}

/// A list in a directory as deep as there are.
#[test]
fn a_deep_directory() {
    for subject in all() {
        let mut desk = Desk::fresh(subject.calls.as_ref(), 65_536);
        let mut path = String::new();
        for _ in 0..253 {
            path += "/DDDDDDDDDDDDDDDD";
            assert_eq!(desk.make_directory(&path), 0);
        }
        let missing = Answer::refused(Refusal::at_name(5, path.len() + 1));
        assert_eq!(desk.read_links(&path, 3).0, missing);
        assert_eq!(desk.write_links(&path, &[1, 7, 1]), Answer::granted());
        assert_eq!(desk.read_links(&path, 3), (rows(1), vec![1, 7, 1]));
        assert_eq!(desk.check_links(&path), without_file(0));
        assert_eq!(desk.make_file(&format!("{path}/7")), 0);
        assert_eq!(desk.check_links(&path), Answer::granted());
        assert_eq!(desk.free(), 0);
        assert_eq!(desk.write_links(&path, &[1, 8, 1]), Answer::granted());
        let below = format!("{path}/DDDDDDDDDDDDDDDD");
        assert_eq!(desk.write_links(&below, &[1, 7, 1]), missing);
        assert_eq!(
            desk.read_links(&"/DDDDDDDDDDDDDDDD".repeat(300), 3).0,
            missing
        );
        // As long as no path that is there can be.
        for far in [4335, 4352, 70_000] {
            let far = format!("/{}", "A/".repeat(far));
            assert_eq!(desk.read_links(&far, 3).0, refused(4));
            assert_eq!(desk.write_links(far.trim_end_matches('/'), &[]).number, 5);
        }
    }
}

/// Equal lists and equal bytes go together: what is written is read back, and
/// bytes that are read are those that are written for the rows.
#[test]
fn lists_and_bytes() {
    let subjects = all();
    let images = settings::lists() / 20;
    let mut tally = [0; 4];
    for seed in 0..images {
        let mut random = Random::new(seed ^ 0x0400_0000_0000_0000);
        let count = random.below(12);
        let list = sorted((0..count).map(|_| random_row(&mut random)).collect());
        let mut file = file_of(&list);
        let mut numbers = numbers_of(&list);
        let is_spoilt = random.chance(3, 4);
        if is_spoilt {
            spoil_file(&mut file, &mut random);
            spoil_list(&mut numbers, &mut random);
        }
        let expected = rows_of(&file);
        for subject in &subjects {
            let mut desk = Desk::fresh(subject.calls.as_ref(), 2048);
            desk.put_file("/LINKS", &file);
            let (answer, read) = desk.read_links("/", 3 * file.len());
            match &expected {
                Ok(rows) => {
                    assert_eq!((answer, &read), (self::rows(rows.len()), &numbers_of(rows)))
                }
                Err(refusal) => assert_eq!(answer, Answer::refused(*refusal), "{file:02X?}"),
            }
            if expected.is_ok() {
                let before = desk.image.clone();
                assert_eq!(desk.write_links("/", &read), Answer::granted());
                assert!(desk.image == before, "{file:02X?} is written otherwise");
            }
            let written = desk.write_links("/", &numbers);
            assert_eq!(
                written,
                Plain.links_write(&mut desk.image.clone(), b"/", &DATE, &numbers)
            );
            if written.is_granted() {
                numbers.truncate(numbers.len() / 3 * 3);
                assert_eq!(desk.read_links("/", numbers.len()).1, numbers);
            }
            tally[usize::from(expected.is_ok())] += 1;
            tally[2 + usize::from(written.is_granted())] += 1;
        }
    }
    println!("files bad and good, lists bad and good: {tally:?}");
    assert!(images < 100 || tally.iter().all(|&count| count > images / 4));
}
