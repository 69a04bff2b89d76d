//! Names, paths and dates, as arguments of calls.

use crate::calls::{Refusal, DATE_BYTES, NAME_BYTES};

/// One name of a path, and the byte of the path at which it begins.
#[derive(Clone, Copy, Debug, PartialEq, Eq)]
pub struct Name<'a> {
    pub begins: usize,
    pub bytes: &'a [u8],
}

/// A legal name, without its padding.
pub fn is_legal_name(bytes: &[u8]) -> bool {
    let fits = (1..=NAME_BYTES).contains(&bytes.len());
    fits && bytes.iter().all(|&byte| is_name_byte(byte))
}

fn is_name_byte(byte: u8) -> bool {
    (0x20..=0x7E).contains(&byte) && byte != b'/'
}

/// The names of a path, none for the root; or refusal 4.
pub fn parse(path: &[u8]) -> Result<Vec<Name<'_>>, Refusal> {
    let no_path = Refusal::number(4);
    if path == b"/" {
        return Ok(Vec::new());
    }
    let Some((b'/', rest)) = path.split_first() else {
        return Err(no_path);
    };
    let mut names = Vec::new();
    let mut begins = 1;
    for bytes in rest.split(|&byte| byte == b'/') {
        if !is_legal_name(bytes) {
            return Err(no_path);
        }
        names.push(Name { begins, bytes });
        begins += bytes.len() + 1;
    }
    Ok(names)
}

/// The date as it is stored; or refusal 11.
pub fn good_date(date: &[u8]) -> Result<[u8; DATE_BYTES], Refusal> {
    let bad = Refusal::number(11);
    let stored: [u8; DATE_BYTES] = date.try_into().map_err(|_| bad)?;
    let mut fields = [0; DATE_BYTES];
    for (field, &byte) in fields.iter_mut().zip(&stored) {
        *field = two_digits(byte).ok_or(bad)?;
    }
    let [century, year, month, day, _weekday, hour, minute, second] = fields;
    let year = u16::from(century) * 100 + u16::from(year);
    let is_day = (1..=12).contains(&month) && (1..=days_in(year, month)).contains(&day);
    if is_day && hour <= 23 && minute <= 59 && second <= 59 {
        Ok(stored)
    } else {
        Err(bad)
    }
}

/// The days of a month, 1 to 12, of the Gregorian calendar (document 02 §3).
pub fn days_in(year: u16, month: u8) -> u8 {
    match month {
        2 if is_leap(year) => 29,
        2 => 28,
        4 | 6 | 9 | 11 => 30,
        _ => 31,
    }
}

fn is_leap(year: u16) -> bool {
    year % 4 == 0 && year % 100 != 0 || year % 400 == 0
}

/// The number that two BCD digits stand for.
fn two_digits(byte: u8) -> Option<u8> {
    let (tens, ones) = (byte / 16, byte % 16);
    (tens <= 9 && ones <= 9).then_some(tens * 10 + ones)
}

#[cfg(test)]
mod tests {
    use super::*;

    fn names(path: &[u8]) -> Option<Vec<(usize, Vec<u8>)>> {
        let names = parse(path).ok()?;
        Some(
            names
                .iter()
                .map(|name| (name.begins, name.bytes.to_vec()))
                .collect(),
        )
    }

    #[test]
    fn paths() {
        assert_eq!(names(b"/"), Some(vec![]));
        assert_eq!(names(b"/A"), Some(vec![(1, b"A".to_vec())]));
        let two = vec![(1, b"0042".to_vec()), (6, b"..".to_vec())];
        assert_eq!(names(b"/0042/.."), Some(two));
        let no_paths: [&[u8]; 9] = [
            b"", b"A", b"//", b"//A", b"/A/", b"/A//B", b"/A\0", b"/\x1F", b"/\x7F",
        ];
        for path in no_paths {
            assert_eq!(names(path), None, "{path:?}");
        }
    }

    #[test]
    fn length_of_a_name() {
        assert!(is_legal_name(b"ABCDEFGHIJKLMNOP"));
        assert!(!is_legal_name(b"ABCDEFGHIJKLMNOPQ"));
        assert!(!is_legal_name(b""));
    }

    #[test]
    fn dates() {
        let good = [0x20, 0x26, 0x12, 0x31, 0x99, 0x23, 0x59, 0x59];
        assert_eq!(good_date(&good), Ok(good));
        for (field, value) in [(2, 0x13), (3, 0x32), (5, 0x24), (6, 0x60), (7, 0x60)] {
            let mut bad = good;
            bad[field] = value;
            assert!(good_date(&bad).is_err());
            bad[field] = 0x0A;
            assert!(good_date(&bad).is_err());
        }
        assert!(good_date(&good[..7]).is_err());
        assert!(good_date(&[0; 8]).is_err());
    }

    #[test]
    fn months_of_a_year() {
        let days = |year| [1, 2, 3, 4, 5, 6, 7, 8, 9, 10, 11, 12].map(|month| days_in(year, month));
        let common = [31, 28, 31, 30, 31, 30, 31, 31, 30, 31, 30, 31];
        let mut leap = common;
        leap[1] = 29;
        for year in [0, 1600, 2000, 2024] {
            assert_eq!(days(year), leap, "{year}");
        }
        for year in [1900, 2023, 2100] {
            assert_eq!(days(year), common, "{year}");
        }
    }
}
