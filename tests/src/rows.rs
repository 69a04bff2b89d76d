//! Rows of link lists (document 02 §4), random ones near the limits of their
//! numbers, lists that fill a file, and what can be wrong about a list or its
//! bytes.

use crate::plain::links::{file_of, Row};
use crate::random::Random;

/// Numbers at which a group more is needed.
const GROUPS: [u64; 8] = [0, 1, 63, 64, 127, 128, 16_383, 16_384];

/// A row in range, often at an end of it.
pub fn random_row(random: &mut Random) -> Row {
    let count = match random.below(3) {
        0 => random.between(1, 4),
        1 => random.between(1, 16),
        _ => *random.pick(&[1, 2, 15, 16]),
    } as u64;
    let limit = 10_u64.pow(count as u32);
    let value = match random.below(5) {
        0 => limit - 1,
        1 => *random.pick(&GROUPS) % limit,
        2 => random.number() % limit,
        3 => random.number() % 10_u64.pow(random.below(count as usize + 1) as u32),
        _ => random.below(10) as u64,
    };
    let figure = match random.below(4) {
        0 => *random.pick(&GROUPS),
        1 => (1 << 32) - 1 - random.below(3) as u64,
        2 => random.number() % (1 << 32),
        _ => random.number() % 1000,
    };
    Row {
        count,
        value,
        figure,
    }
}

/// The rows in order, each accession once.
pub fn sorted(mut rows: Vec<Row>) -> Vec<Row> {
    rows.sort_by_key(|row| (row.count, row.value));
    rows.dedup_by_key(|row| (row.count, row.value));
    rows
}

/// The rows as a call takes them.
pub fn numbers_of(rows: &[Row]) -> Vec<u64> {
    rows.iter().flat_map(|row| row.numbers()).collect()
}

/// Rows whose file has exactly so many bytes; of 1 and 2 there are none, and
/// the file is then empty.
pub fn rows_filling(length: usize) -> Vec<Row> {
    // The longest rows have 14 bytes, those of one digit 3 to 7.
    let mut rows = Vec::new();
    let (mut long, rest) = (length / 14, length % 14);
    let short: &[usize] = match rest {
        0 => &[],
        1 | 2 if long == 0 => return rows,
        1 => &[5, 5, 5],
        2 => &[5, 5, 6],
        3..=7 => &[rest],
        8..=10 => &[rest - 4, 4],
        _ => &[rest - 7, 7],
    };
    if matches!(rest, 1 | 2) {
        long -= 1;
    }
    for (value, &bytes) in (0..).zip(short) {
        rows.push(Row {
            count: 1,
            value,
            figure: match bytes {
                3 => 1,
                _ => 1 << (7 * (bytes - 3)),
            },
        });
    }
    rows.extend((0..long as u64).map(|number| Row {
        count: 16,
        value: (1 << 49) + number,
        figure: 1 << 28,
    }));
    assert_eq!(file_of(&rows).len(), length);
    rows
}

/// As many rows as fit so many bytes: those of few bytes first.
pub fn most_rows(length: usize) -> Vec<Row> {
    let of_value = |low: u64, high: u64| {
        (1..=16).flat_map(move |count| {
            let limit = 10_u64.pow(count as u32).min(high);
            (low..limit).map(move |value| Row {
                count,
                value,
                figure: value % 128,
            })
        })
    };
    let shortest_first = of_value(0, 128).chain(of_value(128, 16_384));
    let mut left = length;
    let mut rows = Vec::new();
    for row in shortest_first {
        let bytes = if row.value < 128 { 3 } else { 4 };
        if bytes > left {
            break;
        }
        left -= bytes;
        rows.push(row);
    }
    sorted(rows)
}

/// Changes one thing about a list that is to be written: mostly it is bad then.
pub fn spoil_list(numbers: &mut Vec<u64>, random: &mut Random) {
    let rows = numbers.len() / 3;
    if rows == 0 {
        let length = random.below(7);
        numbers.extend((0..length).map(|_| random.number() % 20));
        return;
    }
    let at = 3 * random.below(rows);
    let count = numbers[at].clamp(1, 16);
    match random.below(12) {
        0 => numbers[at] = *random.pick(&[0, 17, 1 << 32, u64::MAX]),
        1 => numbers[at] += 1 << *random.pick(&[8, 16, 32, 56, 63]),
        2 => numbers[at + 1] = 10_u64.pow(count as u32),
        3 => numbers[at + 1] = u64::MAX - random.below(2) as u64,
        4 => numbers[at + 2] = 1 << 32,
        5 => numbers[at + 2] = *random.pick(&[u64::MAX, 1 << 33, (1 << 32) + 5]),
        // A row twice, or with another figure.
        6 | 7 => {
            let mut row = numbers[at..at + 3].to_vec();
            row[2] = row[2].wrapping_add(random.below(2) as u64);
            numbers.splice(at..at, row);
        }
        // Two rows in the other order.
        8 | 9 => {
            let other = 3 * random.below(rows);
            for part in 0..3 {
                numbers.swap(at + part, other + part);
            }
        }
        // No row, and not looked at.
        10 => numbers.extend((0..random.between(1, 2)).map(|_| 99)),
        _ => {
            let part = random.below(3);
            numbers[at + part] = random.number();
        }
    }
}

/// Changes one thing about a file: mostly it has a bad row then.
pub fn spoil_file(file: &mut Vec<u8>, random: &mut Random) {
    let at = random.below(file.len() + 1);
    match random.below(8) {
        // Cut off.
        0 => file.truncate(at),
        1 => drop(file.pop()),
        // A group more than is needed behind a number.
        2 | 3 => {
            let lasts = file.iter().enumerate().filter(|(_, byte)| **byte < 0x80);
            let lasts: Vec<usize> = lasts.map(|(at, _)| at).collect();
            if !lasts.is_empty() {
                let at = *random.pick(&lasts);
                file[at] |= 0x80;
                let zeros = *random.pick(&[0, 0, 0, 1, 6, 9]);
                file.splice(at + 1..at + 1, (0..zeros).map(|_| 0x80).chain([0]));
            }
        }
        // Too long.
        4 => drop(file.splice(at..at, [0x80; 8])),
        5 => file.push(random.byte()),
        6 => {
            // A row twice.
            let copy = file.clone();
            file.extend_from_slice(&copy[..at]);
        }
        _ => {
            if let Some(byte) = file.get_mut(at) {
                *byte = random.byte();
            }
        }
    }
}
