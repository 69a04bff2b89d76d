//! The link list (document 02 §4) on the bytes, for the benchmark: one pass
//! over the file judges it and a second one tells its rows, and nothing is
//! allocated. The tests compare with [`crate::above`] and `plain::links`.

use super::{
    allocate, check_date, is_locked, judge, lengthen, pad, pages_of_file, refuse, release,
};
use super::{size_of, walk, Entries, Padded, Path, CONTENT, DATE, DIRECTORY, ENTRY, NAME_BYTES};
use super::{OCCUPIED, PAGE, SIZE, START};
use crate::calls::{Refusal, DATE_BYTES};

const NAME: &[u8] = b"LINKS";

/// A row: how many digits, their value, the figure.
type Row = [u64; 3];

/// The bytes of a file, one after the other along its chain.
#[derive(Clone, Copy)]
struct File<'a> {
    image: &'a [u8],
    page: usize,
    within: usize,
    size: usize,
    left: usize,
}

impl<'a> File<'a> {
    fn of_entry(image: &'a [u8], at: usize) -> File<'a> {
        let size = size_of(&image[at..at + ENTRY]);
        File {
            image,
            page: usize::from(image[at + START]),
            within: 0,
            size,
            left: size,
        }
    }

    fn take_byte(&mut self) -> Option<u8> {
        if self.left == 0 {
            return None;
        }
        if self.within == CONTENT {
            self.page = usize::from(self.image[self.page * PAGE]);
            self.within = 0;
        }
        let byte = self.image[self.page * PAGE + 1 + self.within];
        self.within += 1;
        self.left -= 1;
        Some(byte)
    }

    /// Seven bits a byte, the lowest first, and no byte that says nothing.
    /// Eight bytes hold any number that a row may have.
    fn take_number(&mut self) -> Option<u64> {
        let mut number = 0;
        for group in 0..8 {
            let byte = self.take_byte()?;
            number |= u64::from(byte & 0x7F) << (7 * group);
            if byte & 0x80 == 0 {
                return (group == 0 || byte != 0).then_some(number);
            }
        }
        None
    }

    fn take_row(&mut self) -> Option<Row> {
        let row = [
            self.take_number()?,
            self.take_number()?,
            self.take_number()?,
        ];
        is_in_range(row).then_some(row)
    }

    /// Judges the whole file; answers how many rows it has.
    fn judge(mut self) -> Result<usize, Refusal> {
        let mut last = None;
        let mut rows = 0;
        while self.left != 0 {
            let begins = self.size - self.left;
            let row = self.take_row().ok_or(Refusal::at_row(21, begins))?;
            if !is_above(row, last) {
                return Err(Refusal::at_row(22, rows));
            }
            last = Some(row);
            rows += 1;
        }
        Ok(rows)
    }
}

fn is_in_range([count, value, figure]: Row) -> bool {
    (1..=16).contains(&count) && value < 10_u64.pow(count as u32) && figure >> 32 == 0
}

fn is_above(row: Row, last: Option<Row>) -> bool {
    last.is_none_or(|last| row[..2] > last[..2])
}

/// The entries of the directory, and where the path of its list has LINKS.
fn directory_of(image: &[u8], path: &[u8]) -> Result<(Entries, usize), Refusal> {
    let entries = walk(image, Path::check(path)?)?;
    let begins = if path.len() == 1 { 1 } else { path.len() + 1 };
    Ok((entries, begins))
}

fn load<'a>(image: &'a [u8], path: &[u8]) -> Result<(Entries, File<'a>), Refusal> {
    judge(image)?;
    let (entries, begins) = directory_of(image, path)?;
    let at = entries.position(image, &pad(NAME));
    let at = at.ok_or(Refusal::at_name(5, begins))?;
    if image[at] & DIRECTORY != 0 {
        return refuse(7);
    }
    Ok((entries, File::of_entry(image, at)))
}

pub(super) fn read(image: &[u8], path: &[u8], numbers: &mut [u64]) -> Result<u64, Refusal> {
    let (_, mut file) = load(image, path)?;
    let rows = file.judge()?;
    if rows > numbers.len() / 3 {
        return refuse(24);
    }
    for number in &mut numbers[..3 * rows] {
        *number = file.take_number().expect("a judged file");
    }
    Ok(rows as u64)
}

pub(super) fn find(
    image: &[u8],
    path: &[u8],
    count: u64,
    value: u64,
) -> Result<Option<u64>, Refusal> {
    let (_, mut file) = load(image, path)?;
    for _ in 0..file.judge()? {
        let row = file.take_row().expect("a judged file");
        if row[..2] == [count, value] {
            return Ok(Some(row[2]));
        }
    }
    Ok(None)
}

/// The name of a file that has these digits.
fn digits([count, mut value, _]: Row) -> Padded {
    let mut name = [0; NAME_BYTES];
    for digit in name[..count as usize].iter_mut().rev() {
        *digit = b'0' + (value % 10) as u8;
        value /= 10;
    }
    name
}

pub(super) fn check(image: &[u8], path: &[u8]) -> Result<(), Refusal> {
    let (entries, mut file) = load(image, path)?;
    for number in 0..file.judge()? {
        let row = file.take_row().expect("a judged file");
        let at = entries.position(image, &digits(row));
        if at.is_none_or(|at| image[at] & DIRECTORY != 0) {
            return Err(Refusal::at_row(23, number));
        }
    }
    Ok(())
}

/// The bytes of a list that is to be written, or its first bad row.
fn length_of(numbers: &[u64]) -> Result<usize, Refusal> {
    let mut last = None;
    let mut length = 0;
    for (number, triple) in numbers.chunks_exact(3).enumerate() {
        let row = [triple[0], triple[1], triple[2]];
        if !is_in_range(row) {
            return Err(Refusal::at_row(21, number));
        }
        if !is_above(row, last) {
            return Err(Refusal::at_row(22, number));
        }
        last = Some(row);
        let groups = row.map(|number| (64 - number.leading_zeros() as usize).div_ceil(7).max(1));
        length += groups.iter().sum::<usize>();
    }
    Ok(length)
}

/// Writes the bytes of a list along the chain from `page` on.
fn put_numbers(image: &mut [u8], mut page: usize, numbers: &[u64]) {
    let mut within = 0;
    let mut put = |byte: u8| {
        if within == CONTENT {
            page = usize::from(image[page * PAGE]);
            within = 0;
        }
        image[page * PAGE + 1 + within] = byte;
        within += 1;
    };
    for &number in &numbers[..numbers.len() / 3 * 3] {
        let mut number = number;
        while number >> 7 != 0 {
            put(number as u8 | 0x80);
            number >>= 7;
        }
        put(number as u8);
    }
}

pub(super) fn write(
    image: &mut [u8],
    path: &[u8],
    date: &[u8],
    numbers: &[u64],
) -> Result<(), Refusal> {
    let sound = judge(image)?;
    let path = Path::check(path)?;
    // A bad date stands above a missing name and a file on the way.
    check_date(date)?;
    let entries = walk(image, path)?;
    let old = entries.position(image, &pad(NAME));
    if old.is_some_and(|at| image[at] & DIRECTORY != 0) {
        return refuse(7);
    }
    if old.is_some_and(|at| is_locked(image[at])) {
        return refuse(25);
    }
    let length = length_of(numbers)?;
    let vacant = entries.lowest_empty(image);
    let at = match (old, vacant) {
        (Some(old), Some(vacant)) => old.min(vacant),
        (one, other) => one.or(other).ok_or(Refusal::number(9))?,
    };
    let gained = old.map_or(0, |at| pages_of_file(size_of(&image[at..at + ENTRY])));
    let free = sound.free + gained;
    if free == 0 || length > free * CONTENT {
        return refuse(10);
    }
    if let Some(old) = old {
        let mut page = usize::from(image[old + START]);
        for _ in 0..gained {
            release(image, page);
            page = usize::from(image[page * PAGE]);
        }
        image[old] = 0;
    }
    let start = allocate(image);
    let entry = &mut image[at..at + ENTRY];
    entry.fill(0);
    entry[0] = OCCUPIED;
    entry[1..=NAME.len()].copy_from_slice(NAME);
    entry[START] = start;
    entry[SIZE..SIZE + 2].copy_from_slice(&(length as u16).to_le_bytes());
    entry[DATE..DATE + DATE_BYTES].copy_from_slice(date);
    lengthen(image, at, 1, pages_of_file(length) - 1);
    put_numbers(image, start.into(), numbers);
    Ok(())
}
