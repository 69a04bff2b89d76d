//! The link list (document 02 §4) above the calls of any implementation, which
//! are all that it uses: the file LINKS of a directory is found, read, removed,
//! made and written by them. [`crate::plain`] has it on its tree instead.

use crate::calls::{Answer, Calls, Kind, Refusal};
use crate::plain::CONTENT;

/// Bytes of the longest file that an image has.
const LONGEST: usize = 255 * CONTENT;

const NAME: &[u8] = b"LINKS";

/// A row: how many digits, their value, the figure.
type Row = [u64; 3];

/// The path of a name in a directory whose path is good.
fn path_of(directory: &[u8], name: &[u8]) -> Vec<u8> {
    let above = directory.strip_suffix(b"/").unwrap_or(directory);
    [above, b"/", name].concat()
}

/// An answer, or the refusal to hand on.
fn granted(answer: Answer) -> Result<Answer, Answer> {
    match answer.is_granted() {
        true => Ok(answer),
        false => Err(answer),
    }
}

fn refused(number: u8, place: usize) -> Answer {
    Answer::refused(Refusal::at_row(number, place))
}

// Numbers and rows

/// Takes one number off the front: seven bits a byte, the lowest first, and the
/// top bit of all but the last byte. None if it ends too early, has a last byte
/// that says nothing, or is larger than any that a row may have.
fn take_number(bytes: &mut &[u8]) -> Option<u64> {
    let length = 1 + bytes.iter().position(|byte| byte & 0x80 == 0)?;
    let (number, rest) = bytes.split_at(length);
    *bytes = rest;
    let is_shortest = length == 1 || number[length - 1] != 0;
    // Eight bytes of seven bits are 2^56, which is above ten to the sixteenth.
    if !is_shortest || length > 8 {
        return None;
    }
    let join = |value: u64, byte: &u8| value << 7 | u64::from(byte & 0x7F);
    Some(number.iter().rev().fold(0, join))
}

fn put_number(bytes: &mut Vec<u8>, mut number: u64) {
    while number >> 7 != 0 {
        bytes.push(number as u8 | 0x80);
        number >>= 7;
    }
    bytes.push(number as u8);
}

fn is_in_range([count, value, figure]: Row) -> bool {
    let digits = value
        .checked_ilog10()
        .map_or(1, |power| u64::from(power) + 1);
    (1..=16).contains(&count) && digits <= count && figure >> 32 == 0
}

fn take_row(bytes: &mut &[u8]) -> Option<Row> {
    let mut row = [0; 3];
    for number in &mut row {
        *number = take_number(bytes)?;
    }
    is_in_range(row).then_some(row)
}

/// Whether a row may follow those before it.
fn is_above(row: Row, rows: &[Row]) -> bool {
    rows.last().is_none_or(|last| row[..2] > last[..2])
}

/// All rows of a file, or the first bad one.
fn rows_of(file: &[u8]) -> Result<Vec<Row>, Answer> {
    let mut rows = Vec::new();
    let mut rest = file;
    while !rest.is_empty() {
        let begins = file.len() - rest.len();
        let row = take_row(&mut rest).ok_or_else(|| refused(21, begins))?;
        if !is_above(row, &rows) {
            return Err(refused(22, rows.len()));
        }
        rows.push(row);
    }
    Ok(rows)
}

/// The file of a list that is to be written, or the list's first bad row.
fn file_of(numbers: &[u64]) -> Result<Vec<u8>, Answer> {
    let mut rows: Vec<Row> = Vec::new();
    for triple in numbers.chunks_exact(3) {
        let row = [triple[0], triple[1], triple[2]];
        if !is_in_range(row) {
            return Err(refused(21, rows.len()));
        }
        if !is_above(row, &rows) {
            return Err(refused(22, rows.len()));
        }
        rows.push(row);
    }
    let mut file = Vec::new();
    for number in rows.into_iter().flatten() {
        put_number(&mut file, number);
    }
    Ok(file)
}

// The calls

/// The rows of the directory's LINKS. The directory is asked for first, since
/// its path is one of its own.
fn load<C: Calls + ?Sized>(calls: &C, image: &[u8], directory: &[u8]) -> Result<Vec<Row>, Answer> {
    granted(calls.list(image, directory, 0))?;
    let mut file = vec![0; LONGEST];
    let read = granted(calls.read(image, &path_of(directory, NAME), 0, &mut file))?;
    file.truncate(read.values[0] as usize);
    rows_of(&file)
}

pub fn read<C: Calls + ?Sized>(
    calls: &C,
    image: &[u8],
    directory: &[u8],
    numbers: &mut [u64],
) -> Answer {
    let rows = match load(calls, image, directory) {
        Ok(rows) => rows,
        Err(answer) => return answer,
    };
    if rows.len() > numbers.len() / 3 {
        return Answer::refused(Refusal::number(24));
    }
    numbers[..3 * rows.len()].copy_from_slice(rows.as_flattened());
    Answer::count(rows.len() as u64)
}

pub fn find<C: Calls + ?Sized>(
    calls: &C,
    image: &[u8],
    directory: &[u8],
    count: u64,
    value: u64,
) -> Answer {
    match load(calls, image, directory) {
        Ok(rows) => {
            let row = rows.iter().find(|row| row[..2] == [count, value]);
            Answer::figure(row.map(|row| row[2]))
        }
        Err(answer) => answer,
    }
}

pub fn check<C: Calls + ?Sized>(calls: &C, image: &[u8], directory: &[u8]) -> Answer {
    let rows = match load(calls, image, directory) {
        Ok(rows) => rows,
        Err(answer) => return answer,
    };
    let has_file = |&[count, value, _]: &Row| {
        let digits = format!("{value:0width$}", width = count as usize);
        let found = calls.find(image, &path_of(directory, digits.as_bytes()));
        found.is_granted() && found.values[0] == Kind::File.value()
    };
    match rows.iter().position(|row| !has_file(row)) {
        Some(row) => refused(23, row),
        None => Answer::granted(),
    }
}

/// The writing: what it is refused for, in the order of the table, and then a
/// removal, a make and a write on a copy of the image.
pub fn write<C: Calls + ?Sized>(
    calls: &C,
    image: &mut [u8],
    directory: &[u8],
    date: &[u8],
    numbers: &[u64],
) -> Answer {
    let mut copy = image.to_vec();
    match write_copy(calls, &mut copy, directory, date, numbers) {
        Ok(answer) => {
            image.copy_from_slice(&copy);
            answer
        }
        Err(answer) => answer,
    }
}

fn write_copy<C: Calls + ?Sized>(
    calls: &C,
    image: &mut [u8],
    directory: &[u8],
    date: &[u8],
    numbers: &[u64],
) -> Result<Answer, Answer> {
    let listed = calls.list(image, directory, 0);
    // A bad date stands above a missing name and a file on the way.
    if listed.is_granted() || matches!(listed.number, 5 | 6) {
        check_date(calls, image, date)?;
    }
    granted(listed)?;
    let path = path_of(directory, NAME);
    let old = calls.find(image, &path);
    if old.is_granted() && old.values[0] == Kind::Directory.value() {
        return Err(Answer::refused(Refusal::number(7)));
    }
    if old.is_granted() && old.values[2] == 1 {
        return Err(Answer::refused(Refusal::number(25)));
    }
    let file = file_of(numbers)?;
    if old.is_granted() {
        granted(calls.remove_file(image, &path))?;
    }
    granted(calls.make_file(image, &path, date))?;
    granted(calls.write(image, &path, 0, &file))
}

/// Whether the date is good: a make of the root is refused for it, or else
/// because the root is there already.
fn check_date<C: Calls + ?Sized>(calls: &C, image: &mut [u8], date: &[u8]) -> Result<(), Answer> {
    let made = calls.make_file(image, b"/", date);
    match made.number {
        11 => Err(made),
        _ => Ok(()),
    }
}
