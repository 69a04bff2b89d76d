//! The link list (document 02 §4) on the tree: the file LINKS of a directory,
//! from accessions to figures.

use super::path::{good_date, parse, Name};
use super::tree::{Directory, Entry, File, Node, Tree};
use super::{pages_of_file, VERSION_1};
use crate::calls::{Answer, Refusal};

const NAME: &[u8] = b"LINKS";

/// A row of the list.
#[derive(Clone, Copy, Debug, PartialEq, Eq)]
pub struct Row {
    /// How many digits the accession has.
    pub count: u64,
    /// The digits as a whole number.
    pub value: u64,
    pub figure: u64,
}

impl Row {
    pub fn of(numbers: &[u64]) -> Row {
        Row {
            count: numbers[0],
            value: numbers[1],
            figure: numbers[2],
        }
    }

    pub fn numbers(self) -> [u64; 3] {
        [self.count, self.value, self.figure]
    }

    pub fn is_in_range(self) -> bool {
        (1..=16).contains(&self.count)
            && self.value < 10_u64.pow(self.count as u32)
            && self.figure < 1 << 32
    }

    /// Rows rise by count, then by value.
    fn is_above(self, other: Row) -> bool {
        match self.count == other.count {
            true => self.value > other.value,
            false => self.count > other.count,
        }
    }

    /// The accession's digits, with the zeros at their front.
    pub fn accession(self) -> Vec<u8> {
        let digit = |place: u64| b'0' + (self.value / 10_u64.pow(place as u32) % 10) as u8;
        (0..self.count).rev().map(digit).collect()
    }
}

/// Puts the bytes of a number: groups of seven bits, the lowest first.
pub fn put_number(bytes: &mut Vec<u8>, number: u64) {
    let mut rest = number;
    while rest >= 128 {
        bytes.push(128 + (rest % 128) as u8);
        rest /= 128;
    }
    bytes.push(rest as u8);
}

/// The file of these rows.
pub fn file_of(rows: &[Row]) -> Vec<u8> {
    let mut file = Vec::new();
    for number in rows.iter().flat_map(|row| row.numbers()) {
        put_number(&mut file, number);
    }
    file
}

/// The number at the front of the bytes and how many it takes; None if there is
/// none, or if it has more groups than it needs. It is told as `u64::MAX` if it
/// is larger, which is out of every range.
fn number_at(bytes: &[u8]) -> Option<(u64, usize)> {
    let mut number: u64 = 0;
    let mut weight: u64 = 1;
    for (at, &byte) in bytes.iter().enumerate() {
        let group = u64::from(byte % 128);
        number = number.saturating_add(group.saturating_mul(weight));
        weight = weight.saturating_mul(128);
        if byte < 128 {
            let is_shortest = at == 0 || byte != 0;
            return is_shortest.then_some((number, at + 1));
        }
    }
    None
}

/// The row at the front of the bytes, its numbers in range, and how many bytes
/// it takes.
fn row_at(bytes: &[u8]) -> Option<(Row, usize)> {
    let (count, first) = number_at(bytes)?;
    let (value, second) = number_at(&bytes[first..])?;
    let (figure, third) = number_at(&bytes[first + second..])?;
    let row = Row {
        count,
        value,
        figure,
    };
    row.is_in_range().then_some((row, first + second + third))
}

/// The rows of a file; or 21 with the byte, or 22 with the row.
pub fn rows_of(file: &[u8]) -> Result<Vec<Row>, Refusal> {
    let mut rows: Vec<Row> = Vec::new();
    let mut at = 0;
    while at < file.len() {
        let (row, length) = row_at(&file[at..]).ok_or(Refusal::at_row(21, at))?;
        check_above(row, &rows)?;
        rows.push(row);
        at += length;
    }
    Ok(rows)
}

/// The rows that numbers stand for, three a row, if they may be written; or 21
/// or 22 with the row.
pub fn rows_to_write(numbers: &[u64]) -> Result<Vec<Row>, Refusal> {
    let mut rows = Vec::new();
    for row in numbers.chunks_exact(3).map(Row::of) {
        if !row.is_in_range() {
            return Err(Refusal::at_row(21, rows.len()));
        }
        check_above(row, &rows)?;
        rows.push(row);
    }
    Ok(rows)
}

/// Refuses a row that is not above the last of those before it.
fn check_above(row: Row, before: &[Row]) -> Result<(), Refusal> {
    match before.last() {
        Some(&last) if !row.is_above(last) => Err(Refusal::at_row(22, before.len())),
        _ => Ok(()),
    }
}

/// The path of the directory's list.
pub fn path_in(directory: &[u8]) -> Vec<u8> {
    match directory {
        b"/" => b"/LINKS".to_vec(),
        _ => [directory, b"/LINKS"].concat(),
    }
}

/// The name LINKS, where it stands in that path.
fn name_in(directory: &[u8]) -> Name<'static> {
    Name {
        begins: path_in(directory).len() - NAME.len(),
        bytes: NAME,
    }
}

impl Tree {
    /// The directory and the rows of its list, the whole of which is judged.
    fn links(&self, path: &[u8]) -> Result<(&Directory, Vec<Row>), Refusal> {
        let directory = self.directory(&parse(path)?)?;
        let rows = match &directory.entry(name_in(path))?.node {
            Node::File(file) => rows_of(&file.content)?,
            Node::Directory(_) => return Err(Refusal::number(7)),
        };
        Ok((directory, rows))
    }

    /// The rows of a directory's list.
    pub fn link_rows(&self, path: &[u8]) -> Result<Vec<Row>, Refusal> {
        self.links(path).map(|(_, rows)| rows)
    }

    /// Reads the rows to the front of the numbers.
    pub fn links_read(&self, path: &[u8], numbers: &mut [u64]) -> Result<Answer, Refusal> {
        let rows = self.link_rows(path)?;
        if numbers.len() / 3 < rows.len() {
            return Err(Refusal::number(24));
        }
        for (triple, row) in numbers.chunks_exact_mut(3).zip(&rows) {
            triple.copy_from_slice(&row.numbers());
        }
        Ok(Answer::count(rows.len() as u64))
    }

    /// The figure of an accession, or none.
    pub fn links_find(&self, path: &[u8], count: u64, value: u64) -> Result<Answer, Refusal> {
        let rows = self.link_rows(path)?;
        let is_asked = |row: &&Row| row.count == count && row.value == value;
        let figure = rows.iter().find(is_asked).map(|row| row.figure);
        Ok(Answer::figure(figure))
    }

    /// Whether every row names a file of the directory.
    pub fn links_check(&self, path: &[u8]) -> Result<Answer, Refusal> {
        let (directory, rows) = self.links(path)?;
        for (number, row) in rows.iter().enumerate() {
            let named = |entry: &&Entry| entry.name == row.accession();
            match directory.occupied().find(named).map(|entry| &entry.node) {
                Some(Node::File(_)) => {}
                _ => return Err(Refusal::at_row(23, number)),
            }
        }
        Ok(Answer::granted())
    }

    /// Writes the list anew: the old file goes, and the new one takes the lowest
    /// entry that is then empty.
    pub fn links_write(
        &mut self,
        path: &[u8],
        date: &[u8],
        numbers: &[u64],
    ) -> Result<Answer, Refusal> {
        let names = parse(path)?;
        let date = good_date(date)?;
        let mut free = self.free();
        let directory = self.directory_mut(&names)?;
        let old = directory.position(NAME);
        let mut entries = directory.entries.clone();
        if let Some(old) = old.and_then(|position| entries[position].take()) {
            match &old.node {
                Node::Directory(_) => return Err(Refusal::number(7)),
                Node::File(file) => file.check_unlocked()?,
            }
            free += old.node.pages(&VERSION_1);
        }
        let content = file_of(&rows_to_write(numbers)?);
        let lowest_empty = entries.iter().position(Option::is_none);
        let position = lowest_empty.ok_or(Refusal::number(9))?;
        if pages_of_file(content.len()) > free {
            return Err(Refusal::number(10));
        }
        let file = File {
            content,
            locked: false,
        };
        entries[position] = Some(Entry {
            name: NAME.to_vec(),
            date,
            node: Node::File(file),
        });
        directory.entries = entries;
        Ok(Answer::granted())
    }
}
