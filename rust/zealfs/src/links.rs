//! The link list: the file LINKS of a directory, from accessions to published figures (paper 02 §4). These calls hold the file, and in writing
//! a copy of the image, on the stack: 190,000 bytes of it are enough for any image.
//!
//! ```
//! use zealfs::links::{self, Row};
//! let mut image = vec![0; 2048];
//! zealfs::format(&mut image)?;
//! let date = "2026-11-15".parse().unwrap();
//! let rows = [Row { count: 2, value: 42, figure: 7 }, Row { count: 4, value: 42, figure: 12 }]; // 42 and 0042
//! let numbers: Vec<u64> = rows.iter().flat_map(|row| row.numbers()).collect();
//! links::write(&mut image, "/", date, &numbers)?;
//! assert_eq!(links::find(&image, "/", 4, 42)?, Some(12));
//! let mut read = [0; 30];
//! assert_eq!(links::read(&image, "/", &mut read)?, 2);
//! assert_eq!(read[..6], numbers);
//! assert_eq!(links::check(&image, "/"), Err(zealfs::Refusal::RowWithoutFile { row: 0 }));
//! # Ok::<(), zealfs::Refusal>(())
//! ```

use crate::date::Date;
use crate::refusal::{granted, Answer};
use crate::sys;

/// A row: an accession by its count of digits and their value, and the number of its figure.
#[derive(Clone, Copy, Debug, PartialEq, Eq, PartialOrd, Ord, Hash)]
pub struct Row {
    /// How many digits the accession has, leading zeros among them: 1 to 16.
    pub count: u64,
    /// Those digits as a number, below ten to the count.
    pub value: u64,
    /// The figure's number, below 2^32.
    pub figure: u64,
}

impl Row {
    /// The row as the three numbers of C.
    pub const fn numbers(self) -> [u64; 3] {
        [self.count, self.value, self.figure]
    }

    /// The row of three numbers.
    pub const fn of(numbers: [u64; 3]) -> Self {
        Self { count: numbers[0], value: numbers[1], figure: numbers[2] }
    }
}

/// Reads the list of a directory to the front of the lent numbers, three a row ([`Row::of`]), and answers how many rows.
pub fn read(image: &[u8], directory: impl AsRef<[u8]>, numbers: &mut [u64]) -> Answer<usize> {
    let mut out = [0; 1];
    granted(sys::links::read(image, directory.as_ref(), numbers, &mut out))?;
    Ok(out[0] as usize)
}

/// Writes the list of a directory anew: three numbers a row ([`Row::numbers`]), rising by count and then value.
pub fn write(image: &mut [u8], directory: impl AsRef<[u8]>, date: Date, numbers: &[u64]) -> Answer<()> {
    granted(sys::links::write(image, directory.as_ref(), &date.bytes(), numbers))
}

/// The figure of an accession, or none.
pub fn find(image: &[u8], directory: impl AsRef<[u8]>, count: u64, value: u64) -> Answer<Option<u64>> {
    let mut out = [0; 2];
    granted(sys::links::find(image, directory.as_ref(), count, value, &mut out))?;
    Ok((out[0] == 1).then_some(out[1]))
}

/// Whether every row names a file of the directory by its exact digits.
pub fn check(image: &[u8], directory: impl AsRef<[u8]>) -> Answer<()> {
    granted(sys::links::check(image, directory.as_ref()))
}
