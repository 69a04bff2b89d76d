//! A desk of version 2: what it has of its own.

use super::calls::{Calls, ROW};
use crate::calls::{Answer, Call as Shared};
use crate::desk::{DeskOf, DATE};

pub type Desk<'a> = DeskOf<'a, dyn Calls + 'a>;

impl<'a> Desk<'a> {
    /// A freshly formatted image over old bytes.
    pub fn fresh(calls: &'a dyn Calls, length: usize, code: u64) -> Desk<'a> {
        let mut image = vec![0xE5; length];
        assert_eq!(calls.format(&mut image, code), Answer::granted());
        Desk { calls, image }
    }

    /// The free number of a sound image.
    pub fn free(&self) -> u64 {
        let verdict = self.verdict();
        assert!(verdict.is_granted(), "{verdict}");
        verdict.values[1]
    }

    /// The rows of at most `most` entries from `first` on, and the answer.
    pub fn entries(&self, path: &str, first: u64, most: usize) -> (Answer, Vec<[u8; ROW]>) {
        let mut rows = vec![0x55; most * ROW];
        let path = path.as_bytes();
        let answer = self.calls.entries(&self.image, path, first, &mut rows);
        let told = answer.values[0] as usize;
        let rows = rows.chunks_exact(ROW).take(told);
        let rows = rows.map(|row| row.try_into().expect("a row"));
        (answer, rows.collect())
    }
}

/// A call that makes a file.
pub fn make_file(path: &[u8]) -> Shared {
    Shared::MakeFile(path.to_vec(), DATE.to_vec())
}

/// A call that makes a directory.
pub fn make_directory(path: &[u8]) -> Shared {
    Shared::MakeDirectory(path.to_vec(), DATE.to_vec())
}
