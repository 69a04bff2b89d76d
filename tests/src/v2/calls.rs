//! Version 2's calls on raw bytes: those of the base with both removals and
//! both locks, and one look more. All but format are called as version 1's are.

use crate::calls::{Answer, Base, Call as Shared};

/// Bytes of an entry that [`Calls::entries`] tells.
pub const ROW: usize = 32;

/// An implementation of version 2's calls over a lent image.
pub trait Calls: Base {
    /// Formats with a page code.
    fn format(&self, image: &mut [u8], code: u64) -> Answer;
    /// Tells a directory's entries from number `first` on, in rows of [`ROW`]
    /// bytes: occupied, kind, locked, 0, size in 4 bytes, date, name. The values
    /// are how many were told and how many there are.
    fn entries(&self, image: &[u8], path: &[u8], first: u64, rows: &mut [u8]) -> Answer;
}

/// One call with its arguments.
#[derive(Clone, Debug, PartialEq, Eq)]
pub enum Call {
    /// Format, with a page code.
    Format(u64),
    /// The directory, the number of the first entry, what is lent for the rows.
    Entries(Vec<u8>, u64, Vec<u8>),
    /// A call that has the same arguments in both versions.
    Same(Shared),
}

/// How many calls version 2 has.
pub const CALL_COUNT: usize = 13;

/// The names of the calls, in the order of [`Call::index`]: all but the last are
/// version 1's first.
pub const CALL_NAMES: [&str; CALL_COUNT] = {
    let mut names = ["entries"; CALL_COUNT];
    let mut index = 0;
    while index < CALL_COUNT - 1 {
        names[index] = crate::calls::CALL_NAMES[index];
        index += 1;
    }
    names
};

impl Call {
    /// Which of the calls it is.
    pub fn index(&self) -> usize {
        match self {
            Call::Format(_) => 0,
            Call::Same(call) => call.index(),
            Call::Entries(..) => CALL_COUNT - 1,
        }
    }

    pub fn name(&self) -> &'static str {
        CALL_NAMES[self.index()]
    }

    /// Performs the call with `calls`; a read fills the buffer in `self`, and
    /// entries the rows.
    pub fn perform(&mut self, calls: &dyn Calls, image: &mut [u8]) -> Answer {
        match self {
            Call::Format(code) => calls.format(image, *code),
            Call::Entries(path, first, rows) => calls.entries(image, path, *first, rows),
            Call::Same(call) => call.perform_base(calls, image),
        }
    }
}
