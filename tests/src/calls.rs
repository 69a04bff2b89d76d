//! The calls on raw bytes, as a trait, and the form of their answers.

use crate::{above, tidy};
use std::fmt;

/// Bytes of a stored date.
pub const DATE_BYTES: usize = 8;
/// Bytes of a stored name, padding included.
pub const NAME_BYTES: usize = 16;
/// The size that a directory answers.
pub const DIRECTORY_SIZE: u64 = 256;
/// One more than the highest number of the refusal table.
pub const NUMBERS: usize = 30;

/// A number of the refusal table, with its place.
#[derive(Clone, Copy, Debug, PartialEq, Eq)]
pub struct Refusal {
    pub number: u8,
    pub place: [u64; 3],
}

impl Refusal {
    /// A refusal that has no place.
    pub fn number(number: u8) -> Refusal {
        Refusal::at(number, [0; 3])
    }

    /// 5 or 6, with the byte of the path at which the name begins.
    pub fn at_name(number: u8, begins: usize) -> Refusal {
        Refusal::at(number, [begins, 0, 0])
    }

    /// 16: an entry of the directory on that page, which is 0 for the root.
    pub fn at_entry(directory: usize, entry: usize) -> Refusal {
        Refusal::at(16, [directory, entry, 0])
    }

    /// 17: an entry, and how many of its pages passed.
    pub fn at_chain(directory: usize, entry: usize, passed: usize) -> Refusal {
        Refusal::at(17, [directory, entry, passed])
    }

    /// 18, 19 or 20, with the page.
    pub fn at_page(number: u8, page: usize) -> Refusal {
        Refusal::at(number, [page, 0, 0])
    }

    /// 21, with the byte of the file at which the row begins, or in writing with
    /// the row's number; 22 or 23, with the row's number.
    pub fn at_row(number: u8, place: usize) -> Refusal {
        Refusal::at(number, [place, 0, 0])
    }

    fn at(number: u8, place: [usize; 3]) -> Refusal {
        Refusal {
            number,
            place: place.map(|part| part as u64),
        }
    }

    /// Whether it tells that the image is not sound.
    pub fn says_unsound(&self) -> bool {
        matches!(self.number, 3 | 16..=20)
    }
}

/// What an entry is.
#[derive(Clone, Copy, Debug, PartialEq, Eq)]
pub enum Kind {
    File,
    Directory,
}

impl Kind {
    /// The number that stands for the kind in an answer.
    pub fn value(self) -> u64 {
        match self {
            Kind::File => 0,
            Kind::Directory => 1,
        }
    }
}

/// Everything that a call answers, in one form for all calls: what a call has
/// no use for is zero, and so is all of it on a refusal.
#[derive(Clone, Debug, Default, PartialEq, Eq)]
pub struct Answer {
    /// 0 when granted, else the number that says no.
    pub number: u8,
    pub place: [u64; 3],
    /// verdict: pages, free; find: kind, size, locked; list: occupied, kind,
    /// size, locked; read: count; store: the page; links_read: rows; links_find:
    /// found, figure; entries: told, all.
    pub values: [u64; 4],
    pub name: [u8; NAME_BYTES],
    pub date: [u8; DATE_BYTES],
}

impl Answer {
    /// A granted call that has nothing to tell.
    pub fn granted() -> Answer {
        Answer::default()
    }

    pub fn refused(refusal: Refusal) -> Answer {
        Answer {
            number: refusal.number,
            place: refusal.place,
            ..Answer::default()
        }
    }

    pub fn verdict(pages: u64, free: u64) -> Answer {
        Answer {
            values: [pages, free, 0, 0],
            ..Answer::default()
        }
    }

    pub fn found(kind: Kind, size: u64, locked: bool, date: [u8; DATE_BYTES]) -> Answer {
        Answer {
            values: [kind.value(), size, locked.into(), 0],
            date,
            ..Answer::default()
        }
    }

    /// An occupied entry of a directory.
    pub fn occupied(
        kind: Kind,
        name: [u8; NAME_BYTES],
        size: u64,
        locked: bool,
        date: [u8; DATE_BYTES],
    ) -> Answer {
        Answer {
            values: [1, kind.value(), size, locked.into()],
            name,
            date,
            ..Answer::default()
        }
    }

    /// An empty entry of a directory: nothing of it is told.
    pub fn empty_entry() -> Answer {
        Answer::default()
    }

    /// The number of bytes that a read copied.
    pub fn count(count: u64) -> Answer {
        Answer {
            values: [count, 0, 0, 0],
            ..Answer::default()
        }
    }

    /// How many entries of a directory were told, and how many it has.
    pub fn entries(told: u64, all: u64) -> Answer {
        Answer {
            values: [told, all, 0, 0],
            ..Answer::default()
        }
    }

    /// The figure of an accession, or that the link list has none.
    pub fn figure(figure: Option<u64>) -> Answer {
        Answer {
            values: [figure.is_some().into(), figure.unwrap_or(0), 0, 0],
            ..Answer::default()
        }
    }

    /// The page that a store is for.
    pub fn page(page: u64) -> Answer {
        Answer {
            values: [page, 0, 0, 0],
            ..Answer::default()
        }
    }

    pub fn is_granted(&self) -> bool {
        self.number == 0
    }
}

impl From<Result<Answer, Refusal>> for Answer {
    fn from(result: Result<Answer, Refusal>) -> Answer {
        result.unwrap_or_else(Answer::refused)
    }
}

impl fmt::Display for Answer {
    /// Short, and complete: what is zero is left out.
    fn fmt(&self, out: &mut fmt::Formatter) -> fmt::Result {
        match self.number {
            0 => write!(out, "granted")?,
            number => write!(out, "refused {number}")?,
        }
        if self.place != [0; 3] {
            write!(out, ", place {:?}", self.place)?;
        }
        if self.values != [0; 4] {
            write!(out, ", values {:?}", self.values)?;
        }
        if self.name != [0; NAME_BYTES] {
            write!(out, ", name \"{}\"", self.name.escape_ascii())?;
        }
        if self.date != [0; DATE_BYTES] {
            write!(out, ", date {:02X?}", self.date)?;
        }
        Ok(())
    }
}

/// How many pages the second judge's row has.
pub const OWNERS: usize = 256;

/// What the second judge says.
#[derive(Clone, Debug, PartialEq, Eq)]
pub struct Audit {
    /// 1 for sound, 0 for no.
    pub sound: u64,
    /// Who owns each page: 0 nobody, 1 the header, else where in the image the
    /// owner's entry begins.
    pub owners: [u64; OWNERS],
}

impl Audit {
    /// No: the row names nobody, not even the header.
    pub fn no() -> Audit {
        Audit {
            sound: 0,
            owners: [0; OWNERS],
        }
    }

    /// The image is sound, and these are the owners.
    pub fn sound(owners: [u64; OWNERS]) -> Audit {
        Audit { sound: 1, owners }
    }
}

/// The calls that have the same arguments in both versions, over a lent image.
pub trait Base {
    fn verdict(&self, image: &[u8]) -> Answer;
    fn find(&self, image: &[u8], path: &[u8]) -> Answer;
    fn list(&self, image: &[u8], path: &[u8], entry: u64) -> Answer;
    fn read(&self, image: &[u8], path: &[u8], position: u64, buffer: &mut [u8]) -> Answer;
    fn make_file(&self, image: &mut [u8], path: &[u8], date: &[u8]) -> Answer;
    fn make_directory(&self, image: &mut [u8], path: &[u8], date: &[u8]) -> Answer;
    fn write(&self, image: &mut [u8], path: &[u8], position: u64, bytes: &[u8]) -> Answer;
    fn remove_file(&self, image: &mut [u8], path: &[u8]) -> Answer;
    fn remove_directory(&self, image: &mut [u8], path: &[u8]) -> Answer;
    fn lock(&self, image: &mut [u8], path: &[u8]) -> Answer;
    fn unlock(&self, image: &mut [u8], path: &[u8]) -> Answer;
}

/// An implementation of version 1's calls.
pub trait Calls: Base {
    fn format(&self, image: &mut [u8]) -> Answer;
    /// The store of that number of a new file with this content (02 §11).
    fn store(
        &self,
        image: &[u8],
        path: &[u8],
        date: &[u8],
        content: &[u8],
        number: u64,
        page: &mut [u8],
    ) -> Answer;
    fn repair(&self, image: &mut [u8]) -> Answer;
    fn audit(&self, image: &[u8]) -> Audit;

    /// Tidy pages has one second implementation; the library has its own.
    fn propose(&self, image: &[u8], places: &mut [u8]) -> Answer {
        tidy::propose(image, places)
    }
    fn tidy(&self, image: &[u8], places: &[u8], target: &mut [u8]) -> Answer {
        tidy::tidy(image, places, target)
    }

    /// The link list (02 §4) is above the base and uses only its calls: so it is
    /// for an implementation that has no other. Three numbers are a row.
    fn links_read(&self, image: &[u8], directory: &[u8], numbers: &mut [u64]) -> Answer {
        above::read(self, image, directory, numbers)
    }
    fn links_write(
        &self,
        image: &mut [u8],
        directory: &[u8],
        date: &[u8],
        numbers: &[u64],
    ) -> Answer {
        above::write(self, image, directory, date, numbers)
    }
    fn links_find(&self, image: &[u8], directory: &[u8], count: u64, value: u64) -> Answer {
        above::find(self, image, directory, count, value)
    }
    fn links_check(&self, image: &[u8], directory: &[u8]) -> Answer {
        above::check(self, image, directory)
    }
}

/// One call with its arguments. The last bytes of a read and of a store are
/// what the lent buffer holds beforehand, and so are the numbers of a reading
/// of links.
#[derive(Clone, Debug, PartialEq, Eq)]
pub enum Call {
    Format,
    Verdict,
    Find(Vec<u8>),
    List(Vec<u8>, u64),
    Read(Vec<u8>, u64, Vec<u8>),
    MakeFile(Vec<u8>, Vec<u8>),
    MakeDirectory(Vec<u8>, Vec<u8>),
    Write(Vec<u8>, u64, Vec<u8>),
    RemoveFile(Vec<u8>),
    RemoveDirectory(Vec<u8>),
    Lock(Vec<u8>),
    Unlock(Vec<u8>),
    /// Path, date, content, the store's number, the lent page.
    Store(Vec<u8>, Vec<u8>, Vec<u8>, u64, Vec<u8>),
    /// The directory, the lent numbers.
    LinksRead(Vec<u8>, Vec<u64>),
    /// The directory, the date, the numbers.
    LinksWrite(Vec<u8>, Vec<u8>, Vec<u64>),
    /// The directory, the accession's count of digits, and their value.
    LinksFind(Vec<u8>, u64, u64),
    LinksCheck(Vec<u8>),
    /// No call of the lists: they start afresh from its result.
    Repair,
}

/// How many calls there are that lists are made of; they come first.
pub const CALL_COUNT: usize = 17;
/// How many there are with those that stand outside the lists.
pub const EVERY_CALL: usize = CALL_COUNT + 1;

/// The names of the calls, in the order of [`Call::index`].
pub const CALL_NAMES: [&str; EVERY_CALL] = [
    "format",
    "verdict",
    "find",
    "list",
    "read",
    "make_file",
    "make_directory",
    "write",
    "remove_file",
    "remove_directory",
    "lock",
    "unlock",
    "store",
    "links_read",
    "links_write",
    "links_find",
    "links_check",
    "repair",
];

impl Call {
    /// Which of the calls it is.
    pub fn index(&self) -> usize {
        match self {
            Call::Format => 0,
            Call::Verdict => 1,
            Call::Find(..) => 2,
            Call::List(..) => 3,
            Call::Read(..) => 4,
            Call::MakeFile(..) => 5,
            Call::MakeDirectory(..) => 6,
            Call::Write(..) => 7,
            Call::RemoveFile(..) => 8,
            Call::RemoveDirectory(..) => 9,
            Call::Lock(..) => 10,
            Call::Unlock(..) => 11,
            Call::Store(..) => 12,
            Call::LinksRead(..) => 13,
            Call::LinksWrite(..) => 14,
            Call::LinksFind(..) => 15,
            Call::LinksCheck(..) => 16,
            Call::Repair => 17,
        }
    }

    pub fn name(&self) -> &'static str {
        CALL_NAMES[self.index()]
    }

    /// Performs the call with `calls`; a read and a store fill the buffer in
    /// `self`, and a reading of links the numbers.
    pub fn perform(&mut self, calls: &dyn Calls, image: &mut [u8]) -> Answer {
        match self {
            Call::Format => calls.format(image),
            Call::Verdict => calls.verdict(image),
            Call::Find(path) => calls.find(image, path),
            Call::List(path, entry) => calls.list(image, path, *entry),
            Call::Read(path, position, buffer) => calls.read(image, path, *position, buffer),
            Call::MakeFile(path, date) => calls.make_file(image, path, date),
            Call::MakeDirectory(path, date) => calls.make_directory(image, path, date),
            Call::Write(path, position, bytes) => calls.write(image, path, *position, bytes),
            Call::RemoveFile(path) => calls.remove_file(image, path),
            Call::RemoveDirectory(path) => calls.remove_directory(image, path),
            Call::Lock(path) => calls.lock(image, path),
            Call::Unlock(path) => calls.unlock(image, path),
            Call::Store(path, date, content, number, page) => {
                calls.store(image, path, date, content, *number, page)
            }
            Call::LinksRead(directory, numbers) => calls.links_read(image, directory, numbers),
            Call::LinksWrite(directory, date, numbers) => {
                calls.links_write(image, directory, date, numbers)
            }
            Call::LinksFind(directory, count, value) => {
                calls.links_find(image, directory, *count, *value)
            }
            Call::LinksCheck(directory) => calls.links_check(image, directory),
            Call::Repair => calls.repair(image),
        }
    }

    /// The same of a call that both versions have, for version 2. One way more to
    /// choose a call would show in version 1's counts.
    pub(crate) fn perform_base(&mut self, calls: &dyn Base, image: &mut [u8]) -> Answer {
        match self {
            Call::Verdict => calls.verdict(image),
            Call::Find(path) => calls.find(image, path),
            Call::List(path, entry) => calls.list(image, path, *entry),
            Call::Read(path, position, buffer) => calls.read(image, path, *position, buffer),
            Call::MakeFile(path, date) => calls.make_file(image, path, date),
            Call::MakeDirectory(path, date) => calls.make_directory(image, path, date),
            Call::Write(path, position, bytes) => calls.write(image, path, *position, bytes),
            Call::RemoveFile(path) => calls.remove_file(image, path),
            Call::RemoveDirectory(path) => calls.remove_directory(image, path),
            Call::Lock(path) => calls.lock(image, path),
            Call::Unlock(path) => calls.unlock(image, path),
            _ => unreachable!("{} is version 1's alone", self.name()),
        }
    }
}
