//! The arguments of calls of either version, out of the bytes of an input.
//!
//! ```text
//! path     see `path`: that of an entry that is there, mostly
//! date     see `date`
//! number   see `position`, `length` and `entry_number`
//! ```
//!
//! The tree is replayed while a list is decoded, so that a byte names an entry
//! that is there, the size of a file, or what would fill the image.

use crate::input::Input;
use zealfs_tests::calls::Call;
use zealfs_tests::desk::DATE;
use zealfs_tests::plain::tree::{Shape, Tree};
use zealfs_tests::{plain, v2};

/// Names that are easily confused, and the limits of length and of bytes.
pub const NAMES: [&[u8]; 18] = [
    b"0042",
    b"42",
    b"042",
    b"A",
    b"a",
    b"AB",
    b".",
    b"..",
    b" ",
    b"~",
    b"D",
    b"F",
    b"AAAAAAAAAAAAAAA",
    b"AAAAAAAAAAAAAAAA",
    b"AAAAAAAAAAAAAAAB",
    b"AAAAAAAAAAAAAAAAA",
    b"LINKS",
    b"7",
];

/// Calls that an input may ask for.
const CALLS: usize = 40;

/// The calls that both versions have.
#[derive(Clone, Copy)]
pub enum Base {
    Verdict,
    Find,
    List,
    Read,
    MakeFile,
    MakeDirectory,
    Write,
    RemoveFile,
    RemoveDirectory,
    Lock,
    Unlock,
}

/// The replay of a list on the tree alone.
pub trait Replayed {
    fn tree(&self) -> &Tree;
}

impl Replayed for plain::Replay {
    fn tree(&self) -> &Tree {
        &self.tree
    }
}

impl Replayed for v2::plain::Replay {
    fn tree(&self) -> &Tree {
        &self.tree
    }
}

pub struct Decoder<'a, R> {
    pub input: Input<'a>,
    /// The tree after the calls so far.
    pub replay: R,
}

impl<R: Replayed> Decoder<'_, R> {
    /// The list of calls that the rest of the input means; the tree follows each.
    pub fn list<C: Clone>(&mut self, next: fn(&mut Self) -> C, step: fn(&mut R, &mut C)) -> Vec<C> {
        let mut calls = Vec::new();
        while calls.len() < CALLS && !self.input.is_used_up() {
            let call = next(self);
            step(&mut self.replay, &mut call.clone());
            calls.push(call);
        }
        calls
    }

    pub fn base_call(&mut self, kind: Base) -> Call {
        match kind {
            Base::Verdict => Call::Verdict,
            Base::Find => Call::Find(self.path()),
            Base::List => Call::List(self.path(), self.entry_number()),
            Base::MakeFile => Call::MakeFile(self.path(), self.date()),
            Base::MakeDirectory => Call::MakeDirectory(self.path(), self.date()),
            Base::RemoveFile => Call::RemoveFile(self.path()),
            Base::RemoveDirectory => Call::RemoveDirectory(self.path()),
            Base::Lock => Call::Lock(self.path()),
            Base::Unlock => Call::Unlock(self.path()),
            Base::Read => {
                let (path, position, bytes) = self.stretch();
                Call::Read(path, position, bytes)
            }
            Base::Write => {
                let (path, position, bytes) = self.stretch();
                Call::Write(path, position, bytes)
            }
        }
    }

    pub fn shape(&self) -> Shape {
        self.replay.tree().shape
    }

    /// The most bytes that a call is lent, a little more than fit the image.
    pub fn longest(&self) -> usize {
        self.replay.tree().pages * self.shape().page + 464
    }

    /// The arguments of a read or a write.
    pub fn stretch(&mut self) -> (Vec<u8>, u64, Vec<u8>) {
        let path = self.path();
        let size = self.size_at(&path);
        let position = self.position(size);
        let length = self.length(size, position);
        (path, position, self.content(length))
    }

    /// A byte says how the path is made, its high bits the form:
    /// 0 and 1 the path of an entry that is there, the low three bits saying
    /// what is changed about it; 2 names out of the table; 3 raw bytes.
    pub fn path(&mut self) -> Vec<u8> {
        let form = self.input.byte();
        match form >> 6 {
            0 | 1 => self.entry_path(form),
            2 => self.table_path(form),
            _ => self.input.bytes(usize::from(form & 63)).to_vec(),
        }
    }

    /// The next byte is the entry's number in the order of the listing, the
    /// root's being 0; the numbers go round.
    fn entry_path(&mut self, form: u8) -> Vec<u8> {
        let mut paths = self.replay.tree().paths();
        let number = self.input.index() % (paths.len() + 1);
        let mut path = match number {
            0 => Vec::new(),
            _ => paths.swap_remove(number - 1).0,
        };
        match form & 7 {
            // A name out of the table below it.
            0 | 1 => {
                path.push(b'/');
                path.extend_from_slice(NAMES[self.input.index() % NAMES.len()]);
            }
            // One byte more, one less, a zero before the last name, another
            // last byte.
            4 => path.push(self.input.byte()),
            5 => drop(path.pop()),
            6 => {
                let slash = path.iter().rposition(|&byte| byte == b'/');
                path.insert(slash.map_or(0, |at| at + 1), b'0');
            }
            7 => {
                if let Some(last) = path.last_mut() {
                    *last = self.input.byte();
                }
            }
            // The entry itself.
            _ if path.is_empty() => path.push(b'/'),
            _ => {}
        }
        path
    }

    /// The low three bits are the number of names. With bit 3 the last slash
    /// follows the names, with bit 4 the first one is missing, and with bit 5
    /// all is repeated as often as the next byte says.
    fn table_path(&mut self, form: u8) -> Vec<u8> {
        let mut path = Vec::new();
        for _ in 0..form & 7 {
            path.push(b'/');
            path.extend_from_slice(NAMES[self.input.index() % NAMES.len()]);
        }
        if form & 32 != 0 {
            path = path.repeat(self.input.index());
        }
        if form & 8 != 0 {
            path.push(b'/');
        }
        if form & 16 != 0 && !path.is_empty() {
            path.remove(0);
        }
        path
    }

    /// A good date; one with a byte replaced; eight raw bytes; any number of
    /// raw bytes.
    pub fn date(&mut self) -> Vec<u8> {
        let form = self.input.byte();
        match form & 3 {
            0 => DATE.to_vec(),
            1 => {
                let mut date = DATE;
                date[usize::from(form >> 2 & 7)] = self.input.byte();
                date.to_vec()
            }
            2 => self.input.bytes(DATE.len()).to_vec(),
            _ => self.input.bytes(usize::from(form >> 2)).to_vec(),
        }
    }

    /// The size of the file at the path, 0 if there is none.
    fn size_at(&self, path: &[u8]) -> usize {
        match self.replay.tree().find(path) {
            Ok(found) => found.values[1] as usize,
            Err(_) => 0,
        }
    }

    /// A position at the front, about the size, at the page boundaries, or far
    /// away.
    pub fn position(&mut self, size: usize) -> u64 {
        let form = self.input.byte();
        let number = u64::from(form >> 3);
        let size = size as u64;
        match form & 7 {
            0 => number,
            1 => size,
            2 => size.saturating_sub(number),
            3 => size + number,
            4 => number * self.shape().content as u64,
            5 => self.input.short() as u64,
            6 => self.far(size, form >> 3),
            _ => self.input.long(),
        }
    }

    /// Numbers that become small ones if they are cut to fewer bits, or if a
    /// sum with them wraps.
    fn far(&mut self, near: u64, form: u8) -> u64 {
        let power = 1 << (8 * (form & 7));
        match form >> 3 & 3 {
            0 => power,
            1 => near.wrapping_add(power),
            2 => near.wrapping_sub(power),
            _ => power - 1,
        }
    }

    /// A length that is small, at a page boundary, to the end of the file, or
    /// what fills the image exactly, with one byte more or less.
    pub fn length(&mut self, size: usize, position: u64) -> usize {
        let form = self.input.byte();
        let number = usize::from(form >> 3);
        let position = position as usize;
        let content = self.shape().content;
        let pages = self.shape().pages_of_file(size) + self.replay.tree().free();
        let room = (pages * content).saturating_sub(position);
        let length = match form & 7 {
            0 => number,
            1 => number * content,
            2 => number * content + 1,
            3 => (number * content).saturating_sub(1),
            4 => size.saturating_sub(position) + number,
            5 => room.saturating_sub(number),
            6 => room + number,
            _ => self.input.short(),
        };
        length.min(self.longest())
    }

    /// Bytes that tell their place, or all the same, as the next byte says.
    pub fn content(&mut self, length: usize) -> Vec<u8> {
        let first = self.input.index();
        let step = first & 1;
        (0..length)
            .map(|place| (first + place * step * 7) as u8)
            .collect()
    }

    pub fn entry_number(&mut self) -> u64 {
        let entries = self.shape().page_entries as u64;
        match self.input.byte() {
            form @ 0..=191 => u64::from(form) % (entries + 2),
            form @ 192..=247 => self.far(u64::from(form) % (entries + 1), form),
            _ => self.input.long(),
        }
    }
}
