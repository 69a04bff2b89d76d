//! Inputs that are lists of calls.
//!
//! ```text
//! byte 0   the number of a starting image
//! call     a byte that picks one of `KINDS`, then its arguments
//! path, date, position, length, entry number: see `arguments`
//! rows     see `numbers` and `row`
//! ```

use crate::arguments::{Base, Decoder};
use crate::input::Input;
use crate::pool;
use zealfs_tests::calls::Call;
use zealfs_tests::harness::Scenario;
use zealfs_tests::plain::links::{file_of, Row};
use zealfs_tests::plain::{pages_of_file, Replay, CONTENT, PAGE};
use zealfs_tests::rows::{numbers_of, rows_filling, sorted};

/// What a byte picks a call from.
#[derive(Clone, Copy)]
enum Kind {
    Format,
    Same(Base),
    Store,
    LinksRead,
    LinksWrite,
    LinksFind,
    LinksCheck,
    LinksBytes,
}

const KINDS: [Kind; 26] = [
    Kind::Same(Base::MakeFile),
    Kind::Same(Base::MakeDirectory),
    Kind::Same(Base::Write),
    Kind::Same(Base::RemoveFile),
    Kind::Same(Base::Read),
    Kind::Same(Base::List),
    Kind::Same(Base::Find),
    Kind::Same(Base::Verdict),
    Kind::Format,
    Kind::Same(Base::MakeFile),
    Kind::Same(Base::MakeDirectory),
    Kind::Same(Base::Write),
    Kind::Same(Base::RemoveDirectory),
    Kind::Same(Base::Read),
    Kind::Same(Base::Write),
    Kind::Same(Base::List),
    Kind::Same(Base::Lock),
    Kind::Same(Base::Unlock),
    Kind::Store,
    Kind::Store,
    Kind::LinksWrite,
    Kind::LinksRead,
    Kind::LinksFind,
    Kind::LinksCheck,
    Kind::LinksBytes,
    Kind::LinksWrite,
];

pub fn decode(bytes: &[u8]) -> Scenario {
    let mut input = Input::new(bytes);
    let image = pool::image(input.index());
    let replay = Replay::of(&image).expect("the starting images are sound");
    let mut decoder = Decoder { input, replay };
    let calls = decoder.list(Decoder::call, |replay, call| drop(replay.step(call)));
    Scenario { image, calls }
}

impl Decoder<'_, Replay> {
    fn call(&mut self) -> Call {
        match KINDS[self.input.index() % KINDS.len()] {
            Kind::Format => Call::Format,
            Kind::Same(kind) => self.base_call(kind),
            Kind::Store => self.store(),
            Kind::LinksRead => self.links_read(),
            Kind::LinksWrite => {
                let (directory, date) = (self.path(), self.date());
                Call::LinksWrite(directory, date, self.numbers())
            }
            Kind::LinksFind => {
                let row = self.row();
                Call::LinksFind(self.path(), row.count, row.value)
            }
            Kind::LinksCheck => Call::LinksCheck(self.path()),
            Kind::LinksBytes => self.links_bytes(),
        }
    }

    /// A new file's path and content, a store's number, mostly one that is there,
    /// and a buffer that mostly is a page.
    fn store(&mut self) -> Call {
        let (path, date) = (self.path(), self.date());
        let length = self.length(0, 0);
        let content = self.content(length);
        let past = pages_of_file(length) + 2;
        let number = match self.input.index() {
            255 => u64::MAX,
            byte => (byte % (past + 1)) as u64,
        };
        let room = match self.input.index() {
            byte @ 0..8 => 252 + byte,
            255 => 0,
            _ => PAGE,
        };
        Call::Store(path, date, content, number, vec![0x55; room])
    }

    /// A list with about as much room as the directory's own list needs.
    fn links_read(&mut self) -> Call {
        let directory = self.path();
        let rows = self.replay.tree.link_rows(&directory).unwrap_or_default();
        let room = match self.input.index() {
            byte @ 0..8 => (3 * rows.len() + byte).saturating_sub(4),
            byte => byte % 40,
        };
        Call::LinksRead(directory, vec![0x55; room])
    }

    /// A list to be written, most often one that may be: a byte says how many
    /// rows, and its high bits what is changed about them.
    fn numbers(&mut self) -> Vec<u64> {
        let form = self.input.byte();
        if form == 255 {
            // As many as fill the image, or a byte more or less.
            let room = (pages_of_file(0) + self.replay.tree.free()) * CONTENT;
            let length = (room + self.input.index() % 8).saturating_sub(4);
            return numbers_of(&rows_filling(length.min(self.longest())));
        }
        let rows: Vec<Row> = (0..form & 7).map(|_| self.row()).collect();
        let mut numbers = match form >> 3 & 3 {
            // As they come.
            0 => numbers_of(&rows),
            _ => numbers_of(&sorted(rows)),
        };
        if form & 0x20 != 0 {
            numbers.extend_from_slice(&[7, 7][..usize::from(form >> 6 & 1) + 1]);
        }
        numbers
    }

    /// A row: mostly of few digits that a name in the table has, else near the
    /// limits of its numbers, else raw.
    fn row(&mut self) -> Row {
        let form = self.input.byte();
        let count = u64::from(form & 15) + 1;
        let limit = 10_u64.pow(count as u32);
        let (value, figure) = match form >> 4 {
            0..8 => (u64::from(self.input.byte()) % limit, u64::from(form)),
            8 => (limit - 1, (1 << 32) - 1),
            9 => (limit, 1),
            10 => (42 % limit, 1 << 32),
            11 => (self.input.short() as u64 % limit, self.input.short() as u64),
            12 => (limit - 1 - u64::from(self.input.byte()) % limit, 127),
            13 => (7 % limit, 128 << (7 * (self.input.byte() % 4))),
            _ => {
                return Row {
                    count: self.input.long(),
                    value: self.input.long(),
                    figure: self.input.long(),
                }
            }
        };
        Row {
            count,
            value,
            figure,
        }
    }

    /// Bytes for a list's file, written over what it holds: those of rows, with
    /// some changed, or raw ones.
    fn links_bytes(&mut self) -> Call {
        let directory = self.path();
        let form = self.input.byte();
        let mut bytes = match form & 1 {
            0 => {
                let rows: Vec<Row> = (0..form >> 1 & 3).map(|_| self.row()).collect();
                match form >> 3 & 1 {
                    0 => file_of(&rows),
                    _ => file_of(&sorted(rows)),
                }
            }
            _ => self.input.bytes(usize::from(form >> 1 & 31)).to_vec(),
        };
        if form & 0x40 != 0 && !bytes.is_empty() {
            let at = self.input.index() % bytes.len();
            let with = self.input.byte();
            match form >> 7 {
                0 => bytes[at] = with,
                // A group more than is needed.
                _ => {
                    bytes[at] |= 0x80;
                    bytes.insert(at + 1, with & 1);
                }
            }
        }
        let above = directory.strip_suffix(b"/").unwrap_or(&directory);
        Call::Write([above, b"/LINKS"].concat(), 0, bytes)
    }
}
