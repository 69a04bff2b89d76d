//! Inputs that are lists of version 2's calls.
//!
//! ```text
//! byte 0   the number of a starting image
//! call     a byte that picks one of `KINDS`, then its arguments
//! path, date, position, length, entry number: see `arguments`
//! ```

use super::pool;
use crate::arguments::{Base, Decoder};
use crate::input::Input;
use zealfs_tests::v2::calls::{Call, ROW};
use zealfs_tests::v2::harness::Scenario;
use zealfs_tests::v2::plain::Replay;

/// What a byte picks a call from.
#[derive(Clone, Copy)]
enum Kind {
    Format,
    Entries,
    Same(Base),
}

const KINDS: [Kind; 20] = [
    Kind::Same(Base::MakeFile),
    Kind::Same(Base::MakeDirectory),
    Kind::Same(Base::Write),
    Kind::Same(Base::RemoveFile),
    Kind::Same(Base::Read),
    Kind::Same(Base::List),
    Kind::Same(Base::Find),
    Kind::Same(Base::Verdict),
    Kind::Format,
    Kind::Entries,
    Kind::Same(Base::MakeFile),
    Kind::Same(Base::MakeDirectory),
    Kind::Same(Base::Write),
    Kind::Same(Base::RemoveDirectory),
    Kind::Same(Base::Read),
    Kind::Same(Base::Write),
    Kind::Entries,
    Kind::Same(Base::Lock),
    Kind::Same(Base::Unlock),
    Kind::Same(Base::MakeFile),
];

pub fn decode(bytes: &[u8]) -> Scenario {
    let mut input = Input::new(bytes);
    let image = pool::image(input.index());
    let replay = Replay::of(&image).expect("the starting images are sound");
    let mut decoder = Decoder { input, replay };
    let calls = decoder.list(Decoder::call, |replay, call| drop(replay.step(call)));
    Scenario { image, calls }
}

impl Decoder<'_, Replay> {
    fn call(&mut self) -> Call {
        match KINDS[self.input.index() % KINDS.len()] {
            Kind::Format => self.format(),
            Kind::Entries => self.entries(),
            Kind::Same(kind) => Call::Same(self.base_call(kind)),
        }
    }

    /// A small code, or one that is small in fewer bits.
    fn format(&mut self) -> Call {
        Call::Format(match self.input.index() {
            byte @ 0..=191 => (byte % 4) as u64,
            byte => self.input.long().wrapping_add((byte % 4) as u64),
        })
    }

    /// Entries from a number on, into room for some of them and a part of one.
    fn entries(&mut self) -> Call {
        let (path, first) = (self.path(), self.entry_number());
        let form = self.input.index();
        let rest = [0, 1, 31, 16][form & 3];
        Call::Entries(path, first, vec![0x55; (form >> 2) * ROW + rest])
    }
}
