//! The plain implementation: an image is judged and read into a tree, the call
//! is performed on the tree, and what it grants is then written to the bytes.

pub mod reader;
pub mod writer;

use super::calls::{Call, Calls, ROW};
use super::layout::{check_length, layout, Layout};
use crate::calls::{Answer, Base, Kind, Refusal};
use crate::plain::path::parse;
use crate::plain::tree::{Entry, Shape, Tree};
use writer::Writer;

/// The layout of an image of an allowed length with a page code.
pub type Lay = fn(usize, u64) -> Result<Layout, Refusal>;

/// The implementation by way of the tree, with its layout: the papers', unless
/// it is a broken copy.
#[derive(Clone, Copy)]
pub struct Plain {
    pub lay: Lay,
}

/// The implementation by the papers.
pub const PLAIN: Plain = Plain { lay: layout };

impl Plain {
    /// Performs a call on the tree of the image, and if that grants it on the
    /// image.
    fn change(
        &self,
        image: &mut [u8],
        on_tree: impl FnOnce(&mut Tree) -> Result<Answer, Refusal>,
        on_image: impl FnOnce(&mut Writer),
    ) -> Answer {
        let (mut tree, layout) = match reader::judge(image, self.lay) {
            Ok(read) => read,
            Err(refusal) => return Answer::refused(refusal),
        };
        let granted = on_tree(&mut tree);
        if granted.is_ok() {
            on_image(&mut Writer { image, layout });
        }
        granted.into()
    }

    /// What the tree of the image answers.
    fn ask(&self, image: &[u8], question: impl FnOnce(&Tree) -> Result<Answer, Refusal>) -> Answer {
        let read = reader::judge(image, self.lay);
        read.and_then(|(tree, _)| question(&tree)).into()
    }

    fn make(&self, image: &mut [u8], path: &[u8], date: &[u8], kind: Kind) -> Answer {
        self.change(
            image,
            |tree| tree.make(path, date, kind),
            |writer| writer.make(path, date, kind),
        )
    }

    fn remove(&self, image: &mut [u8], path: &[u8], kind: Kind) -> Answer {
        self.change(
            image,
            |tree| tree.remove(path, kind),
            |writer| writer.remove(path),
        )
    }

    fn set_lock(&self, image: &mut [u8], path: &[u8], locked: bool) -> Answer {
        self.change(
            image,
            |tree| tree.set_lock(path, locked),
            |writer| writer.set_lock(path, locked),
        )
    }
}

impl Base for Plain {
    fn verdict(&self, image: &[u8]) -> Answer {
        self.ask(image, |tree| Ok(tree.verdict()))
    }

    fn find(&self, image: &[u8], path: &[u8]) -> Answer {
        self.ask(image, |tree| tree.find(path))
    }

    fn list(&self, image: &[u8], path: &[u8], entry: u64) -> Answer {
        self.ask(image, |tree| tree.list(path, entry))
    }

    fn read(&self, image: &[u8], path: &[u8], position: u64, buffer: &mut [u8]) -> Answer {
        self.ask(image, |tree| tree.read(path, position, buffer))
    }

    fn make_file(&self, image: &mut [u8], path: &[u8], date: &[u8]) -> Answer {
        self.make(image, path, date, Kind::File)
    }

    fn make_directory(&self, image: &mut [u8], path: &[u8], date: &[u8]) -> Answer {
        self.make(image, path, date, Kind::Directory)
    }

    fn write(&self, image: &mut [u8], path: &[u8], position: u64, bytes: &[u8]) -> Answer {
        self.change(
            image,
            |tree| tree.write(path, position, bytes),
            |writer| writer.write(path, position as usize, bytes),
        )
    }

    fn remove_file(&self, image: &mut [u8], path: &[u8]) -> Answer {
        self.remove(image, path, Kind::File)
    }

    fn remove_directory(&self, image: &mut [u8], path: &[u8]) -> Answer {
        self.remove(image, path, Kind::Directory)
    }

    fn lock(&self, image: &mut [u8], path: &[u8]) -> Answer {
        self.set_lock(image, path, true)
    }

    fn unlock(&self, image: &mut [u8], path: &[u8]) -> Answer {
        self.set_lock(image, path, false)
    }
}

impl Calls for Plain {
    fn entries(&self, image: &[u8], path: &[u8], first: u64, rows: &mut [u8]) -> Answer {
        self.ask(image, |tree| entries(tree, path, first, rows))
    }

    fn format(&self, image: &mut [u8], code: u64) -> Answer {
        let laid = check_length(image.len()).and_then(|()| (self.lay)(image.len(), code));
        laid.map(|layout| {
            Writer { image, layout }.format();
            Answer::granted()
        })
        .into()
    }
}

/// Tells the entries of a directory of the tree.
pub(crate) fn entries(
    tree: &Tree,
    path: &[u8],
    first: u64,
    rows: &mut [u8],
) -> Result<Answer, Refusal> {
    let entries = &tree.directory(&parse(path)?)?.entries;
    if first > entries.len() as u64 {
        return Err(Refusal::number(12));
    }
    let mut told = 0;
    for (row, entry) in rows.chunks_exact_mut(ROW).zip(&entries[first as usize..]) {
        row.copy_from_slice(&row_of(entry.as_ref(), &tree.shape));
        told += 1;
    }
    Ok(Answer::entries(told, entries.len() as u64))
}

/// What is told of an entry.
fn row_of(entry: Option<&Entry>, shape: &Shape) -> Vec<u8> {
    let Some(entry) = entry else {
        return vec![0; ROW];
    };
    let (kind, locked) = (entry.node.kind().value(), entry.node.is_locked());
    let size = entry.node.size(shape) as u32;
    [
        &[1, kind as u8, locked.into(), 0],
        &size.to_le_bytes()[..],
        &entry.date,
        &entry.padded_name(),
    ]
    .concat()
}

/// The replay of a list of calls on the tree alone: it sees the tree of the
/// starting image, the image's length and the calls' arguments, and no byte of
/// any later image.
pub struct Replay {
    pub tree: Tree,
    length: usize,
}

impl Replay {
    /// None if the starting image is not sound.
    pub fn of(image: &[u8]) -> Option<Replay> {
        let (tree, _) = reader::judge(image, layout).ok()?;
        let length = image.len();
        Some(Replay { tree, length })
    }

    /// An image of that length right after a granted format.
    pub fn formatted(length: usize, code: u64) -> Result<Replay, Refusal> {
        check_length(length)?;
        let layout = layout(length, code)?;
        let tree = Tree::shaped(layout.pages, layout.shape());
        Ok(Replay { tree, length })
    }

    /// Performs one call on the tree.
    pub fn step(&mut self, call: &mut Call) -> Answer {
        let result = match call {
            Call::Format(code) => Replay::formatted(self.length, *code).map(|fresh| {
                *self = fresh;
                Answer::granted()
            }),
            Call::Entries(path, first, rows) => entries(&self.tree, path, *first, rows),
            Call::Same(call) => self.tree.step(call),
        };
        result.into()
    }
}
