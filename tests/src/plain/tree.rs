//! The plain tree and the calls on it. It knows N but no page numbers. Trees of
//! both versions are here; in what they differ is said by [`Shape`].

use super::path::{good_date, parse, Name};
use super::VERSION_1;
use crate::calls::{Answer, Call, Kind, Refusal, DATE_BYTES, NAME_BYTES};

/// The numbers that a version, and in version 2 the page code, gives a tree.
#[derive(Clone, Copy, Debug, PartialEq, Eq)]
pub struct Shape {
    /// The header page, and the pages of a table of links.
    pub aside: usize,
    /// Bytes of a page, which is the size that a directory answers.
    pub page: usize,
    /// Bytes of content that a page of a file carries.
    pub content: usize,
    /// Entries of the root, before it grows.
    pub root_entries: usize,
    /// Entries of a page of any directory.
    pub page_entries: usize,
    /// Whether a directory without an empty entry gets a page more (02 §12).
    pub grows: bool,
}

impl Shape {
    /// The pages that a file of `size` bytes has; an empty one has a page too.
    pub const fn pages_of_file(&self, size: usize) -> usize {
        match size {
            0 => 1,
            _ => size.div_ceil(self.content),
        }
    }
}

/// What a sound image means.
#[derive(Clone, Debug, PartialEq, Eq)]
pub struct Tree {
    /// N, with the header page.
    pub pages: usize,
    pub shape: Shape,
    pub root: Directory,
}

/// A directory: its row of entries, empty ones included.
#[derive(Clone, Debug, PartialEq, Eq)]
pub struct Directory {
    pub entries: Vec<Option<Entry>>,
}

#[derive(Clone, Debug, PartialEq, Eq)]
pub struct Entry {
    /// Without padding.
    pub name: Vec<u8>,
    pub date: [u8; DATE_BYTES],
    pub node: Node,
}

#[derive(Clone, Debug, PartialEq, Eq)]
pub enum Node {
    File(File),
    Directory(Directory),
}

/// A file. A locked one is neither written nor removed.
#[derive(Clone, Debug, Default, PartialEq, Eq)]
pub struct File {
    pub content: Vec<u8>,
    pub locked: bool,
}

impl File {
    /// Refuses what would alter a locked file.
    pub(super) fn check_unlocked(&self) -> Result<(), Refusal> {
        if self.locked {
            return Err(Refusal::number(25));
        }
        Ok(())
    }
}

impl Directory {
    pub fn empty(entries: usize) -> Directory {
        Directory {
            entries: vec![None; entries],
        }
    }

    /// The occupied entries, in order.
    pub fn occupied(&self) -> impl Iterator<Item = &Entry> {
        self.entries.iter().flatten()
    }

    /// The number of the entry of that name.
    pub(super) fn position(&self, name: &[u8]) -> Option<usize> {
        let named = |entry: &Option<Entry>| entry.as_ref().is_some_and(|entry| entry.name == name);
        self.entries.iter().position(named)
    }

    pub(super) fn entry(&self, name: Name) -> Result<&Entry, Refusal> {
        let missing = Refusal::at_name(5, name.begins);
        let position = self.position(name.bytes).ok_or(missing)?;
        self.entries[position].as_ref().ok_or(missing)
    }

    fn entry_mut(&mut self, name: Name) -> Result<&mut Entry, Refusal> {
        let missing = Refusal::at_name(5, name.begins);
        let position = self.position(name.bytes).ok_or(missing)?;
        self.entries[position].as_mut().ok_or(missing)
    }

    /// The pages that everything in the directory needs, without its own.
    fn pages_below(&self, shape: &Shape) -> usize {
        self.occupied().map(|entry| entry.node.pages(shape)).sum()
    }
}

impl Entry {
    /// The 16 name bytes.
    pub fn padded_name(&self) -> [u8; NAME_BYTES] {
        let mut padded = [0; NAME_BYTES];
        padded[..self.name.len()].copy_from_slice(&self.name);
        padded
    }
}

impl Node {
    pub fn kind(&self) -> Kind {
        match self {
            Node::File(_) => Kind::File,
            Node::Directory(_) => Kind::Directory,
        }
    }

    /// The size that is told of it; a directory's is that of a page.
    pub fn size(&self, shape: &Shape) -> u64 {
        match self {
            Node::File(file) => file.content.len() as u64,
            Node::Directory(_) => shape.page as u64,
        }
    }

    /// A directory has no lock.
    pub fn is_locked(&self) -> bool {
        matches!(self, Node::File(file) if file.locked)
    }

    /// The pages that the node and all below it need.
    pub fn pages(&self, shape: &Shape) -> usize {
        match self {
            Node::File(file) => shape.pages_of_file(file.content.len()),
            Node::Directory(directory) => {
                directory.entries.len() / shape.page_entries + directory.pages_below(shape)
            }
        }
    }
}

impl Tree {
    /// A tree of version 1 that holds nothing.
    pub fn empty(pages: usize) -> Tree {
        Tree::shaped(pages, VERSION_1)
    }

    /// A tree of that shape that holds nothing.
    pub fn shaped(pages: usize, shape: Shape) -> Tree {
        Tree {
            pages,
            shape,
            root: Directory::empty(shape.root_entries),
        }
    }

    /// The free number.
    pub fn free(&self) -> usize {
        let shape = &self.shape;
        // Those that the root has beside the header page.
        let pages_of_root = (self.root.entries.len() - shape.root_entries) / shape.page_entries;
        self.pages - shape.aside - pages_of_root - self.root.pages_below(shape)
    }

    /// The directory at the end of the walk over all `names`.
    pub(crate) fn directory(&self, names: &[Name]) -> Result<&Directory, Refusal> {
        let mut directory = &self.root;
        for &name in names {
            directory = match &directory.entry(name)?.node {
                Node::Directory(below) => below,
                Node::File(_) => return Err(Refusal::at_name(6, name.begins)),
            };
        }
        Ok(directory)
    }

    pub(crate) fn directory_mut(&mut self, names: &[Name]) -> Result<&mut Directory, Refusal> {
        let mut directory = &mut self.root;
        for &name in names {
            directory = match &mut directory.entry_mut(name)?.node {
                Node::Directory(below) => below,
                Node::File(_) => return Err(Refusal::at_name(6, name.begins)),
            };
        }
        Ok(directory)
    }

    pub fn verdict(&self) -> Answer {
        Answer::verdict(self.pages as u64, self.free() as u64)
    }

    pub fn find(&self, path: &[u8]) -> Result<Answer, Refusal> {
        let names = parse(path)?;
        let Some((&last, parents)) = names.split_last() else {
            let no_date = [0; DATE_BYTES];
            return Ok(Answer::found(
                Kind::Directory,
                self.shape.page as u64,
                false,
                no_date,
            ));
        };
        let entry = self.directory(parents)?.entry(last)?;
        let node = &entry.node;
        Ok(Answer::found(
            node.kind(),
            node.size(&self.shape),
            node.is_locked(),
            entry.date,
        ))
    }

    pub fn list(&self, path: &[u8], entry: u64) -> Result<Answer, Refusal> {
        let directory = self.directory(&parse(path)?)?;
        let past_the_last = entry >= directory.entries.len() as u64;
        if past_the_last {
            return Err(Refusal::number(12));
        }
        Ok(match &directory.entries[entry as usize] {
            None => Answer::empty_entry(),
            Some(entry) => Answer::occupied(
                entry.node.kind(),
                entry.padded_name(),
                entry.node.size(&self.shape),
                entry.node.is_locked(),
                entry.date,
            ),
        })
    }

    /// The file at the end of the walk.
    fn file(&self, path: &[u8]) -> Result<&File, Refusal> {
        let names = parse(path)?;
        let is_directory = Refusal::number(7);
        let (&last, parents) = names.split_last().ok_or(is_directory)?;
        match &self.directory(parents)?.entry(last)?.node {
            Node::File(file) => Ok(file),
            Node::Directory(_) => Err(is_directory),
        }
    }

    fn file_mut(&mut self, path: &[u8]) -> Result<&mut File, Refusal> {
        let names = parse(path)?;
        let is_directory = Refusal::number(7);
        let (&last, parents) = names.split_last().ok_or(is_directory)?;
        match &mut self.directory_mut(parents)?.entry_mut(last)?.node {
            Node::File(file) => Ok(file),
            Node::Directory(_) => Err(is_directory),
        }
    }

    pub fn read(&self, path: &[u8], position: u64, buffer: &mut [u8]) -> Result<Answer, Refusal> {
        let content = &self.file(path)?.content;
        if position > content.len() as u64 {
            return Err(Refusal::number(12));
        }
        let rest = &content[position as usize..];
        let count = rest.len().min(buffer.len());
        buffer[..count].copy_from_slice(&rest[..count]);
        Ok(Answer::count(count as u64))
    }

    pub fn make(&mut self, path: &[u8], date: &[u8], kind: Kind) -> Result<Answer, Refusal> {
        let names = parse(path)?;
        let date = good_date(date)?;
        let (free, shape) = (self.free(), self.shape);
        let there_already = Refusal::number(8);
        let (last, parents) = names.split_last().ok_or(there_already)?;
        let parent = self.directory_mut(parents)?;
        if parent.position(last.bytes).is_some() {
            return Err(there_already);
        }
        let lowest_empty = parent.entries.iter().position(Option::is_none);
        let position = match lowest_empty {
            Some(position) => position,
            None if shape.grows => parent.entries.len(),
            None => return Err(Refusal::number(9)),
        };
        let node = match kind {
            Kind::File => Node::File(File::default()),
            Kind::Directory => Node::Directory(Directory::empty(shape.page_entries)),
        };
        let pages_of_parent = usize::from(lowest_empty.is_none());
        if node.pages(&shape) + pages_of_parent > free {
            return Err(Refusal::number(10));
        }
        if lowest_empty.is_none() {
            parent.entries.resize(position + shape.page_entries, None);
        }
        parent.entries[position] = Some(Entry {
            name: last.bytes.to_vec(),
            date,
            node,
        });
        Ok(Answer::granted())
    }

    pub fn write(&mut self, path: &[u8], position: u64, bytes: &[u8]) -> Result<Answer, Refusal> {
        let file = self.file(path)?;
        file.check_unlocked()?;
        let size = file.content.len();
        if position > size as u64 {
            return Err(Refusal::number(12));
        }
        // No wrap: the position is at most a size, and sizes are below those of images.
        let position = position as usize;
        let end = position + bytes.len();
        let new_size = size.max(end);
        let pages_of_file = |size| self.shape.pages_of_file(size);
        if pages_of_file(new_size) - pages_of_file(size) > self.free() {
            return Err(Refusal::number(10));
        }
        let content = &mut self.file_mut(path)?.content;
        content.resize(new_size, 0);
        content[position..end].copy_from_slice(bytes);
        Ok(Answer::granted())
    }

    /// Whether a store of that number is there for a new file with this content.
    /// The tree stays, and has no pages to tell of.
    pub fn store(
        &self,
        path: &[u8],
        date: &[u8],
        content: &[u8],
        number: u64,
    ) -> Result<Answer, Refusal> {
        let names = parse(path)?;
        good_date(date)?;
        let (last, parents) = names.split_last().ok_or(Refusal::number(8))?;
        let parent = self.directory(parents)?;
        if parent.position(last.bytes).is_some() {
            return Err(Refusal::number(8));
        }
        if parent.entries.iter().all(Option::is_some) {
            return Err(Refusal::number(9));
        }
        let pages = self.shape.pages_of_file(content.len());
        if pages > self.free() {
            return Err(Refusal::number(10));
        }
        // The header's, and the parent's where that is another page.
        let last_stores = if parents.is_empty() { 1 } else { 2 };
        if number >= (pages + last_stores) as u64 {
            return Err(Refusal::number(12));
        }
        Ok(Answer::granted())
    }

    /// Removes an entry, which has to be of that kind.
    pub fn remove(&mut self, path: &[u8], kind: Kind) -> Result<Answer, Refusal> {
        let names = parse(path)?;
        let (&last, parents) = names.split_last().ok_or(Refusal::number(14))?;
        let parent = self.directory_mut(parents)?;
        match (&parent.entry(last)?.node, kind) {
            (Node::File(file), Kind::File) => file.check_unlocked()?,
            (Node::File(_), Kind::Directory) => return Err(Refusal::at_name(6, last.begins)),
            (Node::Directory(_), Kind::File) => return Err(Refusal::number(7)),
            (Node::Directory(directory), Kind::Directory) => {
                if directory.occupied().next().is_some() {
                    return Err(Refusal::number(13));
                }
            }
        }
        let position = parent.position(last.bytes);
        parent.entries[position.expect("the entry was found")] = None;
        Ok(Answer::granted())
    }

    /// Sets or clears the lock of a file.
    pub fn set_lock(&mut self, path: &[u8], locked: bool) -> Result<Answer, Refusal> {
        self.file_mut(path)?.locked = locked;
        Ok(Answer::granted())
    }

    /// Performs a call that is the same in both versions; format is not.
    pub fn step(&mut self, call: &mut Call) -> Result<Answer, Refusal> {
        match call {
            Call::Verdict => Ok(self.verdict()),
            Call::Find(path) => self.find(path),
            Call::List(path, entry) => self.list(path, *entry),
            Call::Read(path, position, buffer) => self.read(path, *position, buffer),
            Call::MakeFile(path, date) => self.make(path, date, Kind::File),
            Call::MakeDirectory(path, date) => self.make(path, date, Kind::Directory),
            Call::Write(path, position, bytes) => self.write(path, *position, bytes),
            Call::RemoveFile(path) => self.remove(path, Kind::File),
            Call::RemoveDirectory(path) => self.remove(path, Kind::Directory),
            Call::Lock(path) => self.set_lock(path, true),
            Call::Unlock(path) => self.set_lock(path, false),
            _ => unreachable!("{} is a version's own", call.name()),
        }
    }

    /// The paths of all entries, in the order of the listing.
    pub fn paths(&self) -> Vec<(Vec<u8>, &Entry)> {
        let mut paths = Vec::new();
        collect_paths(&self.root, &[], &mut paths);
        paths
    }
}

/// Adds what is in `directory`, each directory's contents directly after it.
fn collect_paths<'a>(
    directory: &'a Directory,
    above: &[u8],
    paths: &mut Vec<(Vec<u8>, &'a Entry)>,
) {
    for entry in directory.occupied() {
        let mut path = above.to_vec();
        path.push(b'/');
        path.extend_from_slice(&entry.name);
        paths.push((path.clone(), entry));
        if let Node::Directory(below) = &entry.node {
            collect_paths(below, &path, paths);
        }
    }
}
