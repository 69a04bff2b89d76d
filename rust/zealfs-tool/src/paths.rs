//! From directories and pages to paths, by the calls alone.

use crate::either;
use zealfs::{Answer, Entry, Found, Owner, Owners};

/// The path of a name in a directory.
pub fn below(directory: &[u8], name: &[u8]) -> Vec<u8> {
    let directory = if directory == b"/" { b"" } else { directory };
    [directory, b"/", name].concat()
}

/// What stands at a path.
pub struct Row {
    pub path: Vec<u8>,
    pub found: Found,
}

impl Row {
    pub fn name(&self) -> &[u8] {
        self.path.rsplit(|&byte| byte == b'/').next().unwrap_or_default()
    }
}

/// The entries of a directory.
pub fn rows(image: &[u8], directory: &[u8]) -> Answer<Vec<Row>> {
    let row = |entry: Entry| Row { path: below(directory, entry.name()), found: Found { kind: entry.kind, date: entry.date } };
    Ok(either::entries(image, directory)?.into_iter().map(row).collect())
}

/// Everything below a directory, a directory's contents directly after it.
pub fn all_below(image: &[u8], directory: &[u8]) -> Answer<Vec<Row>> {
    let mut all = Vec::new();
    for row in rows(image, directory)? {
        let inner = if row.found.kind.is_directory() { all_below(image, &row.path)? } else { Vec::new() };
        all.push(row);
        all.extend(inner);
    }
    Ok(all)
}

/// The content of a file.
pub fn content(image: &[u8], path: &[u8]) -> Answer<Vec<u8>> {
    let mut bytes = vec![0; either::find(image, path)?.kind.size()];
    let count = either::read(image, path, 0, &mut bytes)?;
    bytes.truncate(count);
    Ok(bytes)
}

/// The paths of the owners of pages, each worked out once; of version 1, which alone tells owners.
pub struct Paths<'a> {
    image: &'a [u8],
    owners: &'a Owners,
    known: Vec<Option<Vec<u8>>>,
}

impl<'a> Paths<'a> {
    /// Of a sound image and its owners.
    pub fn new(image: &'a [u8], owners: &'a Owners) -> Self {
        Self { image, owners, known: vec![None; 256] }
    }

    /// The path of the entry that owns the page.
    pub fn of_page(&mut self, page: usize) -> Option<Vec<u8>> {
        if let Some(path) = self.known.get(page)? {
            return Some(path.clone());
        }
        let Owner::Entry { directory, entry } = self.owners.of(page) else { return None };
        let path = self.of_entry(directory, entry)?;
        self.known[page] = Some(path.clone());
        Some(path)
    }

    /// The path of the directory on the page.
    pub fn of_directory(&mut self, page: u16) -> Option<Vec<u8>> {
        if page == 0 {
            return Some(b"/".to_vec());
        }
        let path = self.of_page(page.into())?;
        zealfs::find(self.image, &path).is_ok_and(|found| found.kind.is_directory()).then_some(path)
    }

    fn of_entry(&mut self, directory: u16, entry: u16) -> Option<Vec<u8>> {
        let directory = self.of_directory(directory)?;
        let entry = zealfs::list(self.image, &directory, entry.into()).ok()??;
        Some(below(&directory, entry.name()))
    }
}
