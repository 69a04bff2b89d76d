//! The calls.

use crate::date::Date;
use crate::refusal::{granted, Answer, Refusal};
use crate::sys;

/// The longest image, in bytes.
pub const LONGEST: usize = 65536;

/// The pages of an image.
#[derive(Clone, Copy, Debug, PartialEq, Eq)]
pub struct Space {
    /// All of them, the header's among them.
    pub pages: usize,
    /// Those that nobody owns.
    pub free: usize,
}

/// What stands at a path.
#[derive(Clone, Copy, Debug, PartialEq, Eq)]
pub enum Kind {
    /// A file.
    File {
        /// The bytes of its content.
        size: usize,
        /// Whether it may be neither written nor removed.
        locked: bool,
    },
    /// A directory.
    Directory {
        /// The bytes of a page: 256 in version 1.
        size: usize,
    },
}

impl Kind {
    pub(crate) fn of(kind: u64, size: u64, locked: u64) -> Self {
        match kind {
            0 => Self::File { size: size as usize, locked: locked == 1 },
            _ => Self::Directory { size: size as usize },
        }
    }

    /// The size as the listing has it: a directory's is that of a page.
    pub fn size(self) -> usize {
        match self {
            Self::File { size, .. } | Self::Directory { size } => size,
        }
    }

    /// Whether it is a directory.
    pub fn is_directory(self) -> bool {
        matches!(self, Self::Directory { .. })
    }

    /// Whether it is a locked file.
    pub fn is_locked(self) -> bool {
        matches!(self, Self::File { locked: true, .. })
    }
}

/// What [`find`] tells.
#[derive(Clone, Copy, Debug, PartialEq, Eq)]
pub struct Found {
    /// What it is.
    pub kind: Kind,
    /// When it was made; the root's is zeros.
    pub date: Date,
}

/// An occupied entry of a directory.
#[derive(Clone, Copy, Debug, PartialEq, Eq)]
pub struct Entry {
    name: [u8; 16],
    /// What it is.
    pub kind: Kind,
    /// When it was made.
    pub date: Date,
}

impl Entry {
    pub(crate) fn new(name: [u8; 16], kind: Kind, date: Date) -> Self {
        Self { name, kind, date }
    }

    /// Its name, of 1 to 16 printable bytes.
    pub fn name(&self) -> &[u8] {
        let end = self.name.iter().position(|&byte| byte == 0).unwrap_or(16);
        &self.name[..end]
    }
}

/// Makes the image an empty one of its length: writes page 0, every other byte stays. Judges the length alone.
pub fn format(image: &mut [u8]) -> Answer<()> {
    granted(sys::format(image))
}

/// Judges the image: its pages, or its first fault.
pub fn verdict(image: &[u8]) -> Answer<Space> {
    let mut out = [0; 2];
    granted(sys::verdict(image, &mut out))?;
    Ok(Space { pages: out[0] as usize, free: out[1] as usize })
}

/// What stands at the path.
pub fn find(image: &[u8], path: impl AsRef<[u8]>) -> Answer<Found> {
    let (mut out, mut date) = ([0; 3], [0; 8]);
    granted(sys::find(image, path.as_ref(), &mut out, &mut date))?;
    Ok(Found { kind: Kind::of(out[0], out[1], out[2]), date: Date::from_bytes(date) })
}

/// The entry of that number of a directory, counted from 0; none if it is empty. [`entries`] goes through them all.
pub fn list(image: &[u8], path: impl AsRef<[u8]>, entry: u64) -> Answer<Option<Entry>> {
    let (mut out, mut name, mut date) = ([0; 4], [0; 16], [0; 8]);
    granted(sys::list(image, path.as_ref(), entry, &mut out, &mut name, &mut date))?;
    let found = Entry::new(name, Kind::of(out[1], out[2], out[3]), Date::from_bytes(date));
    Ok((out[0] == 1).then_some(found))
}

/// The occupied entries of a directory, in order. Of a refused one the refusal is the only item.
///
/// ```
/// let mut image = vec![0; 2048];
/// zealfs::format(&mut image)?;
/// let date = "2026-11-15".parse().unwrap();
/// zealfs::make_file(&mut image, "/0042", date)?;
/// zealfs::make_file(&mut image, "/42", date)?;
/// let names: Result<Vec<_>, _> = zealfs::entries(&image, b"/").map(|entry| entry.map(|entry| entry.name().to_vec())).collect();
/// assert_eq!(names?, [&b"0042"[..], b"42"]);
/// # Ok::<(), zealfs::Refusal>(())
/// ```
pub fn entries<'a>(image: &'a [u8], path: &'a [u8]) -> Entries<'a> {
    Entries { image, path, next: Some(0) }
}

/// The occupied entries of a directory, from [`entries`].
#[derive(Clone, Debug)]
pub struct Entries<'a> {
    image: &'a [u8],
    path: &'a [u8],
    next: Option<u64>,
}

impl Iterator for Entries<'_> {
    type Item = Answer<Entry>;

    fn next(&mut self) -> Option<Answer<Entry>> {
        loop {
            let number = self.next?;
            self.next = Some(number + 1);
            match list(self.image, self.path, number) {
                Ok(None) => {}
                Ok(Some(entry)) => return Some(Ok(entry)),
                Err(refusal) => {
                    self.next = None;
                    // past the directory's last entry is the end
                    return (refusal != Refusal::PastTheEnd).then_some(Err(refusal));
                }
            }
        }
    }
}

/// Copies the file's bytes from a position on to the front of the buffer, and answers how many: as many as there are and as it has room for.
///
/// ```
/// let mut image = vec![0; 2048];
/// zealfs::format(&mut image)?;
/// zealfs::make_file(&mut image, "/0042", "2026-11-15".parse().unwrap())?;
/// zealfs::write(&mut image, "/0042", 0, b"ammonite")?;
/// let mut buffer = [0; 100];
/// let count = zealfs::read(&image, "/0042", 2, &mut buffer)?;
/// assert_eq!(&buffer[..count], b"monite");
/// # Ok::<(), zealfs::Refusal>(())
/// ```
pub fn read(image: &[u8], path: impl AsRef<[u8]>, position: u64, buffer: &mut [u8]) -> Answer<usize> {
    let mut out = [0; 1];
    granted(sys::read(image, path.as_ref(), position, buffer, &mut out))?;
    Ok(out[0] as usize)
}

/// Makes an empty file.
pub fn make_file(image: &mut [u8], path: impl AsRef<[u8]>, date: Date) -> Answer<()> {
    granted(sys::make_file(image, path.as_ref(), &date.bytes()))
}

/// Makes an empty directory.
pub fn make_directory(image: &mut [u8], path: impl AsRef<[u8]>, date: Date) -> Answer<()> {
    granted(sys::make_directory(image, path.as_ref(), &date.bytes()))
}

/// Replaces the file's bytes from a position on that is at most its size, and lengthens it where they reach past its end.
pub fn write(image: &mut [u8], path: impl AsRef<[u8]>, position: u64, bytes: &[u8]) -> Answer<()> {
    granted(sys::write(image, path.as_ref(), position, bytes))
}

/// Removes a file that is not locked.
pub fn remove_file(image: &mut [u8], path: impl AsRef<[u8]>) -> Answer<()> {
    granted(sys::remove_file(image, path.as_ref()))
}

/// Removes an empty directory.
pub fn remove_directory(image: &mut [u8], path: impl AsRef<[u8]>) -> Answer<()> {
    granted(sys::remove_directory(image, path.as_ref()))
}

/// Locks a file: it is then neither written nor removed.
///
/// ```
/// # let mut image = vec![0; 2048];
/// # zealfs::format(&mut image)?;
/// # zealfs::make_file(&mut image, "/0042", "2026-11-15".parse().unwrap())?;
/// zealfs::lock(&mut image, "/0042")?;
/// assert_eq!(zealfs::remove_file(&mut image, "/0042"), Err(zealfs::Refusal::Locked));
/// # Ok::<(), zealfs::Refusal>(())
/// ```
pub fn lock(image: &mut [u8], path: impl AsRef<[u8]>) -> Answer<()> {
    granted(sys::lock(image, path.as_ref()))
}

/// Unlocks a file.
pub fn unlock(image: &mut [u8], path: impl AsRef<[u8]>) -> Answer<()> {
    granted(sys::unlock(image, path.as_ref()))
}

/// Wins back lost pages and corrects the count of free ones. Files and directories stay as they are; what is damaged is refused.
///
/// ```
/// # let mut image = vec![0; 2048];
/// # zealfs::format(&mut image)?;
/// image[4] |= 0x80; // page 7 is marked, and nobody owns it
/// assert_eq!(zealfs::verdict(&image), Err(zealfs::Refusal::LostPage { page: 7 }));
/// zealfs::repair(&mut image)?;
/// assert_eq!(zealfs::verdict(&image)?.free, 7);
/// # Ok::<(), zealfs::Refusal>(())
/// ```
pub fn repair(image: &mut [u8]) -> Answer<()> {
    granted(sys::repair(image))
}
