//! Version 2 cartridges: larger images, pages of several sizes, directories that grow (paper 02 §12). The calls are those of version 1 with the same
//! names and types; what version 1 has beyond them, as repair and the listing, is its own. [`version`](crate::version) tells which image is which.
//!
//! ```
//! use zealfs::v2::{self, PageSize};
//! let mut image = vec![0; 262_144];
//! v2::format(&mut image, PageSize::for_length(262_144))?;
//! v2::make_directory(&mut image, "/A", zealfs::Date::new(2026, 11, 15, 12, 0, 0).unwrap())?;
//! let space = v2::verdict(&image)?;
//! assert_eq!((space.pages, space.free), (512, 508)); // the header, two pages of links and /A are taken
//! assert_eq!(v2::find(&image, "/A")?.kind.size(), 512);
//! # Ok::<(), zealfs::Refusal>(())
//! ```

use crate::calls::{Entry, Found, Kind, Space};
use crate::date::Date;
use crate::refusal::{granted, Answer};
use crate::sys::v2 as sys;

/// The longest image, in bytes.
pub const LONGEST: usize = 1_048_576;

/// The size of an image's pages.
#[derive(Clone, Copy, Debug, PartialEq, Eq, Hash)]
pub enum PageSize {
    /// 256 bytes, for images of up to 65,536.
    Bytes256 = 0,
    /// 512 bytes, for images of up to 262,144.
    Bytes512 = 1,
    /// 1,024 bytes, for all images.
    Bytes1024 = 2,
}

impl PageSize {
    /// All of them, by their page code.
    pub const ALL: [Self; 3] = [Self::Bytes256, Self::Bytes512, Self::Bytes1024];

    /// The smallest for an image of that length, by the format's own table. Whether the length is one is for [`format`] to judge.
    pub fn for_length(length: usize) -> Self {
        match length {
            0..=65_536 => Self::Bytes256,
            65_537..=262_144 => Self::Bytes512,
            _ => Self::Bytes1024,
        }
    }

    /// That of so many bytes, if there is one.
    pub fn of_bytes(bytes: usize) -> Option<Self> {
        Self::ALL.into_iter().find(|size| size.bytes() == bytes)
    }

    /// The page code, as it stands in the header.
    pub fn code(self) -> u8 {
        self as u8
    }

    /// The bytes of a page.
    pub fn bytes(self) -> usize {
        256 << self.code()
    }
}

/// Makes the image an empty one of its length with such pages: writes the header and the table of links, every other byte stays. Judges the length, and
/// whether the page size goes with it.
///
/// ```
/// use zealfs::{v2, v2::PageSize, Refusal};
/// assert_eq!(v2::format(&mut vec![0; 131_072], PageSize::Bytes256), Err(Refusal::WrongShape));
/// ```
pub fn format(image: &mut [u8], pages: PageSize) -> Answer<()> {
    granted(sys::format(image, pages.code().into()))
}

/// Judges the image: its pages, or its first fault. A page has as many bytes as the image has for each.
pub fn verdict(image: &[u8]) -> Answer<Space> {
    let mut out = [0; 2];
    granted(sys::verdict(image, &mut out))?;
    Ok(Space { pages: out[0] as usize, free: out[1] as usize })
}

/// What stands at the path.
pub fn find(image: &[u8], path: impl AsRef<[u8]>) -> Answer<Found> {
    let (mut out, mut date) = ([0; 3], [0; 8]);
    granted(sys::find(image, path.as_ref(), &mut out, &mut date))?;
    Ok(Found { kind: Kind::of(out[0], out[1], out[2]), date: Date::from_bytes(date) })
}

/// The entry of that number of a directory, counted from 0 through all its pages; none if it is empty. [`entries`] goes through them all.
pub fn list(image: &[u8], path: impl AsRef<[u8]>, entry: u64) -> Answer<Option<Entry>> {
    let (mut out, mut name, mut date) = ([0; 4], [0; 16], [0; 8]);
    granted(sys::list(image, path.as_ref(), entry, &mut out, &mut name, &mut date))?;
    let found = Entry::new(name, Kind::of(out[1], out[2], out[3]), Date::from_bytes(date));
    Ok((out[0] == 1).then_some(found))
}

/// The occupied entries of a directory, in order. Of a refused one the refusal is the only item. The image is judged once for every 128 entries.
///
/// ```
/// use zealfs::v2;
/// let mut image = vec![0; 65_536];
/// v2::format(&mut image, v2::PageSize::Bytes256)?;
/// let date = "2026-11-15".parse().unwrap();
/// // more than one page holds
/// for number in 0..20 {
///     v2::make_file(&mut image, format!("/{number:04}"), date)?;
/// }
/// v2::remove_file(&mut image, "/0007")?;
/// let names: Result<Vec<_>, _> = v2::entries(&image, b"/").map(|entry| entry.map(|entry| entry.name().to_vec())).collect();
/// let names = names?;
/// assert_eq!((names.len(), &names[7][..]), (19, &b"0008"[..]));
/// # Ok::<(), zealfs::Refusal>(())
/// ```
pub fn entries<'a>(image: &'a [u8], path: &'a [u8]) -> Entries<'a> {
    Entries { image, path, rows: [0; ROOM], next: 0, told: 0, first: Some(0) }
}

/// The bytes of an entry as it is told, and of a window of them.
const ROW: usize = 32;
const ROOM: usize = 128 * ROW;

/// The occupied entries of a directory, from [`entries`].
#[derive(Clone, Debug)]
pub struct Entries<'a> {
    image: &'a [u8],
    path: &'a [u8],
    /// A window of entries, of which so many are told, and the next of them.
    rows: [u8; ROOM],
    told: usize,
    next: usize,
    /// The entry with which the next window begins, if there may be one.
    first: Option<u64>,
}

impl Entries<'_> {
    /// Fills the window, if there may be entries for it.
    fn fill(&mut self) -> Option<Answer<()>> {
        let first = self.first.take()?;
        let mut out = [0; 2];
        let answer = granted(sys::entries(self.image, self.path, first, &mut self.rows, &mut out));
        (self.told, self.next) = (out[0] as usize, 0);
        let after = first + out[0];
        self.first = (answer.is_ok() && after < out[1]).then_some(after);
        Some(answer)
    }
}

impl Iterator for Entries<'_> {
    type Item = Answer<Entry>;

    fn next(&mut self) -> Option<Answer<Entry>> {
        loop {
            if self.next == self.told {
                if let Err(refusal) = self.fill()? {
                    return Some(Err(refusal));
                }
                continue;
            }
            let row = &self.rows[ROW * self.next..ROW * (self.next + 1)];
            self.next += 1;
            if row[0] == 1 {
                return Some(Ok(entry_of(row)));
            }
        }
    }
}

/// The entry that is told in a row of 32 bytes.
fn entry_of(row: &[u8]) -> Entry {
    let (mut size, mut date, mut name) = ([0; 4], [0; 8], [0; 16]);
    size.copy_from_slice(&row[4..8]);
    date.copy_from_slice(&row[8..16]);
    name.copy_from_slice(&row[16..32]);
    Entry::new(name, Kind::of(row[1].into(), u32::from_le_bytes(size).into(), row[2].into()), Date::from_bytes(date))
}

/// Copies the file's bytes from a position on to the front of the buffer, and answers how many: as many as there are and as it has room for.
pub fn read(image: &[u8], path: impl AsRef<[u8]>, position: u64, buffer: &mut [u8]) -> Answer<usize> {
    let mut out = [0; 1];
    granted(sys::read(image, path.as_ref(), position, buffer, &mut out))?;
    Ok(out[0] as usize)
}

/// Makes an empty file. Its directory grows by a page where it has no empty entry.
pub fn make_file(image: &mut [u8], path: impl AsRef<[u8]>, date: Date) -> Answer<()> {
    granted(sys::make_file(image, path.as_ref(), &date.bytes()))
}

/// Makes an empty directory. That in which it lies grows by a page where it has no empty entry.
pub fn make_directory(image: &mut [u8], path: impl AsRef<[u8]>, date: Date) -> Answer<()> {
    granted(sys::make_directory(image, path.as_ref(), &date.bytes()))
}

/// Replaces the file's bytes from a position on that is at most its size, and lengthens it where they reach past its end.
///
/// ```
/// use zealfs::v2;
/// let mut image = vec![0; 131_072];
/// v2::format(&mut image, v2::PageSize::Bytes512)?;
/// v2::make_file(&mut image, "/0042", "2026-11-15".parse().unwrap())?;
/// v2::write(&mut image, "/0042", 0, &[7; 100_000])?; // longer than any file of version 1
/// let mut buffer = [0; 100];
/// assert_eq!(v2::read(&image, "/0042", 99_950, &mut buffer)?, 50);
/// # Ok::<(), zealfs::Refusal>(())
/// ```
pub fn write(image: &mut [u8], path: impl AsRef<[u8]>, position: u64, bytes: &[u8]) -> Answer<()> {
    granted(sys::write(image, path.as_ref(), position, bytes))
}

/// Removes a file that is not locked.
pub fn remove_file(image: &mut [u8], path: impl AsRef<[u8]>) -> Answer<()> {
    granted(sys::remove_file(image, path.as_ref()))
}

/// Removes an empty directory, with all pages that it has grown to.
pub fn remove_directory(image: &mut [u8], path: impl AsRef<[u8]>) -> Answer<()> {
    granted(sys::remove_directory(image, path.as_ref()))
}

/// Locks a file: it is then neither written nor removed.
pub fn lock(image: &mut [u8], path: impl AsRef<[u8]>) -> Answer<()> {
    granted(sys::lock(image, path.as_ref()))
}

/// Unlocks a file.
pub fn unlock(image: &mut [u8], path: impl AsRef<[u8]>) -> Answer<()> {
    granted(sys::unlock(image, path.as_ref()))
}
