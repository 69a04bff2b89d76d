//! Who owns each page, by the second judge.

use crate::sys;

/// Who owns a page.
#[derive(Clone, Copy, Debug, PartialEq, Eq, Hash)]
pub enum Owner {
    /// The page is free, or past the image's end.
    Nobody,
    /// Page 0.
    Header,
    /// The file or directory whose entry this is: the page of the directory that holds it, 0 for the root, and its number there, from 0.
    Entry {
        /// The page of the directory that holds the entry.
        directory: u16,
        /// The entry's number in it.
        entry: u16,
    },
}

/// The owners of all pages of a sound image, from [`audit`].
#[derive(Clone, Debug, PartialEq, Eq)]
pub struct Owners([u64; 256]);

impl Owners {
    /// The owner of a page; nobody past the image's end.
    pub fn of(&self, page: usize) -> Owner {
        match self.0.get(page) {
            None | Some(0) => Owner::Nobody,
            Some(1) => Owner::Header,
            Some(&position) => {
                let (directory, byte) = ((position / 256) as u16, position % 256);
                let first = if directory == 0 { 64 } else { 0 };
                Owner::Entry { directory, entry: ((byte - first) / 32) as u16 }
            }
        }
    }

    /// How many pages have an owner, the header's among them.
    pub fn count(&self) -> usize {
        self.0.iter().filter(|&&owner| owner != 0).count()
    }
}

/// The second judge: who owns each page of a sound image, and none for any other. It says sound exactly when [`verdict`](crate::verdict) does,
/// and shares no walk with it.
///
/// ```
/// use zealfs::Owner;
/// let mut image = vec![0; 2048];
/// zealfs::format(&mut image)?;
/// zealfs::make_directory(&mut image, "/A", "2026-11-15".parse().unwrap())?;
/// let owners = zealfs::audit(&image).expect("a sound image");
/// assert_eq!(owners.of(1), Owner::Entry { directory: 0, entry: 0 });
/// assert_eq!(owners.of(2), Owner::Nobody);
/// # Ok::<(), zealfs::Refusal>(())
/// ```
pub fn audit(image: &[u8]) -> Option<Owners> {
    let mut owners = [0; 256];
    (sys::audit(image, &mut owners) == 1).then_some(Owners(owners))
}
