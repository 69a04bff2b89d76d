//! The page stores that make a file with its content on a board that stores a whole page at a time (paper 02 §11).
//!
//! ```
//! # let mut image = vec![0; 2048];
//! # zealfs::format(&mut image)?;
//! # let date = "2026-11-15".parse().unwrap();
//! let mut pages = Vec::new();
//! while let Ok(store) = zealfs::store::store(&image, "/0042", date, b"ammonite", pages.len() as u64) {
//!     pages.push(store.page);
//! }
//! assert_eq!(pages, [1, 0]); // the content, then the header, which is the parent's page too
//! # Ok::<(), zealfs::Refusal>(())
//! ```

use crate::date::Date;
use crate::refusal::{granted, Answer};
use crate::sys;

/// One store: a page's number and its bytes.
#[derive(Clone, Copy, Debug, PartialEq, Eq)]
pub struct Store {
    /// The page's number.
    pub page: usize,
    /// All its bytes.
    pub bytes: [u8; 256],
}

/// The store of that number, counted from 0; one past the last is refused with 12. The image stays as it is.
pub fn store(image: &[u8], path: impl AsRef<[u8]>, date: Date, content: &[u8], number: u64) -> Answer<Store> {
    let (mut bytes, mut out) = ([0; 256], [0; 1]);
    granted(sys::store::store(image, path.as_ref(), &date.bytes(), content, number, &mut bytes, &mut out))?;
    Ok(Store { page: out[0] as usize, bytes })
}
