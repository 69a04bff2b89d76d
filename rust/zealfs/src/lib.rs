//! ZealFS over an image in memory: the proved calls of libzealfs, safe to call from Rust. No `std`, no allocation, no state. The calls here are those
//! of version 1; those of version 2, for larger cartridges, are in [`v2`].
//!
//! An image is a slice of bytes; each call judges it first and ends with an answer, whatever the bytes. A refused call leaves image and buffer as
//! they were. What is promised of the calls says docs/PROMISES.md; this crate adds types and no decision of its own.
//!
//! ```
//! let mut image = vec![0; 8192];
//! zealfs::format(&mut image)?;
//! zealfs::make_directory(&mut image, "/A", zealfs::Date::new(2026, 11, 15, 12, 0, 0).unwrap())?;
//! let space = zealfs::verdict(&image)?;
//! assert_eq!((space.pages, space.free), (32, 30));
//! # Ok::<(), zealfs::Refusal>(())
//! ```
#![no_std]
#![deny(unsafe_code, missing_docs)]

mod calls;
mod date;
mod listing;
mod owners;
mod refusal;
mod sys;
mod version;
mod words;

#[cfg(feature = "links")]
pub mod links;
#[cfg(feature = "store")]
pub mod store;
#[cfg(feature = "tidy")]
pub mod tidy;
pub mod v2;

pub use calls::{
    entries, find, format, list, lock, make_directory, make_file, read, remove_directory, remove_file, repair, unlock, verdict, write,
    Entries, Entry, Found, Kind, Space, LONGEST,
};
pub use date::{Date, NotADate};
pub use listing::{listing, listing_part, Listing, Window};
pub use owners::{audit, Owner, Owners};
pub use refusal::{advice, text, Answer, Refusal};
pub use version::{version, Version};
pub use words::{Words, WORDS};
