//! The listing as text.

use crate::sys;
use core::ops::Deref;

/// How many bytes of the listing a window holds.
const ROOM: usize = 4096;

/// Copies to the front of the buffer the bytes of the image's listing from byte `from` on, as many as there are and as it has room for, and
/// answers how many. An image that is not sound has a listing too, which says so.
pub fn listing_part(image: &[u8], from: u64, buffer: &mut [u8]) -> usize {
    sys::listing(image, from, buffer) as usize
}

/// The image's listing, window after window.
///
/// ```
/// let mut image = vec![0; 2048];
/// zealfs::format(&mut image)?;
/// let date = zealfs::Date::new(2026, 11, 15, 12, 0, 0).unwrap();
/// zealfs::make_directory(&mut image, "/A", date)?;
/// let mut text = Vec::new();
/// for window in zealfs::listing(&image) {
///     text.extend_from_slice(&window);
/// }
/// assert_eq!(text, b"pages 8 free 6\nD 256 /A\n");
/// # Ok::<(), zealfs::Refusal>(())
/// ```
pub fn listing(image: &[u8]) -> Listing<'_> {
    Listing { image, from: Some(0) }
}

/// The windows of a listing, from [`listing`].
#[derive(Clone, Debug)]
pub struct Listing<'a> {
    image: &'a [u8],
    /// Where the next window begins, if there may be one.
    from: Option<u64>,
}

/// Some bytes of a listing.
#[derive(Clone, Debug)]
pub struct Window {
    bytes: [u8; ROOM],
    length: usize,
}

impl Deref for Window {
    type Target = [u8];

    fn deref(&self) -> &[u8] {
        &self.bytes[..self.length]
    }
}

impl Iterator for Listing<'_> {
    type Item = Window;

    fn next(&mut self) -> Option<Window> {
        let from = self.from?;
        let mut bytes = [0; ROOM];
        let length = listing_part(self.image, from, &mut bytes);
        self.from = (length == ROOM).then_some(from + ROOM as u64);
        (length > 0).then_some(Window { bytes, length })
    }
}
