//! Files on neighbouring pages, which the board reads faster (paper 02 §13).
//!
//! ```
//! # let mut image = vec![0; 2048];
//! # zealfs::format(&mut image)?;
//! let (mut places, mut target) = ([0; 8], [0; 2048]);
//! zealfs::tidy::propose(&image, &mut places)?;
//! zealfs::tidy::tidy(&image, &places, &mut target)?;
//! assert_eq!(zealfs::verdict(&target)?.free, 7);
//! # Ok::<(), zealfs::Refusal>(())
//! ```

use crate::refusal::{granted, Answer};
use crate::sys;

/// Proposes a new place for every page: as many numbers as the image has pages.
pub fn propose(image: &[u8], places: &mut [u8]) -> Answer<()> {
    granted(sys::tidy::propose(image, places))
}

/// Writes the image with its pages in their new places to the target, which has the same length. What is no tidy proposal is refused with 27.
pub fn tidy(image: &[u8], places: &[u8], target: &mut [u8]) -> Answer<()> {
    granted(sys::tidy::tidy(image, places, target))
}
