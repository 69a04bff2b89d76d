//! Which version of the format an image is of.

/// A version of the format.
#[derive(Clone, Copy, Debug, PartialEq, Eq, Hash)]
pub enum Version {
    /// Images of up to 64 KiB, for the calls of the crate itself.
    One,
    /// Images of up to 1 MiB, for those of [`v2`](crate::v2).
    Two,
}

/// The version that an image's first two bytes name, none if they name no other than these two. It judges nothing: either version's calls refuse
/// the other's image, and what is none.
///
/// ```
/// use zealfs::{v2, Version};
/// let mut image = vec![0; 65_536];
/// assert_eq!(zealfs::version(&image), None);
/// zealfs::format(&mut image)?;
/// assert_eq!(zealfs::version(&image), Some(Version::One));
/// v2::format(&mut image, v2::PageSize::Bytes256)?;
/// assert_eq!(zealfs::version(&image), Some(Version::Two));
/// assert_eq!(zealfs::verdict(&image), Err(zealfs::Refusal::WrongHeader));
/// # Ok::<(), zealfs::Refusal>(())
/// ```
pub fn version(image: &[u8]) -> Option<Version> {
    match image {
        [0x5A, 1, ..] => Some(Version::One),
        [0x5A, 2, ..] => Some(Version::Two),
        _ => None,
    }
}
