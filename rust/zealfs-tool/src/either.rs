//! The calls that both versions have, on an image of either: its first two bytes say which is asked. What names neither is version 1's to refuse.

use crate::trouble::{Outcome, Trouble};
use zealfs::{v2, Answer, Date, Entry, Found, Space, Version};

/// The longest image of any version, in bytes.
pub const LONGEST: usize = v2::LONGEST;

/// Whether it is asked by the calls of version 2.
pub fn is_two(image: &[u8]) -> bool {
    zealfs::version(image) == Some(Version::Two)
}

/// Refuses an image of version 2 for what only version 1 has.
pub fn only_one(name: &str, image: &[u8], what: &'static str) -> Outcome<()> {
    if is_two(image) {
        return Err(Trouble::Version { image: name.to_owned(), what });
    }
    Ok(())
}

/// A call that is asked in the same way in both versions.
macro_rules! call {
    ($name:ident($image:ty $(, $argument:ident: $type:ty)*) -> $told:ty) => {
        pub fn $name(image: $image $(, $argument: $type)*) -> Answer<$told> {
            if is_two(image) { v2::$name(image $(, $argument)*) } else { zealfs::$name(image $(, $argument)*) }
        }
    };
}

call!(verdict(&[u8]) -> Space);
call!(find(&[u8], path: &[u8]) -> Found);
call!(read(&[u8], path: &[u8], position: u64, buffer: &mut [u8]) -> usize);
call!(make_file(&mut [u8], path: &[u8], date: Date) -> ());
call!(make_directory(&mut [u8], path: &[u8], date: Date) -> ());
call!(write(&mut [u8], path: &[u8], position: u64, bytes: &[u8]) -> ());
call!(remove_file(&mut [u8], path: &[u8]) -> ());
call!(remove_directory(&mut [u8], path: &[u8]) -> ());
call!(lock(&mut [u8], path: &[u8]) -> ());
call!(unlock(&mut [u8], path: &[u8]) -> ());

/// The occupied entries of a directory, in order; in version 2 with one judging for many of them.
pub fn entries(image: &[u8], path: &[u8]) -> Answer<Vec<Entry>> {
    if is_two(image) {
        v2::entries(image, path).collect()
    } else {
        zealfs::entries(image, path).collect()
    }
}

/// Judges an image by all judges that its version has: version 1 has two.
pub fn is_in_order(image: &[u8]) -> bool {
    verdict(image).is_ok() && (is_two(image) || zealfs::audit(image).is_some())
}
