//! The C functions of include/zealfs.h, each behind a safe function of slices and arrays. All unsafe code of the crate is here and below.
//!
//! Each function is sound for the same reason: every pointer is that of a slice or an array which is borrowed for the call, with its length or
//! of the length that the header gives for an array; what C may write is borrowed uniquely, so it overlaps nothing; and the functions keep no
//! pointer. Whatever the bytes, they return (crates/zealfs_c: no contract has a `requires`).
#![allow(unsafe_code)]

#[cfg(feature = "links")]
pub mod links;
#[cfg(feature = "store")]
pub mod store;
#[cfg(feature = "tidy")]
pub mod tidy;
pub mod v2;

mod c {
    extern "C" {
        pub fn zealfs_format(image: *mut u8, image_len: usize) -> u64;
        pub fn zealfs_verdict(image: *const u8, image_len: usize, out: *mut [u64; 2]) -> u64;
        pub fn zealfs_find(
            image: *const u8,
            image_len: usize,
            path: *const u8,
            path_len: usize,
            out: *mut [u64; 3],
            date: *mut [u8; 8],
        ) -> u64;
        pub fn zealfs_list(
            image: *const u8,
            image_len: usize,
            path: *const u8,
            path_len: usize,
            entry: u64,
            out: *mut [u64; 4],
            name: *mut [u8; 16],
            date: *mut [u8; 8],
        ) -> u64;
        pub fn zealfs_read(
            image: *const u8,
            image_len: usize,
            path: *const u8,
            path_len: usize,
            position: u64,
            buffer: *mut u8,
            buffer_len: usize,
            out: *mut [u64; 1],
        ) -> u64;
        pub fn zealfs_make_file(
            image: *mut u8,
            image_len: usize,
            path: *const u8,
            path_len: usize,
            date: *const u8,
            date_len: usize,
        ) -> u64;
        pub fn zealfs_make_directory(
            image: *mut u8,
            image_len: usize,
            path: *const u8,
            path_len: usize,
            date: *const u8,
            date_len: usize,
        ) -> u64;
        pub fn zealfs_write(
            image: *mut u8,
            image_len: usize,
            path: *const u8,
            path_len: usize,
            position: u64,
            bytes: *const u8,
            bytes_len: usize,
        ) -> u64;
        pub fn zealfs_remove_file(image: *mut u8, image_len: usize, path: *const u8, path_len: usize) -> u64;
        pub fn zealfs_remove_directory(image: *mut u8, image_len: usize, path: *const u8, path_len: usize) -> u64;
        pub fn zealfs_lock(image: *mut u8, image_len: usize, path: *const u8, path_len: usize) -> u64;
        pub fn zealfs_unlock(image: *mut u8, image_len: usize, path: *const u8, path_len: usize) -> u64;
        pub fn zealfs_repair(image: *mut u8, image_len: usize) -> u64;
        pub fn zealfs_audit(image: *const u8, image_len: usize, owners: *mut [u64; 256]) -> u64;
        pub fn zealfs_listing(image: *const u8, image_len: usize, from: u64, text: *mut u8, text_len: usize) -> u64;
    }
}

pub fn format(image: &mut [u8]) -> u64 {
    unsafe { c::zealfs_format(image.as_mut_ptr(), image.len()) }
}

pub fn verdict(image: &[u8], out: &mut [u64; 2]) -> u64 {
    unsafe { c::zealfs_verdict(image.as_ptr(), image.len(), out) }
}

pub fn find(image: &[u8], path: &[u8], out: &mut [u64; 3], date: &mut [u8; 8]) -> u64 {
    unsafe { c::zealfs_find(image.as_ptr(), image.len(), path.as_ptr(), path.len(), out, date) }
}

pub fn list(image: &[u8], path: &[u8], entry: u64, out: &mut [u64; 4], name: &mut [u8; 16], date: &mut [u8; 8]) -> u64 {
    unsafe { c::zealfs_list(image.as_ptr(), image.len(), path.as_ptr(), path.len(), entry, out, name, date) }
}

pub fn read(image: &[u8], path: &[u8], position: u64, buffer: &mut [u8], out: &mut [u64; 1]) -> u64 {
    let (room, room_len) = (buffer.as_mut_ptr(), buffer.len());
    unsafe { c::zealfs_read(image.as_ptr(), image.len(), path.as_ptr(), path.len(), position, room, room_len, out) }
}

pub fn make_file(image: &mut [u8], path: &[u8], date: &[u8]) -> u64 {
    let (start, length) = (image.as_mut_ptr(), image.len());
    unsafe { c::zealfs_make_file(start, length, path.as_ptr(), path.len(), date.as_ptr(), date.len()) }
}

pub fn make_directory(image: &mut [u8], path: &[u8], date: &[u8]) -> u64 {
    let (start, length) = (image.as_mut_ptr(), image.len());
    unsafe { c::zealfs_make_directory(start, length, path.as_ptr(), path.len(), date.as_ptr(), date.len()) }
}

pub fn write(image: &mut [u8], path: &[u8], position: u64, bytes: &[u8]) -> u64 {
    let (start, length) = (image.as_mut_ptr(), image.len());
    unsafe { c::zealfs_write(start, length, path.as_ptr(), path.len(), position, bytes.as_ptr(), bytes.len()) }
}

pub fn remove_file(image: &mut [u8], path: &[u8]) -> u64 {
    unsafe { c::zealfs_remove_file(image.as_mut_ptr(), image.len(), path.as_ptr(), path.len()) }
}

pub fn remove_directory(image: &mut [u8], path: &[u8]) -> u64 {
    unsafe { c::zealfs_remove_directory(image.as_mut_ptr(), image.len(), path.as_ptr(), path.len()) }
}

pub fn lock(image: &mut [u8], path: &[u8]) -> u64 {
    unsafe { c::zealfs_lock(image.as_mut_ptr(), image.len(), path.as_ptr(), path.len()) }
}

pub fn unlock(image: &mut [u8], path: &[u8]) -> u64 {
    unsafe { c::zealfs_unlock(image.as_mut_ptr(), image.len(), path.as_ptr(), path.len()) }
}

pub fn repair(image: &mut [u8]) -> u64 {
    unsafe { c::zealfs_repair(image.as_mut_ptr(), image.len()) }
}

pub fn audit(image: &[u8], owners: &mut [u64; 256]) -> u64 {
    unsafe { c::zealfs_audit(image.as_ptr(), image.len(), owners) }
}

pub fn listing(image: &[u8], from: u64, text: &mut [u8]) -> u64 {
    unsafe { c::zealfs_listing(image.as_ptr(), image.len(), from, text.as_mut_ptr(), text.len()) }
}
