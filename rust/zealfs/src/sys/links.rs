//! The C functions of the link list (paper 02 §4); sound as those above.

mod c {
    extern "C" {
        pub fn zealfs_links_read(
            image: *const u8,
            image_len: usize,
            directory: *const u8,
            directory_len: usize,
            numbers: *mut u64,
            numbers_len: usize,
            out: *mut [u64; 1],
        ) -> u64;
        pub fn zealfs_links_write(
            image: *mut u8,
            image_len: usize,
            directory: *const u8,
            directory_len: usize,
            date: *const u8,
            date_len: usize,
            numbers: *const u64,
            numbers_len: usize,
        ) -> u64;
        pub fn zealfs_links_find(
            image: *const u8,
            image_len: usize,
            directory: *const u8,
            directory_len: usize,
            count: u64,
            value: u64,
            out: *mut [u64; 2],
        ) -> u64;
        pub fn zealfs_links_check(image: *const u8, image_len: usize, directory: *const u8, directory_len: usize) -> u64;
    }
}

pub fn read(image: &[u8], directory: &[u8], numbers: &mut [u64], out: &mut [u64; 1]) -> u64 {
    let (list, list_len) = (numbers.as_mut_ptr(), numbers.len());
    unsafe { c::zealfs_links_read(image.as_ptr(), image.len(), directory.as_ptr(), directory.len(), list, list_len, out) }
}

pub fn write(image: &mut [u8], directory: &[u8], date: &[u8], numbers: &[u64]) -> u64 {
    let (start, length) = (image.as_mut_ptr(), image.len());
    let (list, list_len) = (numbers.as_ptr(), numbers.len());
    let (path, path_len) = (directory.as_ptr(), directory.len());
    unsafe { c::zealfs_links_write(start, length, path, path_len, date.as_ptr(), date.len(), list, list_len) }
}

pub fn find(image: &[u8], directory: &[u8], count: u64, value: u64, out: &mut [u64; 2]) -> u64 {
    unsafe { c::zealfs_links_find(image.as_ptr(), image.len(), directory.as_ptr(), directory.len(), count, value, out) }
}

pub fn check(image: &[u8], directory: &[u8]) -> u64 {
    unsafe { c::zealfs_links_check(image.as_ptr(), image.len(), directory.as_ptr(), directory.len()) }
}
