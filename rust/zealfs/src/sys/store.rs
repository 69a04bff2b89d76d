//! The C function of the page stores (paper 02 §11); sound as those above.

mod c {
    extern "C" {
        pub fn zealfs_store(
            image: *const u8,
            image_len: usize,
            path: *const u8,
            path_len: usize,
            date: *const u8,
            date_len: usize,
            bytes: *const u8,
            bytes_len: usize,
            number: u64,
            page: *mut u8,
            page_len: usize,
            out: *mut [u64; 1],
        ) -> u64;
    }
}

pub fn store(image: &[u8], path: &[u8], date: &[u8], bytes: &[u8], number: u64, page: &mut [u8; 256], out: &mut [u64; 1]) -> u64 {
    let (start, length) = (image.as_ptr(), image.len());
    let (name, name_len) = (path.as_ptr(), path.len());
    let (content, content_len) = (bytes.as_ptr(), bytes.len());
    let (room, room_len) = (page.as_mut_ptr(), page.len());
    unsafe { c::zealfs_store(start, length, name, name_len, date.as_ptr(), date.len(), content, content_len, number, room, room_len, out) }
}
