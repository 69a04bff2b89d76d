//! The C functions of version 2 (paper 02 §12); sound as those above.

mod c {
    extern "C" {
        pub fn zealfs2_format(image: *mut u8, image_len: usize, code: u64) -> u64;
        pub fn zealfs2_verdict(image: *const u8, image_len: usize, out: *mut [u64; 2]) -> u64;
        pub fn zealfs2_find(
            image: *const u8,
            image_len: usize,
            path: *const u8,
            path_len: usize,
            out: *mut [u64; 3],
            date: *mut [u8; 8],
        ) -> u64;
        pub fn zealfs2_list(
            image: *const u8,
            image_len: usize,
            path: *const u8,
            path_len: usize,
            entry: u64,
            out: *mut [u64; 4],
            name: *mut [u8; 16],
            date: *mut [u8; 8],
        ) -> u64;
        pub fn zealfs2_entries(
            image: *const u8,
            image_len: usize,
            path: *const u8,
            path_len: usize,
            first: u64,
            rows: *mut u8,
            rows_len: usize,
            out: *mut [u64; 2],
        ) -> u64;
        pub fn zealfs2_read(
            image: *const u8,
            image_len: usize,
            path: *const u8,
            path_len: usize,
            position: u64,
            buffer: *mut u8,
            buffer_len: usize,
            out: *mut [u64; 1],
        ) -> u64;
        pub fn zealfs2_make_file(
            image: *mut u8,
            image_len: usize,
            path: *const u8,
            path_len: usize,
            date: *const u8,
            date_len: usize,
        ) -> u64;
        pub fn zealfs2_make_directory(
            image: *mut u8,
            image_len: usize,
            path: *const u8,
            path_len: usize,
            date: *const u8,
            date_len: usize,
        ) -> u64;
        pub fn zealfs2_write(
            image: *mut u8,
            image_len: usize,
            path: *const u8,
            path_len: usize,
            position: u64,
            bytes: *const u8,
            bytes_len: usize,
        ) -> u64;
        pub fn zealfs2_remove_file(image: *mut u8, image_len: usize, path: *const u8, path_len: usize) -> u64;
        pub fn zealfs2_remove_directory(image: *mut u8, image_len: usize, path: *const u8, path_len: usize) -> u64;
        pub fn zealfs2_lock(image: *mut u8, image_len: usize, path: *const u8, path_len: usize) -> u64;
        pub fn zealfs2_unlock(image: *mut u8, image_len: usize, path: *const u8, path_len: usize) -> u64;
    }
}

pub fn format(image: &mut [u8], code: u64) -> u64 {
    unsafe { c::zealfs2_format(image.as_mut_ptr(), image.len(), code) }
}

pub fn verdict(image: &[u8], out: &mut [u64; 2]) -> u64 {
    unsafe { c::zealfs2_verdict(image.as_ptr(), image.len(), out) }
}

pub fn find(image: &[u8], path: &[u8], out: &mut [u64; 3], date: &mut [u8; 8]) -> u64 {
    unsafe { c::zealfs2_find(image.as_ptr(), image.len(), path.as_ptr(), path.len(), out, date) }
}

pub fn list(image: &[u8], path: &[u8], entry: u64, out: &mut [u64; 4], name: &mut [u8; 16], date: &mut [u8; 8]) -> u64 {
    unsafe { c::zealfs2_list(image.as_ptr(), image.len(), path.as_ptr(), path.len(), entry, out, name, date) }
}

pub fn entries(image: &[u8], path: &[u8], first: u64, rows: &mut [u8], out: &mut [u64; 2]) -> u64 {
    let (room, room_len) = (rows.as_mut_ptr(), rows.len());
    unsafe { c::zealfs2_entries(image.as_ptr(), image.len(), path.as_ptr(), path.len(), first, room, room_len, out) }
}

pub fn read(image: &[u8], path: &[u8], position: u64, buffer: &mut [u8], out: &mut [u64; 1]) -> u64 {
    let (room, room_len) = (buffer.as_mut_ptr(), buffer.len());
    unsafe { c::zealfs2_read(image.as_ptr(), image.len(), path.as_ptr(), path.len(), position, room, room_len, out) }
}

pub fn make_file(image: &mut [u8], path: &[u8], date: &[u8]) -> u64 {
    let (start, length) = (image.as_mut_ptr(), image.len());
    unsafe { c::zealfs2_make_file(start, length, path.as_ptr(), path.len(), date.as_ptr(), date.len()) }
}

pub fn make_directory(image: &mut [u8], path: &[u8], date: &[u8]) -> u64 {
    let (start, length) = (image.as_mut_ptr(), image.len());
    unsafe { c::zealfs2_make_directory(start, length, path.as_ptr(), path.len(), date.as_ptr(), date.len()) }
}

pub fn write(image: &mut [u8], path: &[u8], position: u64, bytes: &[u8]) -> u64 {
    let (start, length) = (image.as_mut_ptr(), image.len());
    unsafe { c::zealfs2_write(start, length, path.as_ptr(), path.len(), position, bytes.as_ptr(), bytes.len()) }
}

pub fn remove_file(image: &mut [u8], path: &[u8]) -> u64 {
    unsafe { c::zealfs2_remove_file(image.as_mut_ptr(), image.len(), path.as_ptr(), path.len()) }
}

pub fn remove_directory(image: &mut [u8], path: &[u8]) -> u64 {
    unsafe { c::zealfs2_remove_directory(image.as_mut_ptr(), image.len(), path.as_ptr(), path.len()) }
}

pub fn lock(image: &mut [u8], path: &[u8]) -> u64 {
    unsafe { c::zealfs2_lock(image.as_mut_ptr(), image.len(), path.as_ptr(), path.len()) }
}

pub fn unlock(image: &mut [u8], path: &[u8]) -> u64 {
    unsafe { c::zealfs2_unlock(image.as_mut_ptr(), image.len(), path.as_ptr(), path.len()) }
}
