//! The C functions of tidying (paper 02 §13); sound as those above.

mod c {
    extern "C" {
        pub fn zealfs_propose(image: *const u8, image_len: usize, places: *mut u8, places_len: usize) -> u64;
        pub fn zealfs_tidy(
            image: *const u8,
            image_len: usize,
            places: *const u8,
            places_len: usize,
            target: *mut u8,
            target_len: usize,
        ) -> u64;
    }
}

pub fn propose(image: &[u8], places: &mut [u8]) -> u64 {
    unsafe { c::zealfs_propose(image.as_ptr(), image.len(), places.as_mut_ptr(), places.len()) }
}

pub fn tidy(image: &[u8], places: &[u8], target: &mut [u8]) -> u64 {
    let (row, row_len) = (places.as_ptr(), places.len());
    unsafe { c::zealfs_tidy(image.as_ptr(), image.len(), row, row_len, target.as_mut_ptr(), target.len()) }
}
