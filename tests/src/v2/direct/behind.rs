//! Version 2's calls of [`super::Direct`] as functions of the library's header,
//! for the benchmark, as those of version 1.

use super::Told;
use crate::calls::Kind;
use crate::direct::behind::{base_functions, code, done, functions, told};
use std::slice::{from_raw_parts as lent, from_raw_parts_mut as lent_mut};

base_functions!();

functions! {
    format(image: *mut u8, image_len: usize, page_code: u64) {
        done(super::format(lent_mut(image, image_len), page_code))
    }

    entries(
        image: *const u8, image_len: usize, path: *const u8, path_len: usize, first: u64,
        rows: *mut u8, rows_len: usize, out: *mut u64
    ) {
        let rows = lent_mut(rows, rows_len);
        told(super::entries(lent(image, image_len), lent(path, path_len), first, rows), &mut *out.cast())
    }
}
