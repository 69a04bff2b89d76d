//! The C library `libzealfs2_c.a`, behind the boundary.

use super::boundary::behind;
use super::calls::Calls;
use crate::boundary::{answer, base, call, check_rest, first, REST, UNSET, UNSET_BYTE};
use crate::calls::{Answer, Base, DATE_BYTES, NAME_BYTES};

/// The functions of the header.
mod functions {
    use crate::c::{declare, declare_base};

    declare_base!("zealfs2_");

    declare! { "zealfs2_";
        format(image: *mut u8, image_len: usize, code: u64;);
        entries(image: *const u8, image_len: usize, path: *const u8, path_len: usize,
            first: u64, rows: *mut u8, rows_len: usize; out: u64);
    }
}

/// The C library.
pub struct Library;

behind!(Library, functions);
