//! The C library `libzealfs_c.a`, behind the boundary.

use crate::boundary::{answer, base, behind, call, check_rest, first, REST, UNSET, UNSET_BYTE};
use crate::calls::{Answer, Audit, Base, Calls, DATE_BYTES, NAME_BYTES, OWNERS};

/// Declares functions of a library, whose names there begin with the prefix. The
/// arguments after the semicolon are arrays of fixed length that the library fills;
/// this macro and `call` of [`crate::boundary`] alone decide how they are passed.
/// With a length beside each pointer the marked lines become
/// `$($array: *mut $of, _: usize),*` and `$($array.as_mut_ptr(), $array.len()),*`.
macro_rules! declare {
    ($prefix:literal; $($function:ident($($lent:ident: $type:ty),*; $($array:ident: $of:ty),*);)*) => {
        extern "C" {
            $(#[link_name = concat!($prefix, stringify!($function))]
            pub fn $function(
                $($lent: $type,)*
                $($array: *mut $of),* // how arrays are declared
            ) -> u64;)*
        }
    };
}

pub(crate) use declare;

/// Declares the functions that both versions have.
macro_rules! declare_base {
    ($prefix:literal) => {
        declare! { $prefix;
            verdict(image: *const u8, image_len: usize; out: u64);
            find(image: *const u8, image_len: usize, path: *const u8, path_len: usize;
                out: u64, date: u8);
            list(image: *const u8, image_len: usize, path: *const u8, path_len: usize, entry: u64;
                out: u64, name: u8, date: u8);
            read(image: *const u8, image_len: usize, path: *const u8, path_len: usize,
                position: u64, buffer: *mut u8, buffer_len: usize; out: u64);
            make_file(image: *mut u8, image_len: usize, path: *const u8, path_len: usize,
                date: *const u8, date_len: usize;);
            make_directory(image: *mut u8, image_len: usize, path: *const u8, path_len: usize,
                date: *const u8, date_len: usize;);
            write(image: *mut u8, image_len: usize, path: *const u8, path_len: usize,
                position: u64, bytes: *const u8, bytes_len: usize;);
            remove_file(image: *mut u8, image_len: usize, path: *const u8, path_len: usize;);
            remove_directory(image: *mut u8, image_len: usize, path: *const u8, path_len: usize;);
            lock(image: *mut u8, image_len: usize, path: *const u8, path_len: usize;);
            unlock(image: *mut u8, image_len: usize, path: *const u8, path_len: usize;);
        }
    };
}

pub(crate) use declare_base;

/// The functions of the header.
mod functions {
    declare_base!("zealfs_");

    declare! { "zealfs_";
        format(image: *mut u8, image_len: usize;);
        store(image: *const u8, image_len: usize, path: *const u8, path_len: usize,
            date: *const u8, date_len: usize, bytes: *const u8, bytes_len: usize, number: u64,
            page: *mut u8, page_len: usize; out: u64);
        repair(image: *mut u8, image_len: usize;);
        audit(image: *const u8, image_len: usize; owners: u64);
        propose(image: *const u8, image_len: usize, places: *mut u8, places_len: usize;);
        tidy(image: *const u8, image_len: usize, places: *const u8, places_len: usize,
            target: *mut u8, target_len: usize;);
        listing(image: *const u8, image_len: usize, from: u64, text: *mut u8, text_len: usize;);
        links_read(image: *const u8, image_len: usize, directory: *const u8, directory_len: usize,
            numbers: *mut u64, numbers_len: usize; out: u64);
        links_write(image: *mut u8, image_len: usize, directory: *const u8, directory_len: usize,
            date: *const u8, date_len: usize, numbers: *const u64, numbers_len: usize;);
        links_find(image: *const u8, image_len: usize, directory: *const u8, directory_len: usize,
            count: u64, value: u64; out: u64);
        links_check(image: *const u8, image_len: usize, directory: *const u8,
            directory_len: usize;);
    }
}

/// The C library.
pub struct Library;

impl Library {
    /// The bytes of the listing from `from` on, to the front of the buffer; answers
    /// how many.
    pub fn listing(&self, image: &[u8], from: u64, buffer: &mut [u8]) -> u64 {
        call!(functions, listing(
            image.as_ptr(), image.len(), from, buffer.as_mut_ptr(), buffer.len();))
    }
}

behind!(Library, functions);
