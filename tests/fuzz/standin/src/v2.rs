//! The same for version 2's functions, with the fault of tests/src/v2/wrong.rs that
//! ZEALFS2_FAULT names, or with none.

use super::{code, lent, lent_mut, tell};
use std::env;
use std::sync::OnceLock;
use zealfs_tests::v2::calls::Calls;
use zealfs_tests::v2::plain::PLAIN;
use zealfs_tests::v2::wrong::{Wrong, FAULTS};

/// What stands behind the functions.
fn calls() -> &'static dyn Calls {
    static CALLS: OnceLock<Box<dyn Calls + Send + Sync>> = OnceLock::new();
    let calls = CALLS.get_or_init(|| match env::var("ZEALFS2_FAULT") {
        Ok(name) => {
            let named = |fault: &_| format!("{fault:?}") == name;
            let fault = FAULTS.into_iter().find(named);
            Box::new(Wrong(fault.expect("ZEALFS2_FAULT names a fault")))
        }
        Err(_) => Box::new(PLAIN),
    });
    calls.as_ref()
}

/// Functions of include/zealfs.h: how each is answered, and then how its arrays are
/// filled.
macro_rules! functions {
    ($($name:ident($($argument:ident: $type:ty),*) $answer:expr; $($array:ident[$length:literal] = $part:ident: $of:ty),*;)*) => {
        $(
            /// # Safety
            ///
            /// As include/zealfs.h says.
            #[no_mangle]
            pub unsafe extern "C" fn $name($($argument: $type,)* $($array: *mut $of),*) -> u64 {
                let answer = $answer;
                $(tell::<_, $length>($array, &answer.$part);)*
                code(&answer)
            }
        )*
    };
}

functions! {
    zealfs2_format(image: *mut u8, image_len: usize, page_code: u64)
        calls().format(lent_mut(image, image_len), page_code);;
    zealfs2_verdict(image: *const u8, image_len: usize)
        calls().verdict(lent(image, image_len));
        out[2] = values: u64;
    zealfs2_find(image: *const u8, image_len: usize, path: *const u8, path_len: usize)
        calls().find(lent(image, image_len), lent(path, path_len));
        out[3] = values: u64, date[8] = date: u8;
    zealfs2_list(image: *const u8, image_len: usize, path: *const u8, path_len: usize, entry: u64)
        calls().list(lent(image, image_len), lent(path, path_len), entry);
        out[4] = values: u64, name[16] = name: u8, date[8] = date: u8;
    zealfs2_entries(image: *const u8, image_len: usize, path: *const u8, path_len: usize,
        first: u64, rows: *mut u8, rows_len: usize)
        calls().entries(lent(image, image_len), lent(path, path_len), first, lent_mut(rows, rows_len));
        out[2] = values: u64;
    zealfs2_read(image: *const u8, image_len: usize, path: *const u8, path_len: usize,
        position: u64, buffer: *mut u8, buffer_len: usize)
        calls().read(lent(image, image_len), lent(path, path_len), position, lent_mut(buffer, buffer_len));
        out[1] = values: u64;
    zealfs2_make_file(image: *mut u8, image_len: usize, path: *const u8, path_len: usize,
        date: *const u8, date_len: usize)
        calls().make_file(lent_mut(image, image_len), lent(path, path_len), lent(date, date_len));;
    zealfs2_make_directory(image: *mut u8, image_len: usize, path: *const u8, path_len: usize,
        date: *const u8, date_len: usize)
        calls().make_directory(lent_mut(image, image_len), lent(path, path_len), lent(date, date_len));;
    zealfs2_write(image: *mut u8, image_len: usize, path: *const u8, path_len: usize,
        position: u64, bytes: *const u8, bytes_len: usize)
        calls().write(lent_mut(image, image_len), lent(path, path_len), position, lent(bytes, bytes_len));;
    zealfs2_remove_file(image: *mut u8, image_len: usize, path: *const u8, path_len: usize)
        calls().remove_file(lent_mut(image, image_len), lent(path, path_len));;
    zealfs2_remove_directory(image: *mut u8, image_len: usize, path: *const u8, path_len: usize)
        calls().remove_directory(lent_mut(image, image_len), lent(path, path_len));;
    zealfs2_lock(image: *mut u8, image_len: usize, path: *const u8, path_len: usize)
        calls().lock(lent_mut(image, image_len), lent(path, path_len));;
    zealfs2_unlock(image: *mut u8, image_len: usize, path: *const u8, path_len: usize)
        calls().unlock(lent_mut(image, image_len), lent(path, path_len));;
}
