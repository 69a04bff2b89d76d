//! A stand-in for the C libraries: the functions of include/zealfs.h over the
//! plain implementation, with the fault that ZEALFS_FAULT names, one of
//! tests/src/wrong.rs or of [`rare`], or with none. It is compiled without
//! instrumentation, as the library is.

mod rare;
mod v2;

use rare::{Rarely, RARE};
use std::sync::OnceLock;
use std::{env, slice};
use zealfs_tests::calls::{Answer, Calls, OWNERS};
use zealfs_tests::plain::Plain;
use zealfs_tests::wrong::{Wrong, FAULTS};

/// What stands behind the functions.
fn calls() -> &'static dyn Calls {
    static CALLS: OnceLock<Box<dyn Calls + Send + Sync>> = OnceLock::new();
    let calls = CALLS.get_or_init(|| match env::var("ZEALFS_FAULT") {
        Ok(name) => named(&name).expect("ZEALFS_FAULT names a fault"),
        Err(_) => Box::new(Plain),
    });
    calls.as_ref()
}

/// The plain implementation with the fault of that name.
fn named(name: &str) -> Option<Box<dyn Calls + Send + Sync>> {
    for fault in FAULTS {
        if format!("{fault:?}") == name {
            return Some(Box::new(Wrong(fault)));
        }
    }
    let rare = RARE.into_iter().find(|rare| format!("{rare:?}") == name);
    Some(Box::new(Rarely(rare?)))
}

/// The number and the place of an answer, as the header says; the place of a row
/// is its first number alone.
fn code(answer: &Answer) -> u64 {
    let [a, b, c] = answer.place;
    u64::from(answer.number) + 256 * (a + 65_536 * (b + 65_536 * c))
}

/// What a caller lends, as the header says: a pointer that is not null, and as
/// many elements there as the length says.
unsafe fn lent<'a>(bytes: *const u8, length: usize) -> &'a [u8] {
    slice::from_raw_parts(bytes, length)
}

unsafe fn lent_mut<'a>(bytes: *mut u8, length: usize) -> &'a mut [u8] {
    slice::from_raw_parts_mut(bytes, length)
}

/// Fills an out array.
unsafe fn tell<T: Copy, const LENGTH: usize>(out: *mut T, values: &[T]) {
    slice::from_raw_parts_mut(out, LENGTH).copy_from_slice(&values[..LENGTH]);
}

/// # Safety
///
/// As include/zealfs.h says.
#[no_mangle]
pub unsafe extern "C" fn zealfs_format(image: *mut u8, image_len: usize) -> u64 {
    code(&calls().format(lent_mut(image, image_len)))
}

/// # Safety
///
/// As include/zealfs.h says.
#[no_mangle]
pub unsafe extern "C" fn zealfs_verdict(image: *const u8, image_len: usize, out: *mut u64) -> u64 {
    let answer = calls().verdict(lent(image, image_len));
    tell::<_, 2>(out, &answer.values);
    code(&answer)
}

/// # Safety
///
/// As include/zealfs.h says.
#[no_mangle]
pub unsafe extern "C" fn zealfs_find(
    image: *const u8,
    image_len: usize,
    path: *const u8,
    path_len: usize,
    out: *mut u64,
    date: *mut u8,
) -> u64 {
    let answer = calls().find(lent(image, image_len), lent(path, path_len));
    tell::<_, 3>(out, &answer.values);
    tell::<_, 8>(date, &answer.date);
    code(&answer)
}

/// # Safety
///
/// As include/zealfs.h says.
#[no_mangle]
pub unsafe extern "C" fn zealfs_list(
    image: *const u8,
    image_len: usize,
    path: *const u8,
    path_len: usize,
    entry: u64,
    out: *mut u64,
    name: *mut u8,
    date: *mut u8,
) -> u64 {
    let answer = calls().list(lent(image, image_len), lent(path, path_len), entry);
    tell::<_, 4>(out, &answer.values);
    tell::<_, 16>(name, &answer.name);
    tell::<_, 8>(date, &answer.date);
    code(&answer)
}

/// # Safety
///
/// As include/zealfs.h says.
#[no_mangle]
pub unsafe extern "C" fn zealfs_read(
    image: *const u8,
    image_len: usize,
    path: *const u8,
    path_len: usize,
    position: u64,
    buffer: *mut u8,
    buffer_len: usize,
    out: *mut u64,
) -> u64 {
    let buffer = lent_mut(buffer, buffer_len);
    let answer = calls().read(
        lent(image, image_len),
        lent(path, path_len),
        position,
        buffer,
    );
    tell::<_, 1>(out, &answer.values);
    code(&answer)
}

/// # Safety
///
/// As include/zealfs.h says.
#[no_mangle]
pub unsafe extern "C" fn zealfs_make_file(
    image: *mut u8,
    image_len: usize,
    path: *const u8,
    path_len: usize,
    date: *const u8,
    date_len: usize,
) -> u64 {
    let (image, path) = (lent_mut(image, image_len), lent(path, path_len));
    code(&calls().make_file(image, path, lent(date, date_len)))
}

/// # Safety
///
/// As include/zealfs.h says.
#[no_mangle]
pub unsafe extern "C" fn zealfs_make_directory(
    image: *mut u8,
    image_len: usize,
    path: *const u8,
    path_len: usize,
    date: *const u8,
    date_len: usize,
) -> u64 {
    let (image, path) = (lent_mut(image, image_len), lent(path, path_len));
    code(&calls().make_directory(image, path, lent(date, date_len)))
}

/// # Safety
///
/// As include/zealfs.h says.
#[no_mangle]
pub unsafe extern "C" fn zealfs_write(
    image: *mut u8,
    image_len: usize,
    path: *const u8,
    path_len: usize,
    position: u64,
    bytes: *const u8,
    bytes_len: usize,
) -> u64 {
    let (image, path) = (lent_mut(image, image_len), lent(path, path_len));
    code(&calls().write(image, path, position, lent(bytes, bytes_len)))
}

/// # Safety
///
/// As include/zealfs.h says.
#[no_mangle]
pub unsafe extern "C" fn zealfs_remove_file(
    image: *mut u8,
    image_len: usize,
    path: *const u8,
    path_len: usize,
) -> u64 {
    code(&calls().remove_file(lent_mut(image, image_len), lent(path, path_len)))
}

/// # Safety
///
/// As include/zealfs.h says.
#[no_mangle]
pub unsafe extern "C" fn zealfs_remove_directory(
    image: *mut u8,
    image_len: usize,
    path: *const u8,
    path_len: usize,
) -> u64 {
    code(&calls().remove_directory(lent_mut(image, image_len), lent(path, path_len)))
}

/// # Safety
///
/// As include/zealfs.h says.
#[no_mangle]
pub unsafe extern "C" fn zealfs_lock(
    image: *mut u8,
    image_len: usize,
    path: *const u8,
    path_len: usize,
) -> u64 {
    code(&calls().lock(lent_mut(image, image_len), lent(path, path_len)))
}

/// # Safety
///
/// As include/zealfs.h says.
#[no_mangle]
pub unsafe extern "C" fn zealfs_unlock(
    image: *mut u8,
    image_len: usize,
    path: *const u8,
    path_len: usize,
) -> u64 {
    code(&calls().unlock(lent_mut(image, image_len), lent(path, path_len)))
}

/// # Safety
///
/// As include/zealfs.h says.
#[no_mangle]
pub unsafe extern "C" fn zealfs_store(
    image: *const u8,
    image_len: usize,
    path: *const u8,
    path_len: usize,
    date: *const u8,
    date_len: usize,
    bytes: *const u8,
    bytes_len: usize,
    number: u64,
    page: *mut u8,
    page_len: usize,
    out: *mut u64,
) -> u64 {
    let answer = calls().store(
        lent(image, image_len),
        lent(path, path_len),
        lent(date, date_len),
        lent(bytes, bytes_len),
        number,
        lent_mut(page, page_len),
    );
    tell::<_, 1>(out, &answer.values);
    code(&answer)
}

/// # Safety
///
/// As include/zealfs.h says.
#[no_mangle]
pub unsafe extern "C" fn zealfs_repair(image: *mut u8, image_len: usize) -> u64 {
    code(&calls().repair(lent_mut(image, image_len)))
}

/// # Safety
///
/// As include/zealfs.h says.
#[no_mangle]
pub unsafe extern "C" fn zealfs_audit(image: *const u8, image_len: usize, owners: *mut u64) -> u64 {
    let audit = calls().audit(lent(image, image_len));
    tell::<_, OWNERS>(owners, &audit.owners);
    audit.sound
}

/// # Safety
///
/// As include/zealfs.h says.
#[no_mangle]
pub unsafe extern "C" fn zealfs_listing(
    image: *const u8,
    image_len: usize,
    from: u64,
    text: *mut u8,
    text_len: usize,
) -> u64 {
    let listing = zealfs_tests::listing::plain(lent(image, image_len));
    let from = usize::try_from(from).map_or(listing.len(), |from| from.min(listing.len()));
    let count = text_len.min(listing.len() - from);
    lent_mut(text, text_len)[..count].copy_from_slice(&listing[from..from + count]);
    count as u64
}

/// # Safety
///
/// As include/zealfs.h says.
#[no_mangle]
pub unsafe extern "C" fn zealfs_propose(
    image: *const u8,
    image_len: usize,
    places: *mut u8,
    places_len: usize,
) -> u64 {
    code(&calls().propose(lent(image, image_len), lent_mut(places, places_len)))
}

/// # Safety
///
/// As include/zealfs.h says.
#[no_mangle]
pub unsafe extern "C" fn zealfs_tidy(
    image: *const u8,
    image_len: usize,
    places: *const u8,
    places_len: usize,
    target: *mut u8,
    target_len: usize,
) -> u64 {
    let places = lent(places, places_len);
    let target = lent_mut(target, target_len);
    code(&calls().tidy(lent(image, image_len), places, target))
}

/// # Safety
///
/// As include/zealfs.h says.
#[no_mangle]
pub unsafe extern "C" fn zealfs_links_read(
    image: *const u8,
    image_len: usize,
    directory: *const u8,
    directory_len: usize,
    numbers: *mut u64,
    numbers_len: usize,
    out: *mut u64,
) -> u64 {
    let numbers = slice::from_raw_parts_mut(numbers, numbers_len);
    let directory = lent(directory, directory_len);
    let answer = calls().links_read(lent(image, image_len), directory, numbers);
    tell::<_, 1>(out, &answer.values);
    code(&answer)
}

/// # Safety
///
/// As include/zealfs.h says.
#[no_mangle]
pub unsafe extern "C" fn zealfs_links_write(
    image: *mut u8,
    image_len: usize,
    directory: *const u8,
    directory_len: usize,
    date: *const u8,
    date_len: usize,
    numbers: *const u64,
    numbers_len: usize,
) -> u64 {
    let numbers = slice::from_raw_parts(numbers, numbers_len);
    let (image, directory) = (lent_mut(image, image_len), lent(directory, directory_len));
    code(&calls().links_write(image, directory, lent(date, date_len), numbers))
}

/// # Safety
///
/// As include/zealfs.h says.
#[no_mangle]
pub unsafe extern "C" fn zealfs_links_find(
    image: *const u8,
    image_len: usize,
    directory: *const u8,
    directory_len: usize,
    count: u64,
    value: u64,
    out: *mut u64,
) -> u64 {
    let (image, directory) = (lent(image, image_len), lent(directory, directory_len));
    let answer = calls().links_find(image, directory, count, value);
    tell::<_, 2>(out, &answer.values);
    code(&answer)
}

/// # Safety
///
/// As include/zealfs.h says.
#[no_mangle]
pub unsafe extern "C" fn zealfs_links_check(
    image: *const u8,
    image_len: usize,
    directory: *const u8,
    directory_len: usize,
) -> u64 {
    code(&calls().links_check(lent(image, image_len), lent(directory, directory_len)))
}
