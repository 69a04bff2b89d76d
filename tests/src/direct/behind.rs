//! The calls of [`super::Direct`] as functions of the library's header, so that
//! the benchmark calls both sides in the same way: what C hands over, a code,
//! and arrays that are set. No function does more than its declaration asks.

use super::{links, tidy, Refusal, Told};
use crate::calls::{Audit, Kind, OWNERS};
use std::slice::{from_raw_parts as lent, from_raw_parts_mut as lent_mut};

/// A refusal as C has it.
pub(crate) fn code(refusal: Refusal) -> u64 {
    let [a, b, c] = refusal.place;
    let place = match refusal.number {
        21..=23 => a,
        _ => a | b << 16 | c << 32,
    };
    u64::from(refusal.number) | place << 8
}

pub(crate) fn done(result: Result<(), Refusal>) -> u64 {
    result.map_or_else(code, |()| 0)
}

/// Sets the out array to what the call tells, and to zeros beside a refusal.
pub(crate) fn told<const LENGTH: usize>(
    result: Result<[u64; LENGTH], Refusal>,
    out: &mut [u64; LENGTH],
) -> u64 {
    match result {
        Ok(values) => {
            *out = values;
            0
        }
        Err(refusal) => {
            *out = [0; LENGTH];
            code(refusal)
        }
    }
}

/// Functions that lend what C hands over.
macro_rules! functions {
    ($($name:ident($($arguments:tt)*) $body:block)*) => {
        $(
            /// # Safety
            ///
            /// As the library's header says of the function of this name.
            #[inline(never)]
            pub unsafe extern "C" fn $name($($arguments)*) -> u64 $body
        )*
    };
}

pub(crate) use functions;

/// The functions of both versions, over those of the module above the one that has
/// them.
macro_rules! base_functions {
    () => {
        functions! {
            verdict(image: *const u8, image_len: usize, out: *mut u64) {
                told(super::verdict(lent(image, image_len)), &mut *out.cast())
            }

            find(
                image: *const u8, image_len: usize, path: *const u8, path_len: usize,
                out: *mut u64, date: *mut u8
            ) {
                let found = super::find(lent(image, image_len), lent(path, path_len));
                *date.cast() = found.map_or([0_u8; 8], |Told { date, .. }| date);
                let values = |Told { kind, size, locked, .. }| [Kind::value(kind), size, locked.into()];
                told(found.map(values), &mut *out.cast())
            }

            list(
                image: *const u8, image_len: usize, path: *const u8, path_len: usize, entry: u64,
                out: *mut u64, name: *mut u8, date: *mut u8
            ) {
                let listed = super::list(lent(image, image_len), lent(path, path_len), entry);
                match listed {
                    Ok(Some((listed_name, Told { kind, size, locked, date: listed_date }))) => {
                        *name.cast() = listed_name;
                        *date.cast() = listed_date;
                        *out.cast() = [1, kind.value(), size, u64::from(locked)];
                        0
                    }
                    none => {
                        *name.cast() = [0_u8; 16];
                        *date.cast() = [0_u8; 8];
                        *out.cast() = [0_u64; 4];
                        none.err().map_or(0, code)
                    }
                }
            }

            read(
                image: *const u8, image_len: usize, path: *const u8, path_len: usize, position: u64,
                buffer: *mut u8, buffer_len: usize, out: *mut u64
            ) {
                let buffer = lent_mut(buffer, buffer_len);
                let count = super::read(lent(image, image_len), lent(path, path_len), position, buffer);
                told(count.map(|count| [count]), &mut *out.cast())
            }

            make_file(
                image: *mut u8, image_len: usize, path: *const u8, path_len: usize,
                date: *const u8, date_len: usize
            ) {
                let image = lent_mut(image, image_len);
                done(super::make(image, lent(path, path_len), lent(date, date_len), Kind::File))
            }

            make_directory(
                image: *mut u8, image_len: usize, path: *const u8, path_len: usize,
                date: *const u8, date_len: usize
            ) {
                let image = lent_mut(image, image_len);
                done(super::make(image, lent(path, path_len), lent(date, date_len), Kind::Directory))
            }

            write(
                image: *mut u8, image_len: usize, path: *const u8, path_len: usize, position: u64,
                bytes: *const u8, bytes_len: usize
            ) {
                let image = lent_mut(image, image_len);
                done(super::write(image, lent(path, path_len), position, lent(bytes, bytes_len)))
            }

            remove_file(image: *mut u8, image_len: usize, path: *const u8, path_len: usize) {
                done(super::remove_file(lent_mut(image, image_len), lent(path, path_len)))
            }

            remove_directory(image: *mut u8, image_len: usize, path: *const u8, path_len: usize) {
                done(super::remove_directory(lent_mut(image, image_len), lent(path, path_len)))
            }

            lock(image: *mut u8, image_len: usize, path: *const u8, path_len: usize) {
                done(super::set_lock(lent_mut(image, image_len), lent(path, path_len), true))
            }

            unlock(image: *mut u8, image_len: usize, path: *const u8, path_len: usize) {
                done(super::set_lock(lent_mut(image, image_len), lent(path, path_len), false))
            }
        }
    };
}

pub(crate) use base_functions;

base_functions!();

functions! {
    format(image: *mut u8, image_len: usize) {
        done(super::format(lent_mut(image, image_len)))
    }

    store(
        image: *const u8, image_len: usize, path: *const u8, path_len: usize,
        date: *const u8, date_len: usize, bytes: *const u8, bytes_len: usize, number: u64,
        page: *mut u8, page_len: usize, out: *mut u64
    ) {
        let (image, path) = (lent(image, image_len), lent(path, path_len));
        let (date, bytes) = (lent(date, date_len), lent(bytes, bytes_len));
        let stored = super::store(image, path, date, bytes, number, lent_mut(page, page_len));
        told(stored.map(|page| [page]), &mut *out.cast())
    }

    repair(image: *mut u8, image_len: usize) {
        done(super::repair(lent_mut(image, image_len)))
    }

    audit(image: *const u8, image_len: usize, owners: *mut u64) {
        let Audit { sound, owners: found } = super::audit(lent(image, image_len));
        *owners.cast::<[u64; OWNERS]>() = found;
        sound
    }

    propose(image: *const u8, image_len: usize, places: *mut u8, places_len: usize) {
        done(tidy::propose(lent(image, image_len), lent_mut(places, places_len)))
    }

    tidy(
        image: *const u8, image_len: usize, places: *const u8, places_len: usize,
        target: *mut u8, target_len: usize
    ) {
        let target = lent_mut(target, target_len);
        done(tidy::tidy(lent(image, image_len), lent(places, places_len), target))
    }

    links_read(
        image: *const u8, image_len: usize, directory: *const u8, directory_len: usize,
        numbers: *mut u64, numbers_len: usize, out: *mut u64
    ) {
        let numbers = lent_mut(numbers, numbers_len);
        let rows = links::read(lent(image, image_len), lent(directory, directory_len), numbers);
        told(rows.map(|rows| [rows]), &mut *out.cast())
    }

    links_write(
        image: *mut u8, image_len: usize, directory: *const u8, directory_len: usize,
        date: *const u8, date_len: usize, numbers: *const u64, numbers_len: usize
    ) {
        let (directory, date) = (lent(directory, directory_len), lent(date, date_len));
        let numbers = lent(numbers, numbers_len);
        done(links::write(lent_mut(image, image_len), directory, date, numbers))
    }

    links_find(
        image: *const u8, image_len: usize, directory: *const u8, directory_len: usize,
        count: u64, value: u64, out: *mut u64
    ) {
        let directory = lent(directory, directory_len);
        let figure = links::find(lent(image, image_len), directory, count, value);
        let values = |figure: Option<u64>| [figure.is_some().into(), figure.unwrap_or(0)];
        told(figure.map(values), &mut *out.cast())
    }

    links_check(
        image: *const u8, image_len: usize, directory: *const u8, directory_len: usize
    ) {
        done(links::check(lent(image, image_len), lent(directory, directory_len)))
    }
}
