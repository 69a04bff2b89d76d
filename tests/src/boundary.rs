//! The boundary of the library, C's, with nothing of any library in it: what a
//! caller hands over and takes back, and what the tests see to beside it. The
//! benchmark has plain Rust behind the same ([`Plainly`]), for "the same call" of
//! a C library is one that C could make.

use crate::calls::{Answer, Audit, Base, Calls, DATE_BYTES, NAME_BYTES, OWNERS};
use crate::direct::behind as functions;

/// Calls a function. What comes back is hidden from the compiler, which sees the
/// body of one contestant's functions and not of the other's.
macro_rules! call {
    ($functions:ident, $function:ident($($lent:expr),*; $($array:expr),*)) => {
        // SAFETY: every pointer comes from a slice or an array that is lent
        // for the time of the call, together with its length, and the arrays
        // have the lengths that the header states.
        std::hint::black_box(unsafe {
            $functions::$function(
                $($lent,)*
                $($array.as_mut_ptr()),* // how arrays are passed
            )
        })
    };
}

pub(crate) use call;

/// What the out arrays hold before a call, so that one the library forgets to
/// set is seen.
pub const UNSET: u64 = 0xA5A5_A5A5_A5A5_A5A5;
pub const UNSET_BYTE: u8 = 0xA5;

/// Bytes after an out array that the library has to leave alone.
pub const REST: usize = 8;

pub fn check_rest<T: PartialEq>(rest: &[T], unset: T) {
    let is_kept = rest.iter().all(|item| *item == unset);
    assert!(is_kept, "the library writes past an out array");
}

/// An array without the rest after it.
pub fn first<const LENGTH: usize>(bytes: &[u8]) -> [u8; LENGTH] {
    bytes[..LENGTH].try_into().expect("an array and its rest")
}

/// An answer whose number and place are those that the library returned. The
/// place of a row is one number.
pub fn answer(returned: u64) -> Answer {
    let place = match returned as u8 {
        21..=23 => [returned >> 8, 0, 0],
        _ => [
            returned >> 8 & 0xFFFF,
            returned >> 24 & 0xFFFF,
            returned >> 40,
        ],
    };
    Answer {
        number: returned as u8,
        place,
        ..Answer::default()
    }
}

/// The calls of both versions, of a contestant whose functions are those of the
/// module.
macro_rules! base {
    ($contestant:ty, $functions:ident) => {
        impl Base for $contestant {
            fn verdict(&self, image: &[u8]) -> Answer {
                let mut values = [UNSET; 3];
                let returned = call!($functions, verdict(image.as_ptr(), image.len(); values[..2]));
                check_rest(&values[2..], UNSET);
                Answer {
                    values: [values[0], values[1], 0, 0],
                    ..answer(returned)
                }
            }

            fn find(&self, image: &[u8], path: &[u8]) -> Answer {
                let mut values = [UNSET; 4];
                let mut date = [UNSET_BYTE; DATE_BYTES + REST];
                let returned = call!($functions, find(
                    image.as_ptr(), image.len(), path.as_ptr(), path.len();
                    values[..3], date[..DATE_BYTES]));
                check_rest(&values[3..], UNSET);
                check_rest(&date[DATE_BYTES..], UNSET_BYTE);
                Answer {
                    values: [values[0], values[1], values[2], 0],
                    date: first(&date),
                    ..answer(returned)
                }
            }

            fn list(&self, image: &[u8], path: &[u8], entry: u64) -> Answer {
                let mut values = [UNSET; 5];
                let mut name = [UNSET_BYTE; NAME_BYTES + REST];
                let mut date = [UNSET_BYTE; DATE_BYTES + REST];
                let returned = call!($functions, list(
                    image.as_ptr(), image.len(), path.as_ptr(), path.len(), entry;
                    values[..4], name[..NAME_BYTES], date[..DATE_BYTES]));
                check_rest(&values[4..], UNSET);
                check_rest(&name[NAME_BYTES..], UNSET_BYTE);
                check_rest(&date[DATE_BYTES..], UNSET_BYTE);
                Answer {
                    values: [values[0], values[1], values[2], values[3]],
                    name: first(&name),
                    date: first(&date),
                    ..answer(returned)
                }
            }

            fn read(&self, image: &[u8], path: &[u8], position: u64, buffer: &mut [u8]) -> Answer {
                let mut values = [UNSET; 2];
                let returned = call!($functions, read(
                    image.as_ptr(), image.len(), path.as_ptr(), path.len(), position,
                    buffer.as_mut_ptr(), buffer.len(); values[..1]));
                check_rest(&values[1..], UNSET);
                Answer {
                    values: [values[0], 0, 0, 0],
                    ..answer(returned)
                }
            }

            fn make_file(&self, image: &mut [u8], path: &[u8], date: &[u8]) -> Answer {
                answer(call!($functions, make_file(
                    image.as_mut_ptr(), image.len(), path.as_ptr(), path.len(),
                    date.as_ptr(), date.len();)))
            }

            fn make_directory(&self, image: &mut [u8], path: &[u8], date: &[u8]) -> Answer {
                answer(call!($functions, make_directory(
                    image.as_mut_ptr(), image.len(), path.as_ptr(), path.len(),
                    date.as_ptr(), date.len();)))
            }

            fn write(&self, image: &mut [u8], path: &[u8], position: u64, bytes: &[u8]) -> Answer {
                answer(call!($functions, write(
                    image.as_mut_ptr(), image.len(), path.as_ptr(), path.len(), position,
                    bytes.as_ptr(), bytes.len();)))
            }

            fn remove_file(&self, image: &mut [u8], path: &[u8]) -> Answer {
                answer(call!($functions, remove_file(
                    image.as_mut_ptr(), image.len(), path.as_ptr(), path.len();)))
            }

            fn remove_directory(&self, image: &mut [u8], path: &[u8]) -> Answer {
                answer(call!($functions, remove_directory(
                    image.as_mut_ptr(), image.len(), path.as_ptr(), path.len();)))
            }

            fn lock(&self, image: &mut [u8], path: &[u8]) -> Answer {
                answer(call!($functions, lock(
                    image.as_mut_ptr(), image.len(), path.as_ptr(), path.len();)))
            }

            fn unlock(&self, image: &mut [u8], path: &[u8]) -> Answer {
                answer(call!($functions, unlock(
                    image.as_mut_ptr(), image.len(), path.as_ptr(), path.len();)))
            }
        }
    };
}

pub(crate) use base;

/// The calls of version 1 of a contestant whose functions are those of the
/// module. The file that has it brings the names in.
macro_rules! behind {
    ($contestant:ty, $functions:ident) => {
        base!($contestant, $functions);

        impl Calls for $contestant {
            fn format(&self, image: &mut [u8]) -> Answer {
                answer(call!($functions, format(image.as_mut_ptr(), image.len();)))
            }

            fn store(
                &self,
                image: &[u8],
                path: &[u8],
                date: &[u8],
                content: &[u8],
                number: u64,
                page: &mut [u8],
            ) -> Answer {
                let mut values = [UNSET; 2];
                let returned = call!($functions, store(
                    image.as_ptr(), image.len(), path.as_ptr(), path.len(),
                    date.as_ptr(), date.len(), content.as_ptr(), content.len(), number,
                    page.as_mut_ptr(), page.len(); values[..1]));
                check_rest(&values[1..], UNSET);
                Answer {
                    values: [values[0], 0, 0, 0],
                    ..answer(returned)
                }
            }

            fn repair(&self, image: &mut [u8]) -> Answer {
                answer(call!($functions, repair(image.as_mut_ptr(), image.len();)))
            }

            fn audit(&self, image: &[u8]) -> Audit {
                let mut owners = [UNSET; OWNERS + 1];
                let sound = call!($functions, audit(image.as_ptr(), image.len(); owners[..OWNERS]));
                check_rest(&owners[OWNERS..], UNSET);
                Audit {
                    sound,
                    owners: owners[..OWNERS].try_into().expect("a row and its rest"),
                }
            }

            fn propose(&self, image: &[u8], places: &mut [u8]) -> Answer {
                answer(call!($functions, propose(
                    image.as_ptr(), image.len(), places.as_mut_ptr(), places.len();
                )))
            }

            fn tidy(&self, image: &[u8], places: &[u8], target: &mut [u8]) -> Answer {
                answer(call!($functions, tidy(
                    image.as_ptr(), image.len(), places.as_ptr(), places.len(),
                    target.as_mut_ptr(), target.len();
                )))
            }

            fn links_read(&self, image: &[u8], directory: &[u8], numbers: &mut [u64]) -> Answer {
                let mut values = [UNSET; 2];
                let returned = call!($functions, links_read(
                    image.as_ptr(), image.len(), directory.as_ptr(), directory.len(),
                    numbers.as_mut_ptr(), numbers.len(); values[..1]));
                check_rest(&values[1..], UNSET);
                Answer {
                    values: [values[0], 0, 0, 0],
                    ..answer(returned)
                }
            }

            fn links_write(
                &self,
                image: &mut [u8],
                directory: &[u8],
                date: &[u8],
                numbers: &[u64],
            ) -> Answer {
                answer(call!($functions, links_write(
                    image.as_mut_ptr(), image.len(), directory.as_ptr(), directory.len(),
                    date.as_ptr(), date.len(), numbers.as_ptr(), numbers.len();)))
            }

            fn links_find(&self, image: &[u8], directory: &[u8], count: u64, value: u64) -> Answer {
                let mut values = [UNSET; 3];
                let returned = call!($functions, links_find(
                    image.as_ptr(), image.len(), directory.as_ptr(), directory.len(), count, value;
                    values[..2]));
                check_rest(&values[2..], UNSET);
                Answer {
                    values: [values[0], values[1], 0, 0],
                    ..answer(returned)
                }
            }

            fn links_check(&self, image: &[u8], directory: &[u8]) -> Answer {
                answer(call!($functions, links_check(
                    image.as_ptr(), image.len(), directory.as_ptr(), directory.len();)))
            }
        }
    };
}

#[cfg(feature = "library")]
pub(crate) use behind;

/// Plain Rust, called as C would call it.
pub struct Plainly;

behind!(Plainly, functions);
