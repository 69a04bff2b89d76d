//! Version 2's calls behind C's boundary, as version 1's ([`crate::boundary`]).

use super::calls::Calls;
use super::direct::behind as functions;
use crate::boundary::{answer, base, call, check_rest, first, REST, UNSET, UNSET_BYTE};
use crate::calls::{Answer, Base, DATE_BYTES, NAME_BYTES};

/// The calls of version 2 of a contestant whose functions are those of the
/// module. The file that has it brings the names in.
macro_rules! behind {
    ($contestant:ty, $functions:ident) => {
        base!($contestant, $functions);

        impl Calls for $contestant {
            fn format(&self, image: &mut [u8], code: u64) -> Answer {
                answer(call!($functions, format(image.as_mut_ptr(), image.len(), code;)))
            }

            fn entries(&self, image: &[u8], path: &[u8], first: u64, rows: &mut [u8]) -> Answer {
                let mut values = [UNSET; 3];
                let returned = call!($functions, entries(
                    image.as_ptr(), image.len(), path.as_ptr(), path.len(), first,
                    rows.as_mut_ptr(), rows.len(); values[..2]));
                check_rest(&values[2..], UNSET);
                Answer {
                    values: [values[0], values[1], 0, 0],
                    ..answer(returned)
                }
            }
        }
    };
}

#[cfg(any(feature = "library", test))]
pub(crate) use behind;

/// Plain Rust, called as C would call it.
pub struct Plainly;

behind!(Plainly, functions);
