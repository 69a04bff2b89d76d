//! Two targets for libFuzzer for each version. Each decodes an input into an image and a list of
//! calls, performs the list on the plain implementation, on the one on bytes
//! and on the C library, and panics where they part.
//!
//! The library comes from another compiler and is not instrumented. What guides
//! the fuzzer is the coverage of the two implementations in Rust, which have to
//! take the same decisions.
//!
//! * [`images`]: the input is an image, or edits to a sound one; the calls are
//!   always those that look at everything and then change some of it.
//! * [`lists`]: the input is a list of calls on a sound image.
//! * [`v2`] has both for version 2.

pub mod arguments;
pub mod images;
pub mod input;
pub mod lists;
pub mod looks;
pub mod pool;
pub mod seeds;
pub mod v2;

use zealfs_tests::c::Library;
use zealfs_tests::calls::Calls;
use zealfs_tests::direct::Direct;
use zealfs_tests::harness::{compare, Difference, Scenario};
use zealfs_tests::plain::Plain;
use zealfs_tests::shrink::report;

/// Compares all implementations; panics with what differs, and with a list
/// that is as short as is found.
pub fn check(scenario: &Scenario) {
    let subjects: [(&str, &dyn Calls); 2] = [("direct", &Direct), ("library", &Library)];
    for (name, calls) in subjects {
        if let Some(difference) = compare(scenario, &Plain, calls, &mut |_, _| {}) {
            differ(name, difference, || {
                report("the input", scenario, &Plain, calls)
            });
        }
    }
}

/// Tells a difference, and again with the shortest list that is found.
fn differ(name: &str, difference: Difference, report: impl FnOnce() -> String) -> ! {
    // Told before the list is made shorter, which takes a while.
    let Difference { step, what } = difference;
    eprintln!("{name} differs from plain after call {step}:\n{what}");
    panic!("{name} differs from plain:\n{}", report());
}

/// The two functions that libFuzzer's main calls; `$decode` makes the image and
/// the calls of an input, `$check` compares, `$images` are the starting images.
#[macro_export]
macro_rules! target {
    ($decode:path, $check:path, $images:path) => {
        /// Prepares the starting images, so that making them is not taken for
        /// what the first input covers.
        #[no_mangle]
        pub extern "C" fn LLVMFuzzerInitialize(
            _count: *mut i32,
            _arguments: *mut *mut *mut i8,
        ) -> i32 {
            $images();
            0
        }

        /// Tries one input.
        ///
        /// # Safety
        ///
        /// The caller is libFuzzer: `data` points to `size` bytes.
        #[no_mangle]
        pub unsafe extern "C" fn LLVMFuzzerTestOneInput(data: *const u8, size: usize) -> i32 {
            let input = match size {
                0 => &[],
                _ => std::slice::from_raw_parts(data, size),
            };
            $check(&$decode(input));
            0
        }
    };
}
