//! The same for version 2: other images, and the calls that it has.

pub mod images;
pub mod lists;
pub mod pool;
pub mod seeds;

use zealfs_tests::v2::c::Library;
use zealfs_tests::v2::calls::Calls;
use zealfs_tests::v2::direct::Direct;
use zealfs_tests::v2::harness::{compare, report, Scenario};
use zealfs_tests::v2::plain::PLAIN;

/// Compares all implementations; panics with what differs, and with a list
/// that is as short as is found.
pub fn check(scenario: &Scenario) {
    let subjects: [(&str, &dyn Calls); 2] = [("direct", &Direct), ("library", &Library)];
    for (name, calls) in subjects {
        if let Some(difference) = compare(scenario, &PLAIN, calls, &mut |_, _| {}) {
            let origin = "the input";
            crate::differ(name, difference, || report(origin, scenario, &PLAIN, calls));
        }
    }
}
