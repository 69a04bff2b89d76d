//! Libraries that are broken at C's boundary, to see that the harness tells of
//! each. Those whose answers are wrong are in [`super::wrong`].

use super::boundary::behind;
use super::calls::Calls;
use super::generate::{damaged_scenario, scenario};
use super::harness::{compare, Scenario};
use super::plain::PLAIN;
use crate::boundary::{answer, base, call, check_rest, first, REST, UNSET, UNSET_BYTE};
use crate::calls::{Answer, Base, DATE_BYTES, NAME_BYTES};
use std::panic::{catch_unwind, AssertUnwindSafe};

/// A library of that name: `direct` behind the boundary, but for these functions.
macro_rules! broken {
    ($library:ident, $module:ident: $($function:ident($($argument:ident: $type:ty),*) $body:block)*) => {
        mod $module {
            use crate::v2::direct::behind;
            pub use crate::v2::direct::behind::*;
            $(pub unsafe extern "C" fn $function($($argument: $type),*) -> u64 $body)*
        }

        struct $library;

        behind!($library, $module);
    };
}

broken!(ArrayKept, array_kept: verdict(image: *const u8, image_len: usize, out: *mut u64) {
    let kept = *out.cast::<[u64; 2]>();
    let code = behind::verdict(image, image_len, out);
    if code != 0 {
        *out.cast() = kept;
    }
    code
});

broken!(NameKept, name_kept: list(
    image: *const u8, image_len: usize, path: *const u8, path_len: usize, entry: u64,
    out: *mut u64, name: *mut u8, date: *mut u8
) {
    let kept = *name.cast::<[u8; 16]>();
    let code = behind::list(image, image_len, path, path_len, entry, out, name, date);
    if code != 0 {
        *name.cast() = kept;
    }
    code
});

broken!(ValueTooMany, value_too_many: find(
    image: *const u8, image_len: usize, path: *const u8, path_len: usize,
    out: *mut u64, date: *mut u8
) {
    *out.add(3) = 0;
    behind::find(image, image_len, path, path_len, out, date)
});

broken!(BytePastBuffer, byte_past_buffer: read(
    image: *const u8, image_len: usize, path: *const u8, path_len: usize, position: u64,
    buffer: *mut u8, buffer_len: usize, out: *mut u64
) {
    *buffer.add(buffer_len) = 0;
    behind::read(image, image_len, path, path_len, position, buffer, buffer_len, out)
});

broken!(BufferCleared, buffer_cleared: read(
    image: *const u8, image_len: usize, path: *const u8, path_len: usize, position: u64,
    buffer: *mut u8, buffer_len: usize, out: *mut u64
) {
    buffer.write_bytes(0, buffer_len);
    behind::read(image, image_len, path, path_len, position, buffer, buffer_len, out)
});

broken!(RowsCleared, rows_cleared: entries(
    image: *const u8, image_len: usize, path: *const u8, path_len: usize, from: u64,
    rows: *mut u8, rows_len: usize, out: *mut u64
) {
    rows.write_bytes(0, rows_len);
    behind::entries(image, image_len, path, path_len, from, rows, rows_len, out)
});

broken!(RowPastRows, row_past_rows: entries(
    image: *const u8, image_len: usize, path: *const u8, path_len: usize, from: u64,
    rows: *mut u8, rows_len: usize, out: *mut u64
) {
    let code = behind::entries(image, image_len, path, path_len, from, rows, rows_len, out);
    if code == 0 && *out < *out.add(1) - from {
        rows.add(*out as usize * 32).write_bytes(0, 32);
    }
    code
});

broken!(WrittenThoughRefused, written_though_refused: write(
    image: *mut u8, image_len: usize, path: *const u8, path_len: usize, position: u64,
    bytes: *const u8, bytes_len: usize
) {
    let code = behind::write(image, image_len, path, path_len, position, bytes, bytes_len);
    if code == 10 {
        *image.add(image_len - 1) ^= 1;
    }
    code
});

broken!(PlaceInOneByte, place_in_one_byte: verdict(
    image: *const u8, image_len: usize, out: *mut u64
) {
    behind::verdict(image, image_len, out) & 0xFFFF
});

broken!(NoPlace, no_place: verdict(image: *const u8, image_len: usize, out: *mut u64) {
    behind::verdict(image, image_len, out) & 0xFF
});

/// Whether a list shows a difference; a check of the boundary itself panics.
fn shows(calls: &dyn Calls, list: &Scenario) -> bool {
    let compared = || compare(list, &PLAIN, calls, &mut |_, _| {}).is_some();
    catch_unwind(AssertUnwindSafe(compared)).unwrap_or(true)
}

#[test]
fn every_broken_library_is_told() {
    let lists = (0..3_000).flat_map(|seed| [scenario(seed), damaged_scenario(seed)]);
    let lists: Vec<Scenario> = lists.filter(|list| list.image.len() <= 16_384).collect();
    let libraries: [(&str, &dyn Calls); 10] = [
        ("ArrayKept", &ArrayKept),
        ("NameKept", &NameKept),
        ("ValueTooMany", &ValueTooMany),
        ("BytePastBuffer", &BytePastBuffer),
        ("BufferCleared", &BufferCleared),
        ("RowsCleared", &RowsCleared),
        ("RowPastRows", &RowPastRows),
        ("WrittenThoughRefused", &WrittenThoughRefused),
        ("PlaceInOneByte", &PlaceInOneByte),
        ("NoPlace", &NoPlace),
    ];
    for (name, calls) in libraries {
        let told = lists.iter().position(|list| shows(calls, list));
        println!("{name}: list {told:?}");
        assert!(told.is_some(), "{name} does not show");
    }
}
