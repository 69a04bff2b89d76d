//! The time of day at the desk. The standard library has no local time, so that the C library is asked.

use std::ffi::{c_char, c_int, c_long};
use std::time::{SystemTime, UNIX_EPOCH};
use zealfs::Date;

/// `struct tm` of the C library (glibc and musl on Linux).
#[repr(C)]
struct BrokenDown {
    second: c_int,
    minute: c_int,
    hour: c_int,
    day: c_int,
    month: c_int,
    year: c_int,
    weekday: c_int,
    day_of_year: c_int,
    is_summer: c_int,
    offset: c_long,
    zone: *const c_char,
}

extern "C" {
    fn localtime_r(seconds: *const i64, to: *mut BrokenDown) -> *mut BrokenDown;
}

/// Now, by the desk's clock and time zone; none outside the years 0 to 9999.
pub fn now() -> Option<Date> {
    let seconds = i64::try_from(SystemTime::now().duration_since(UNIX_EPOCH).ok()?.as_secs()).ok()?;
    let mut local = BrokenDown {
        second: 0,
        minute: 0,
        hour: 0,
        day: 0,
        month: 0,
        year: 0,
        weekday: 0,
        day_of_year: 0,
        is_summer: 0,
        offset: 0,
        zone: std::ptr::null(),
    };
    // SAFETY: both pointers are those of live values of the types that C has, and the function keeps neither.
    if unsafe { localtime_r(&seconds, &mut local) }.is_null() {
        return None;
    }
    let part = |number: c_int| u8::try_from(number).ok();
    let year = u16::try_from(local.year + 1900).ok()?;
    // a leap second is no second of an image's date
    let second = part(local.second)?.min(59);
    Date::new(year, part(local.month + 1)?, part(local.day)?, part(local.hour)?, part(local.minute)?, second)
}
