//! Dates as an image holds them.

use core::fmt;
use core::str::FromStr;

/// A date and time as an image holds it: eight bytes of two decimal digits each, for century, year, month, day, weekday, hour, minute, second.
///
/// Whether it exists is the library's to judge: a make with one that does not is refused with 11. Stored dates are not judged, so that these bytes
/// may be anything.
///
/// ```
/// use zealfs::Date;
/// let date: Date = "2026-11-15 12:00:00".parse().unwrap();
/// assert_eq!(date.bytes(), [0x20, 0x26, 0x11, 0x15, 0x07, 0x12, 0x00, 0x00]);
/// assert_eq!(date.to_string(), "2026-11-15 12:00:00");
/// assert!("15.11.2026".parse::<Date>().is_err());
/// ```
#[derive(Clone, Copy, Debug, PartialEq, Eq, Hash)]
pub struct Date([u8; 8]);

/// The text is not written as a date.
#[derive(Clone, Copy, Debug, PartialEq, Eq)]
pub struct NotADate;

impl Date {
    /// From the eight bytes.
    pub const fn from_bytes(bytes: [u8; 8]) -> Self {
        Self(bytes)
    }

    /// The eight bytes.
    pub const fn bytes(self) -> [u8; 8] {
        self.0
    }

    /// From numbers, with the weekday that the calendar gives (Monday is 1, Sunday 7). None where a number has too many digits.
    pub fn new(year: u16, month: u8, day: u8, hour: u8, minute: u8, second: u8) -> Option<Self> {
        if year > 9999 || [month, day, hour, minute, second].iter().any(|&part| part > 99) {
            return None;
        }
        let parts = [(year / 100) as u8, (year % 100) as u8, month, day, weekday(year, month, day), hour, minute, second];
        Some(Self(parts.map(|part| part / 10 * 16 + part % 10)))
    }

    /// Whether all bytes are 0, as those of the root's date.
    pub fn is_zero(self) -> bool {
        self.0 == [0; 8]
    }
}

/// The day of the week, of a day that exists; of another, some day.
fn weekday(year: u16, month: u8, day: u8) -> u8 {
    // the year begins in March, so that the leap day is its last
    let (month, day) = (u32::from(month), u32::from(day));
    let (years, months) = if month > 2 { (u32::from(year) + 400, month - 3) } else { (u32::from(year) + 399, month + 9) };
    let days = years * 365 + years / 4 - years / 100 + years / 400 + (months * 153 + 2) / 5 + day;
    ((days + 1) % 7 + 1) as u8
}

impl fmt::Display for Date {
    fn fmt(&self, out: &mut fmt::Formatter<'_>) -> fmt::Result {
        let [century, year, month, day, _, hour, minute, second] = self.0;
        write!(out, "{century:02x}{year:02x}-{month:02x}-{day:02x} {hour:02x}:{minute:02x}:{second:02x}")
    }
}

impl fmt::Display for NotADate {
    fn fmt(&self, out: &mut fmt::Formatter<'_>) -> fmt::Result {
        out.write_str("a date is written YYYY-MM-DD, YYYY-MM-DD HH:MM or YYYY-MM-DD HH:MM:SS")
    }
}

impl core::error::Error for NotADate {}

impl FromStr for Date {
    type Err = NotADate;

    /// Reads `YYYY-MM-DD`, with ` HH:MM` or ` HH:MM:SS` after it if wanted; a `T` may stand for the space.
    fn from_str(text: &str) -> Result<Self, NotADate> {
        const FORM: &[u8; 19] = b"0000-00-00 00:00:00";
        let text = text.as_bytes();
        let fits = |(&byte, &form): (&u8, &u8)| match form {
            b'0' => byte.is_ascii_digit(),
            b' ' => byte == b' ' || byte == b'T',
            form => byte == form,
        };
        if !matches!(text.len(), 10 | 16 | 19) || !text.iter().zip(FORM).all(fits) {
            return Err(NotADate);
        }
        let number = |from: usize, to: usize| {
            let digits = text.get(from..to).unwrap_or(b"");
            digits.iter().fold(0, |number, digit| number * 10 + u16::from(digit - b'0'))
        };
        let part = |from: usize| number(from, from + 2) as u8;
        Self::new(number(0, 4), part(5), part(8), part(11), part(14), part(17)).ok_or(NotADate)
    }
}
