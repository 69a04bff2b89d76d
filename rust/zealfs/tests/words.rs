//! The words of this crate and those of `zealfs_text` and `zealfs_advice`, which come from one source, and the dates.

use std::ffi::{c_char, c_uint, CStr};
use zealfs::{Date, Refusal, WORDS};

extern "C" {
    fn zealfs_text(number: c_uint) -> *const c_char;
    fn zealfs_advice(number: c_uint) -> *const c_char;
}

fn words(number: u8) -> (String, String) {
    let both = unsafe { [zealfs_text(number.into()), zealfs_advice(number.into())].map(|text| CStr::from_ptr(text)) };
    let [text, advice] = both.map(|text| text.to_str().expect("plain text").to_owned());
    (text, advice)
}

#[test]
fn c_and_rust_have_the_same_words() {
    for number in 1..=u8::MAX {
        let ours = (zealfs::text(number).to_owned(), zealfs::advice(number).to_owned());
        assert_eq!(words(number), ours, "{number}");
        let is_there = WORDS.iter().any(|words| words.0 == number);
        assert_eq!(ours.0.is_empty(), !is_there, "{number}");
    }
    assert_eq!(words(0), ("done".to_owned(), String::new()));
}

#[test]
fn names_are_those_of_the_source() {
    // one refusal of each number that a call can be brought to give
    let mut image = vec![0; 2048];
    zealfs::format(&mut image).unwrap();
    let date = Date::new(2026, 11, 15, 12, 0, 0).unwrap();
    zealfs::make_directory(&mut image, "/A", date).unwrap();
    zealfs::make_file(&mut image, "/A/1", date).unwrap();
    zealfs::make_file(&mut image, "/2", date).unwrap();
    zealfs::lock(&mut image, "/2").unwrap();
    let damaged = |at: usize, byte: u8| {
        let mut damaged = image.clone();
        damaged[at] = byte;
        zealfs::verdict(&damaged).unwrap_err()
    };
    let mut full = image.clone();
    for name in ["/3", "/4", "/5"] {
        zealfs::make_file(&mut full, name, date).unwrap();
    }
    let mut listed = image.clone();
    zealfs::links::write(&mut listed, "/", date, &[1, 2, 7, 2, 2, 7]).unwrap();
    let mut other = image.clone();
    let met = [
        zealfs::verdict(&[]).unwrap_err(),
        zealfs::verdict(&[0; 2048]).unwrap_err(),
        damaged(3, 9),
        zealfs::find(&image, "").unwrap_err(),
        zealfs::find(&image, "/B").unwrap_err(),
        zealfs::find(&image, "/2/B").unwrap_err(),
        zealfs::read(&image, "/A", 0, &mut []).unwrap_err(),
        zealfs::make_file(&mut other, "/A", date).unwrap_err(),
        zealfs::make_file(&mut full, "/6", date).and(zealfs::make_file(&mut full, "/7", date)).unwrap_err(),
        zealfs::write(&mut other, "/A/1", 0, &[0; 2048]).unwrap_err(),
        zealfs::make_file(&mut other, "/9", Date::new(2026, 2, 31, 0, 0, 0).unwrap()).unwrap_err(),
        zealfs::read(&image, "/2", 1, &mut []).unwrap_err(),
        zealfs::remove_directory(&mut other, "/A").unwrap_err(),
        zealfs::remove_file(&mut other, "/").unwrap_err(),
        damaged(65, 0),
        damaged(64 + 17, 0),
        damaged(64 + 32 + 17, 1),
        damaged(4, 0x8F),
        damaged(4, 0x07),
        zealfs::links::write(&mut other, "/", date, &[1, 10, 1]).unwrap_err(),
        zealfs::links::write(&mut other, "/", date, &[1, 2, 1, 1, 2, 1]).unwrap_err(),
        zealfs::links::check(&listed, "/").unwrap_err(),
        zealfs::links::read(&listed, "/", &mut [0; 5]).unwrap_err(),
        zealfs::remove_file(&mut other, "/2").unwrap_err(),
        zealfs::v2::format(&mut [0; 2048], zealfs::v2::PageSize::Bytes512).unwrap_err(),
    ];
    assert_eq!(other, image, "a refused call changes nothing");
    for refusal in met {
        let shown = format!("{refusal:?}");
        let name = shown.split([' ', '{']).next().unwrap();
        let told = WORDS.iter().find(|words| words.0 == refusal.number()).expect("a number with words");
        assert_eq!(name, told.1);
        assert_eq!(format!("{refusal}"), format!("refused {}: {}", told.0, told.2));
    }
    let numbers: Vec<u8> = met.iter().map(|refusal| refusal.number()).collect();
    assert_eq!(numbers, [1, 2, 3, 4, 5, 6, 7, 8, 9, 10, 11, 12, 13, 14, 16, 17, 18, 19, 20, 21, 22, 23, 24, 25, 26]);
    assert_eq!(damaged(64 + 17, 0), Refusal::BadChain { directory: 0, entry: 0, passed: 0 });
    assert_eq!(zealfs::links::check(&listed, "/"), Err(Refusal::RowWithoutFile { row: 1 }));
    // the place of a row has 56 bits
    let mut rows: Vec<u64> = (0..70_000).flat_map(|value| [6, value, 1]).collect();
    rows[3 * 69_999] = 0;
    assert_eq!(zealfs::links::write(&mut other, "/", date, &rows), Err(Refusal::BrokenRow { at: 69_999 }));
}

#[test]
fn weekdays_of_the_calendar() {
    for (text, weekday) in
        [("2026-11-15", 7), ("2026-11-16", 1), ("2000-02-29", 2), ("1970-01-01", 4), ("2024-03-01", 5), ("0001-01-01", 1)]
    {
        assert_eq!(text.parse::<Date>().unwrap().bytes()[4], weekday, "{text}");
    }
}

#[test]
fn what_is_no_date() {
    for text in ["", "2026", "2026-1-1", "2026-11-15 ", "2026-11-15 12", "2026-11-15x12:00", "2026-11-15 12:00:0", "２026-11-15"] {
        assert!(text.parse::<Date>().is_err(), "{text}");
    }
    assert_eq!("2026-11-15T12:34".parse::<Date>().unwrap().to_string(), "2026-11-15 12:34:00");
    // whether a date exists is for the library to say
    assert!("2026-02-31".parse::<Date>().is_ok());
    assert_eq!(Date::new(10000, 1, 1, 0, 0, 0), None);
}
