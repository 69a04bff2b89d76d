//! The listing text, of the plain implementation, by the calls of each of the
//! others, and by the program if one is given.

use zealfs_tests::assemble::{assemble, nest, Order};
use zealfs_tests::desk::Desk;
use zealfs_tests::generate::starting_image;
use zealfs_tests::plain::Plain;
use zealfs_tests::random::Random;
use zealfs_tests::subjects::compared;
use zealfs_tests::{listing, settings};

/// Checks the windows of the library's own listing: every byte, their number, and
/// that the buffer stays behind them.
#[cfg(feature = "library")]
fn check_windows(image: &[u8], expected: &[u8]) {
    const KEPT: u8 = 0xEE;
    let rooms: &[usize] = if expected.len() < 500 { &[0, 1, 7, 64, 4096] } else { &[4096, 65_536, 1_000_000] };
    for &room in rooms {
        let starts = (0..expected.len() + 2).step_by(room.max(1));
        for from in starts {
            let mut buffer = vec![KEPT; room];
            let count = zealfs_tests::c::Library.listing(image, from as u64, &mut buffer) as usize;
            let rest = expected.get(from..).unwrap_or(b"");
            let window = &rest[..room.min(rest.len())];
            assert_eq!(count, window.len(), "from {from} with room {room}");
            listing::assert_same("a window of the library", &buffer[..count], window);
            assert!(buffer[count..].iter().all(|&byte| byte == KEPT));
        }
    }
    for from in [u64::MAX, u64::MAX - 1, 1 << 63] {
        assert_eq!(zealfs_tests::c::Library.listing(image, from, &mut [KEPT; 8]), 0);
    }
}

#[cfg(not(feature = "library"))]
fn check_windows(_: &[u8], _: &[u8]) {}

/// Checks all listings of the image, and answers the text.
fn listed(image: &[u8]) -> Vec<u8> {
    let expected = listing::plain(image);
    for subject in compared() {
        let text = listing::by_calls(subject.calls.as_ref(), image);
        listing::assert_same(subject.name, &text, &expected);
    }
    if let Some(program) = settings::listing_program() {
        let text = listing::by_program(&program, image);
        listing::assert_same("the program", &text, &expected);
    }
    check_windows(image, &expected);
    expected
}

#[test]
fn the_worked_example() {
    let mut desk = Desk::fresh(&Plain, 2048);
    assert_eq!(desk.make_file("/0042"), 0);
    assert_eq!(desk.write("/0042", 0, 256), 0);
    assert_eq!(desk.make_directory("/A"), 0);
    assert_eq!(desk.make_file("/A/7"), 0);
    let text = "pages 8 free 3\nF 256 /0042\nD 256 /A\nF 0 /A/7\n";
    assert_eq!(listed(&desk.image), text.as_bytes());
}

#[test]
fn contents_come_directly_after_their_directory() {
    let mut desk = Desk::fresh(&Plain, 8192);
    for path in ["/A", "/A/B", "/A/B/C", "/D"] {
        assert_eq!(desk.make_directory(path), 0);
    }
    for path in ["/A/x y", "/A/B/0", "/D/1", "/A/B/C/2", "/ "] {
        assert_eq!(desk.make_file(path), 0);
    }
    let text = "pages 32 free 22\nD 256 /A\nD 256 /A/B\nD 256 /A/B/C\nF 0 /A/B/C/2\n\
                F 0 /A/B/0\nF 0 /A/x y\nD 256 /D\nF 0 /D/1\nF 0 / \n";
    assert_eq!(listed(&desk.image), text.as_bytes());
}

#[test]
fn refused_images() {
    let fresh = Desk::fresh(&Plain, 65_536).image;
    let mut long = fresh.clone();
    long.push(0);
    let mut longer = fresh.clone();
    longer.extend([0; 2048]);
    for image in [&[][..], &fresh[..65_535], &long, &longer] {
        assert_eq!(listed(image), b"refused 1\n");
    }
    assert_eq!(listed(&fresh[..2048]), b"refused 2\n");
}

/// Of a fault only the number is printed, not its place.
#[test]
fn unsound_images() {
    let mut desk = Desk::fresh(&Plain, 2048);
    assert_eq!(desk.make_directory("/D"), 0);
    assert_eq!(desk.make_file("/D/F"), 0);
    // Bytes of the header, of D's entry (page 1) and of F's (page 2).
    let changes: [(usize, u8, &str); 7] = [
        (256 + 1, b'/', "refused 16\n"),
        (64 + 18, 1, "refused 16\n"),
        (256 + 19, 1, "refused 17\n"),
        (256 + 17, 1, "refused 18\n"),
        (4, 0x0F, "refused 19\n"),
        (4, 0x03, "refused 20\n"),
        (3, 6, "refused 3\n"),
    ];
    for (at, byte, text) in changes {
        let mut image = desk.image.clone();
        image[at] = byte;
        assert_eq!(listed(&image), text.as_bytes());
    }
}

#[test]
fn the_deepest_nest() {
    let tree = nest(256, 255, 16);
    let image = assemble(&tree, Order::Scattered, &mut Random::new(1));
    let text = listed(&image);
    assert_eq!(text.iter().filter(|&&byte| byte == b'\n').count(), 256);
}

#[test]
fn random_images() {
    let mut random = Random::new(settings::seed());
    for round in 0..300 {
        let length = if round % 50 == 0 { 65_536 } else { 4096 };
        listed(&starting_image(length, &mut random));
    }
}
