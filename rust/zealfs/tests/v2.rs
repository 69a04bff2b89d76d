//! Version 2: the entries of a directory told at once and one by one, every page size, and the places of refusals.

use zealfs::v2::{self, PageSize};
use zealfs::{Date, Kind, Refusal};

fn date() -> Date {
    Date::new(2026, 11, 15, 12, 0, 0).unwrap()
}

fn formatted(length: usize) -> Vec<u8> {
    let mut image = vec![0xE5; length];
    v2::format(&mut image, PageSize::for_length(length)).unwrap();
    image
}

/// A directory of several windows: with holes, with a directory, with a locked file.
#[test]
fn entries_are_those_of_list() {
    let mut image = formatted(262_144);
    v2::make_directory(&mut image, "/A", date()).unwrap();
    for number in 0..300 {
        v2::make_file(&mut image, format!("/A/{number:016}"), date()).unwrap();
    }
    v2::make_directory(&mut image, "/A/B", date()).unwrap();
    v2::write(&mut image, format!("/A/{:016}", 131), 0, &[1; 70_000]).unwrap();
    v2::lock(&mut image, format!("/A/{:016}", 131)).unwrap();
    for number in [0, 127, 128, 129, 299] {
        v2::remove_file(&mut image, format!("/A/{number:016}")).unwrap();
    }
    let told: Vec<_> = v2::entries(&image, b"/A").map(Result::unwrap).collect();
    let all = (0..).map(|entry| v2::list(&image, "/A", entry)).take_while(|entry| *entry != Err(Refusal::PastTheEnd));
    let listed: Vec<_> = all.filter_map(Result::unwrap).collect();
    assert_eq!(told, listed);
    assert_eq!(told.len(), 296);
    assert!(told.iter().any(|entry| entry.kind == Kind::File { size: 70_000, locked: true }));
    assert_eq!(told.last().unwrap().kind, Kind::Directory { size: 512 });
    assert_eq!(v2::entries(&image, b"/A/B").count(), 0);
}

/// A directory whose entries fill windows to the last.
#[test]
fn a_full_window() {
    let mut image = formatted(65_536);
    v2::make_directory(&mut image, "/A", date()).unwrap();
    for number in 0..128 {
        v2::make_file(&mut image, format!("/A/{number}"), date()).unwrap();
    }
    assert_eq!(v2::entries(&image, b"/A").filter(Result::is_ok).count(), 128);
    assert_eq!(v2::list(&image, "/A", 128), Err(Refusal::PastTheEnd));
}

#[test]
fn a_refused_directory_has_one_item() {
    let mut image = formatted(2048);
    v2::make_file(&mut image, "/7", date()).unwrap();
    let items = |image: &[u8], path: &[u8]| v2::entries(image, path).map(Result::unwrap_err).collect::<Vec<_>>();
    assert_eq!(items(&image, b"/B"), [Refusal::NoSuchName { byte: 1 }]);
    assert_eq!(items(&image, b"/7"), [Refusal::NotADirectory { byte: 1 }]);
    assert_eq!(items(&image, b""), [Refusal::NotAPath]);
    assert_eq!(items(&[0; 2048], b"/"), [Refusal::WrongHeader]);
    assert_eq!(items(&[0; 100], b"/"), [Refusal::WrongLength]);
}

#[test]
fn page_sizes() {
    for (length, least) in [(2048, 0), (65_536, 0), (69_632, 1), (262_144, 1), (270_336, 2), (1_048_576, 2)] {
        assert_eq!(PageSize::for_length(length), PageSize::ALL[least]);
        for (code, size) in PageSize::ALL.into_iter().enumerate() {
            assert_eq!((size.code() as usize, PageSize::of_bytes(size.bytes())), (code, Some(size)));
            let goes = code >= least && length % (8 * size.bytes()) == 0;
            let answer = v2::format(&mut vec![0; length], size);
            assert_eq!(answer, if goes { Ok(()) } else { Err(Refusal::WrongShape) }, "{length} {size:?}");
        }
    }
    assert_eq!(PageSize::of_bytes(2048), None);
    assert_eq!(v2::format(&mut vec![0; v2::LONGEST + 2048], PageSize::Bytes1024), Err(Refusal::WrongLength));
}

/// Each fault once, by a byte of an image with /A on page 2 and /A/7 on page 3: 8 pages of 256 bytes, the table on page 1.
#[test]
fn faults_and_their_places() {
    let mut image = formatted(2048);
    v2::make_directory(&mut image, "/A", date()).unwrap();
    v2::make_file(&mut image, "/A/7", date()).unwrap();
    assert_eq!(v2::verdict(&image).map(|space| (space.pages, space.free)), Ok((8, 4)));
    let root = 32; // where the root's entries begin: 7 and a byte of the bitmap, rounded up to 32
    let faults = [
        (1, 3, Refusal::WrongHeader),
        (6, 1, Refusal::WrongShape),
        (2, 2, Refusal::WrongShape),
        (4, 5, Refusal::WrongCount),
        (7, 0x0D, Refusal::WrongCount),
        (root + 1, b'/', Refusal::BadEntry { directory: 0, entry: 0 }),
        (512 + 17, 8, Refusal::BadChain { directory: 2, entry: 0, passed: 0 }),
        (512 + 17, 1, Refusal::BadChain { directory: 2, entry: 0, passed: 0 }),
        (256, 9, Refusal::BadChain { directory: 0, entry: 255, passed: 0 }),
        (512 + 17, 2, Refusal::OwnedTwice { page: 2 }),
        (7, 0x2F, Refusal::LostPage { page: 5 }),
        (7, 0x07, Refusal::MarkedFree { page: 3 }),
    ];
    for (at, byte, fault) in faults {
        let mut damaged = image.clone();
        damaged[at] = byte;
        assert_eq!(v2::verdict(&damaged), Err(fault), "byte {at}");
        assert!(fault.is_of_the_image());
        let before = damaged.clone();
        assert_eq!(v2::make_file(&mut damaged, "/8", date()), Err(fault));
        assert_eq!(damaged, before, "a refused call changes nothing");
    }
}
