//! The cases of the bench, numbered as in document 01 and with the values of
//! document 02 §1, by which an empty file has a page, and §2, by which a fault
//! has a number and a place, on every implementation.

use zealfs_tests::calls::{Answer, Kind};
use zealfs_tests::desk::{pattern, Desk, DATE};
use zealfs_tests::plain::pages_of_file;
use zealfs_tests::plain::reader::is_allocated;
use zealfs_tests::subjects::all;

fn on_all(length: usize, case: fn(&mut Desk)) {
    for subject in all() {
        println!("{}", subject.name);
        case(&mut Desk::fresh(subject.calls.as_ref(), length));
    }
}

fn padded(name: &str) -> [u8; 16] {
    let mut padded = [0; 16];
    padded[..name.len()].copy_from_slice(name.as_bytes());
    padded
}

#[test]
fn case_1_format() {
    on_all(2048, |desk| {
        assert_eq!(desk.image[..5], [0x5A, 1, 1, 7, 1]);
        assert!(desk.image[5..256].iter().all(|&byte| byte == 0));
        assert!(desk.image[256..].iter().all(|&byte| byte == 0xE5));
        assert_eq!(desk.free(), 7);
    });
}

#[test]
fn case_2_leading_zeros_count() {
    on_all(2048, |desk| {
        assert_eq!(desk.make_file("/0042"), 0);
        assert_eq!(desk.make_file("/42"), 0);
        for (entry, name) in [(0, "0042"), (1, "42")] {
            let listed = Answer::occupied(Kind::File, padded(name), 0, false, DATE);
            assert_eq!(desk.list("/", entry), listed);
        }
        assert_eq!(desk.free(), 5);
        let refusal = desk.find("/00042");
        assert_eq!((refusal.number, refusal.place), (5, [1, 0, 0]));
    });
}

#[test]
fn cases_3_and_4_a_page_and_one_byte_more() {
    on_all(2048, |desk| {
        assert_eq!(desk.make_file("/0042"), 0);
        assert_eq!(desk.write("/0042", 0, 255), 0);
        assert_eq!(desk.image[64 + 17..64 + 20], [1, 0xFF, 0x00]);
        assert_eq!(desk.image[4], 0x03);
        assert_eq!(desk.free(), 6);

        assert_eq!(desk.write("/0042", 255, 1), 0);
        assert_eq!((desk.image[256], desk.image[512]), (2, 0));
        assert_eq!(desk.image[64 + 17..64 + 20], [1, 0x00, 0x01]);
        assert_eq!(desk.free(), 5);
        assert_eq!(desk.find("/0042").values[0], Kind::File.value());
    });
}

#[test]
fn case_5_pages_of_a_size() {
    let sizes = [(512, 3), (0, 1), (255, 1), (256, 2)];
    for (size, pages) in sizes {
        assert_eq!(pages_of_file(size), pages);
    }
    on_all(2048, |desk| {
        for (size, pages) in [(512, 3), (0, 1), (255, 1), (256, 2)] {
            assert_eq!(desk.make_file("/F"), 0);
            assert_eq!(desk.write("/F", 0, size), 0);
            assert_eq!(desk.free(), 7 - pages);
            assert_eq!(desk.remove_file("/F"), 0);
        }
    });
}

#[test]
fn case_6_page_154() {
    on_all(65_536, |desk| {
        assert_eq!(desk.make_file("/F"), 0);
        assert_eq!(desk.write("/F", 0, 153 * 255), 0);
        assert_eq!(desk.image[4 + 19], 0x03);
        assert!(!is_allocated(&desk.image, 154));
        assert_eq!(desk.make_directory("/D"), 0);
        assert_eq!(desk.image[4 + 19], 0x07);
        assert_eq!(desk.image[96 + 17], 154);
        assert!(is_allocated(&desk.image, 154));
    });
}

#[test]
fn cases_7_and_11_a_full_image() {
    on_all(2048, |desk| {
        assert_eq!(desk.make_file("/F"), 0);
        assert_eq!(desk.write("/F", 0, 1786), 10);
        assert_eq!(desk.write("/F", 0, 1785), 0);
        assert_eq!(desk.free(), 0);
        assert_eq!(desk.content("/F"), pattern(1785));

        assert_eq!(desk.remove_file("/F"), 0);
        assert_eq!(desk.free(), 7);
        assert_eq!(desk.make_file("/G"), 0);
        assert_eq!(desk.write("/G", 0, 1785), 0);
        assert_eq!(desk.content("/G"), pattern(1785));
    });
}

#[test]
fn case_8_a_full_root() {
    on_all(2048, |desk| {
        for name in ["/A", "/B", "/C", "/D", "/E", "/F"] {
            assert_eq!(desk.make_directory(name), 0);
        }
        assert_eq!(desk.free(), 1);
        assert_eq!(desk.make_directory("/G"), 9);
        assert_eq!(desk.make_file("/G"), 9);
    });
}

#[test]
fn case_9_names_and_paths() {
    on_all(2048, |desk| {
        assert_eq!(desk.make_file("/ABCDEFGHIJKLMNOP"), 0);
        assert_eq!(desk.make_file("/ABCDEFGHIJKLMNOPQ"), 4);
        for path in ["//A", "/A/", "", "A", "//", "/A//B"] {
            assert_eq!(desk.make_directory(path), 4, "{path}");
            assert_eq!(desk.find(path).number, 4, "{path}");
        }
        assert_eq!(desk.make_file("/."), 0);
        assert_eq!(desk.make_file("/.."), 0);
        assert_eq!(desk.make_file("/..."), 0);
    });
}

#[test]
fn case_10_write_at_and_past_the_size() {
    on_all(2048, |desk| {
        assert_eq!(desk.make_file("/F"), 0);
        assert_eq!(desk.write("/F", 0, 255), 0);
        assert_eq!(desk.write("/F", 256, 1), 12);
        assert_eq!(desk.write("/F", 255, 300), 0);
        let expected = [pattern(255), pattern(300)].concat();
        assert_eq!(desk.content("/F"), expected);
    });
}

#[test]
fn case_12_the_longest_file() {
    on_all(65_536, |desk| {
        assert_eq!(desk.make_file("/F"), 0);
        assert_eq!(desk.write("/F", 0, 65_026), 10);
        assert_eq!(desk.free(), 254);
        assert_eq!(desk.write("/F", 0, 65_025), 0);
        assert_eq!(desk.free(), 0);
        assert_eq!(desk.content("/F"), pattern(65_025));
        assert_eq!(desk.write("/F", 65_025, 1), 10);
    });
}

#[test]
fn case_13_shared_pages_and_loops() {
    on_all(2048, |desk| {
        assert_eq!(desk.make_file("/F"), 0);
        assert_eq!(desk.make_file("/G"), 0);
        assert_eq!(desk.write("/F", 0, 255), 0);
        assert_eq!(desk.write("/G", 0, 255), 0);
        let sound = desk.image.clone();
        let told = |image: &[u8]| {
            let verdict = desk.calls.verdict(image);
            (verdict.number, verdict.place)
        };
        // Both on page 1, and page 2 free.
        let mut image = sound.clone();
        image[96 + 17] = 1;
        image[3] += 1;
        image[4] = 0x03;
        assert_eq!(told(&image), (18, [1, 0, 0]));
        // A chain that returns to itself, and a size that ends it before.
        let mut image = sound;
        image[256] = 1;
        assert_eq!(told(&image), (17, [0, 0, 1]));
        image[64 + 18..64 + 20].copy_from_slice(&256_u16.to_le_bytes());
        assert_eq!(told(&image), (18, [1, 0, 0]));
    });
}

#[test]
fn a_write_inside_keeps_what_is_around_it() {
    on_all(2048, |desk| {
        assert_eq!(desk.make_file("/F"), 0);
        assert_eq!(desk.write("/F", 0, 600), 0);
        let free = desk.free();
        assert_eq!(desk.write("/F", 250, 10), 0);
        let mut expected = pattern(600);
        expected[250..260].copy_from_slice(&pattern(10));
        assert_eq!(desk.content("/F"), expected);
        assert_eq!(desk.free(), free);
    });
}

#[test]
fn the_root_is_found() {
    on_all(2048, |desk| {
        let root = Answer::found(Kind::Directory, 256, false, [0; 8]);
        assert_eq!(desk.find("/"), root);
    });
}

#[test]
fn make_writes_all_of_the_entry_and_removal_only_the_flags() {
    on_all(2048, |desk| {
        desk.image[64..96].fill(0x7F);
        assert_eq!(desk.make_directory("/A"), 0);
        let mut entry = [0; 32];
        entry[..2].copy_from_slice(&[0x81, b'A']);
        entry[17..20].copy_from_slice(&[1, 0, 1]);
        entry[20..28].copy_from_slice(&DATE);
        assert_eq!(desk.image[64..96], entry);
        assert!(desk.image[256..512].iter().all(|&byte| byte == 0));

        assert_eq!(desk.make_file("/A/7"), 0);
        assert_eq!(desk.remove_file("/A/7"), 0);
        let page = desk.image[256..512].to_vec();
        assert_eq!(desk.remove_directory("/A"), 0);
        entry[0] = 0;
        assert_eq!(desk.image[64..96], entry);
        assert_eq!(desk.image[256..512], page);
    });
}

#[test]
fn directories_nest_to_the_page_limit() {
    on_all(65_536, |desk| {
        let mut path = String::new();
        for _ in 0..254 {
            path += "/ABCDEFGHIJKLMNOP";
            assert_eq!(desk.make_directory(&path), 0);
        }
        assert_eq!(desk.free(), 1);
        assert_eq!(desk.make_file(&format!("{path}/A")), 0);
        let refusal = desk.find(&format!("{path}/A/B"));
        assert_eq!((refusal.number, refusal.place), (6, [4319, 0, 0]));
        assert_eq!(desk.remove_file(&format!("{path}/A")), 0);
        path += "/ABCDEFGHIJKLMNOP";
        assert_eq!(desk.make_directory(&path), 0);
        assert_eq!(path.len(), 4335);
        assert_eq!(desk.free(), 0);
        assert_eq!(desk.make_directory(&format!("{path}/A")), 10);
        assert_eq!(desk.make_file(&format!("{path}/A")), 10);
        let refusal = desk.find(&format!("{path}/B/A"));
        assert_eq!((refusal.number, refusal.place), (5, [4336, 0, 0]));
    });
}

#[test]
fn an_empty_file_has_a_zeroed_page() {
    on_all(2048, |desk| {
        assert_eq!(desk.make_file("/F"), 0);
        assert_eq!(desk.image[64 + 17..64 + 20], [1, 0, 0]);
        assert!(desk.image[256..512].iter().all(|&byte| byte == 0));
        assert_eq!((desk.image[3], desk.image[4]), (6, 0x03));
        // The page serves for the first 255 bytes.
        assert_eq!(desk.write("/F", 0, 255), 0);
        assert_eq!(desk.free(), 6);
        assert_eq!(desk.remove_file("/F"), 0);
        assert_eq!(desk.free(), 7);
    });
}

#[test]
fn a_file_is_not_made_without_a_free_page() {
    on_all(2048, |desk| {
        assert_eq!(desk.make_file("/F"), 0);
        assert_eq!(desk.write("/F", 0, 1785), 0);
        assert_eq!(desk.make_file("/G"), 10);
        assert_eq!(desk.free(), 0);
    });
}

#[test]
fn a_locked_file_is_read_and_not_altered() {
    on_all(2048, |desk| {
        assert_eq!(desk.make_file("/F"), 0);
        assert_eq!(desk.image[64], 0x80);
        assert_eq!(desk.write("/F", 0, 300), 0);
        assert_eq!(desk.find("/F"), Answer::found(Kind::File, 300, false, DATE));
        let unlocked = desk.image.clone();

        assert_eq!(desk.lock("/F"), 0);
        let mut locked = unlocked.clone();
        locked[64] = 0xC0;
        assert!(desk.image == locked);
        assert_eq!(desk.lock("/F"), 0);
        assert!(desk.image == locked);
        assert_eq!(desk.find("/F"), Answer::found(Kind::File, 300, true, DATE));
        let listed = Answer::occupied(Kind::File, padded("F"), 300, true, DATE);
        assert_eq!(desk.list("/", 0), listed);
        assert_eq!(desk.content("/F"), pattern(300));

        for (position, length) in [(0, 1), (0, 0), (300, 0), (301, 0), (301, 1), (0, 9000)] {
            assert_eq!(desk.write("/F", position, length), 25);
        }
        assert_eq!(desk.remove_file("/F"), 25);
        assert_eq!(desk.remove_directory("/F"), 6);
        assert_eq!(desk.make_file("/F"), 8);
        assert_eq!(desk.make_directory("/F"), 8);
        assert!(desk.image == locked);

        assert_eq!(desk.unlock("/F"), 0);
        assert!(desk.image == unlocked);
        assert_eq!(desk.unlock("/F"), 0);
        assert!(desk.image == unlocked);
        assert_eq!(desk.write("/F", 300, 1), 0);
        assert_eq!(desk.remove_file("/F"), 0);
        assert_eq!(desk.make_file("/F"), 0);
        assert_eq!(desk.image[64], 0x80);
    });
}

/// Every value of the other flags, as an earlier system may have left them:
/// bit 6 is a file's lock, whoever set it, and nothing else of the byte changes.
#[test]
fn bit_6_of_any_flags_is_the_lock_of_a_file() {
    on_all(2048, |desk| {
        assert_eq!(desk.make_file("/F"), 0);
        for flags in (0x80..=0xFF).step_by(2) {
            desk.image[64] = flags;
            let locked = flags & 0x40 != 0;
            assert_eq!(desk.find("/F").values, [0, 0, locked.into(), 0]);
            assert_eq!(desk.list("/", 0).values, [1, 0, 0, locked.into()]);
            let number = if locked { 25 } else { 0 };
            assert_eq!(desk.write("/F", 0, 0), number);
            assert_eq!((desk.lock("/F"), desk.image[64]), (0, flags | 0x40));
            assert_eq!((desk.lock("/F"), desk.image[64]), (0, flags | 0x40));
            assert_eq!((desk.unlock("/F"), desk.image[64]), (0, flags & !0x40));
            assert_eq!((desk.unlock("/F"), desk.image[64]), (0, flags & !0x40));
        }
    });
}

/// Bit 6 of a directory is ignored and kept.
#[test]
fn a_directory_has_no_lock() {
    on_all(2048, |desk| {
        assert_eq!(desk.make_directory("/D"), 0);
        for flags in (0x81..=0xFF).step_by(2) {
            desk.image[64] = flags;
            assert_eq!(desk.find("/D").values, [1, 256, 0, 0]);
            assert_eq!(desk.list("/", 0).values, [1, 1, 256, 0]);
            for path in ["/D", "/"] {
                assert_eq!((desk.lock(path), desk.unlock(path)), (7, 7));
            }
            assert_eq!(desk.write("/D", 0, 1), 7);
            assert_eq!(desk.remove_file("/D"), 7);
            assert_eq!(desk.make_file("/D/F"), 0);
            assert_eq!(desk.lock("/D/F"), 0);
            assert_eq!(desk.remove_directory("/D"), 13);
            assert_eq!(desk.unlock("/D/F"), 0);
            assert_eq!(desk.remove_file("/D/F"), 0);
            assert_eq!(desk.image[64], flags);
            assert_eq!(desk.remove_directory("/D"), 0);
            assert_eq!(desk.make_directory("/D"), 0);
            assert_eq!(desk.image[64], 0x81);
        }
    });
}
