//! A store that survives a pull (document 02 §11): every prefix of the stores
//! is applied, repaired and compared with the image before the first, and all of
//! them with make followed by write. Every store's number is asked for, also
//! past the last, and buffers of all lengths from 0 to 300.

use zealfs_tests::calls::{Answer, Base, Calls, Refusal};
use zealfs_tests::desk::DATE;
use zealfs_tests::generate::starting_image;
use zealfs_tests::plain::reader::judge;
use zealfs_tests::plain::Plain;
use zealfs_tests::random::Random;
use zealfs_tests::settings;
use zealfs_tests::subjects::{all, Subject};

/// What is to be stored.
struct New<'a> {
    path: &'a [u8],
    date: &'a [u8],
    content: &'a [u8],
}

impl New<'_> {
    /// The store of that number into a page that holds junk beforehand.
    fn store(&self, calls: &dyn Calls, image: &[u8], number: u64) -> (Answer, Vec<u8>) {
        let mut page = vec![0x3C; 256];
        let answer = calls.store(image, self.path, self.date, self.content, number, &mut page);
        (answer, page)
    }

    /// All stores, in order. Each is worked out from the same image.
    fn stores(&self, calls: &dyn Calls, image: &[u8]) -> Vec<(usize, Vec<u8>)> {
        let granted = (0..).map(|number| self.store(calls, image, number));
        granted
            .take_while(|(answer, _)| answer.is_granted())
            .map(|(answer, page)| (answer.values[0] as usize, page))
            .collect()
    }

    /// Make followed by write, or the first refusal of the two.
    fn make_and_write(&self, calls: &dyn Calls, image: &mut [u8]) -> Answer {
        let before = image.to_vec();
        let mut answer = calls.make_file(image, self.path, self.date);
        if answer.is_granted() {
            answer = calls.write(image, self.path, 0, self.content);
        }
        if !answer.is_granted() {
            image.copy_from_slice(&before);
        }
        answer
    }
}

fn put_page(image: &mut [u8], page: usize, bytes: &[u8]) {
    image[page * 256..(page + 1) * 256].copy_from_slice(bytes);
}

/// Pulls the cartridge after each number of stores; answers how many there are.
fn check_pulls(what: &str, subject: &Subject, image: &[u8], new: &New) -> usize {
    let calls = subject.calls.as_ref();
    let what = format!("{what}, {}", subject.name);
    let stores = new.stores(calls, image);
    assert_eq!(stores, new.stores(&Plain, image), "{what}: other stores");
    let mut after = image.to_vec();
    let wanted = new.make_and_write(calls, &mut after);
    if stores.is_empty() {
        let (refused, page) = new.store(calls, image, 0);
        assert_eq!(refused, wanted, "{what}: not as make or then write");
        assert!(page == [0x3C; 256], "{what}: a refused store writes");
        return 0;
    }
    assert!(wanted.is_granted(), "{what}: make or write is refused");
    check_numbers(&what, calls, image, new, stores.len());
    let tree = judge(image);
    let mut pulled = image.to_vec();
    for (page, bytes) in &stores {
        let mut repaired = pulled.clone();
        assert!(calls.repair(&mut repaired).is_granted(), "{what}: repair");
        assert_eq!(judge(&repaired), tree, "{what}: not the old tree");
        let mut expected = pulled.clone();
        put_page(&mut expected, 0, &image[..256]);
        assert!(repaired == expected, "{what}: not the old header page");
        put_page(&mut pulled, *page, bytes);
    }
    assert!(pulled == after, "{what}: not make followed by write");
    stores.len()
}

/// Past the last store the number is refused, and the page stays.
fn check_numbers(what: &str, calls: &dyn Calls, image: &[u8], new: &New, count: usize) {
    let count = count as u64;
    for number in [count, count + 1, count + 256, 1 << 32, u64::MAX] {
        let (answer, page) = new.store(calls, image, number);
        let past = Answer::refused(Refusal::number(12));
        assert_eq!(answer, past, "{what}: number {number}");
        assert!(page == [0x3C; 256], "{what}: a refused store writes");
    }
}

/// A path in a random directory of the image, with a name that is mostly new.
fn new_path(image: &[u8], random: &mut Random) -> Vec<u8> {
    let tree = judge(image).expect("sound");
    let directories = tree.paths();
    let directories: Vec<&Vec<u8>> = directories
        .iter()
        .filter(|(path, _)| Plain.list(image, path, 0).is_granted())
        .map(|(path, _)| path)
        .collect();
    let mut path = match directories.is_empty() || random.chance(1, 4) {
        true => Vec::new(),
        false => random.pick(&directories).to_vec(),
    };
    path.extend_from_slice(*random.pick(&[b"/new".as_slice(), b"/0042", b"/7", b"/~"]));
    path
}

#[test]
fn every_pull_keeps_the_old_tree() {
    let images = settings::lists() / 10;
    let (mut granted, mut below, mut pulls) = (0, 0, 0);
    for seed in 0..images {
        let mut random = Random::new(seed ^ 0x1150_0000_0000_0000);
        let pages = *random.pick(&[8, 8, 8, 16, 16, 32, 64, 256]);
        let image = starting_image(pages * 256, &mut random);
        let path = new_path(&image, &mut random);
        let free = usize::from(image[3]);
        let length = match random.below(6) {
            0 => 0,
            1 => free * 255,
            2 => free * 255 + 1,
            3 => *random.pick(&[1, 254, 255, 256, 510, 511]),
            _ => random.below(free.min(12) * 255 + 2),
        };
        let content = random.bytes(length.min(if pages > 64 { 4000 } else { 70_000 }));
        let new = New {
            path: &path,
            date: &DATE,
            content: &content,
        };
        for subject in all() {
            let count = check_pulls(&format!("seed {seed}"), &subject, &image, &new);
            granted += usize::from(count > 0);
            below +=
                usize::from(count > 0 && path.iter().filter(|&&byte| byte == b'/').count() > 1);
            pulls += count;
        }
    }
    println!("{granted} granted, {below} of them below a directory; {pulls} pulled images");
    assert!(granted as u64 >= images && below as u64 >= images / 4);
}

/// 29 comes before all, and is given for every length but 256.
#[test]
fn buffers_of_all_lengths() {
    let mut fresh = vec![0xE5; 2048];
    assert!(Plain.format(&mut fresh).is_granted());
    let unsound = vec![0; 2047];
    for subject in all() {
        for length in 0..=300 {
            for (image, path, date) in [
                (&fresh, b"/x".as_slice(), DATE.as_slice()),
                (&unsound, b"".as_slice(), b"".as_slice()),
            ] {
                let before: Vec<u8> = (0..length).map(|at| at as u8).collect();
                let mut page = before.clone();
                let answer = subject
                    .calls
                    .store(image, path, date, &[7; 300], 0, &mut page);
                let name = subject.name;
                match length {
                    256 if *image == fresh => assert!(answer.is_granted(), "{name}"),
                    256 => assert_eq!(answer.number, 1, "{name}"),
                    _ => assert_eq!(answer.number, 29, "{name}, {length} bytes"),
                }
                let is_kept = page == before;
                assert_eq!(is_kept, !answer.is_granted(), "{name}, {length} bytes");
            }
        }
    }
}

/// The cases of document 02 §11 that its words name.
#[test]
fn stores_in_order() {
    let mut image = vec![0xE5; 2048];
    assert!(Plain.format(&mut image).is_granted());
    assert!(Plain.make_directory(&mut image, b"/D", &DATE).is_granted());
    assert!(Plain.make_file(&mut image, b"/2", &DATE).is_granted());
    let content: Vec<u8> = (0..256).map(|at| at as u8 ^ 0x55).collect();
    let pages_of = |calls: &dyn Calls, path: &[u8], content: &[u8]| -> Vec<usize> {
        let date = &DATE;
        let new = New {
            path,
            date,
            content,
        };
        let stores = new.stores(calls, &image);
        stores.into_iter().map(|(page, _)| page).collect()
    };
    for subject in all() {
        let calls = subject.calls.as_ref();
        assert_eq!(pages_of(calls, b"/x", b""), [3, 0], "{}", subject.name);
        assert_eq!(pages_of(calls, b"/D/x", &content), [3, 4, 0, 1]);
        assert_eq!(pages_of(calls, b"/x", &[1; 1275]), [3, 4, 5, 6, 7, 0]);
        assert_eq!(pages_of(calls, b"/x", &[1; 1276]), []);
        let full = |number| {
            let mut page = [9; 256];
            let answer = calls.store(&image, b"/x", &DATE, &[1; 1276], number, &mut page);
            (answer.number, page == [9; 256])
        };
        assert_eq!([full(0), full(99)], [(10, true), (10, true)]);
    }
}
