//! The sound images of version 2 that inputs start from, always the same.

use std::sync::OnceLock;
use zealfs_tests::assemble::Order;
use zealfs_tests::random::Random;
use zealfs_tests::v2::assemble::assemble;
use zealfs_tests::v2::desk::Desk;
use zealfs_tests::v2::generate::{nested_tree, random_tree};
use zealfs_tests::v2::plain::PLAIN;

/// Fresh ones: of each page code, and of either width of links.
const FRESH: [(usize, u64); 5] = [(2048, 0), (4096, 1), (8192, 2), (65_536, 0), (69_632, 1)];

/// Nests: length, page code, depth, with room for a few more.
const NESTS: [(usize, u64, usize); 3] = [(4096, 0, 9), (16_384, 0, 50), (69_632, 1, 130)];

/// Random trees, mostly on small images, where little has to be changed to reach a
/// limit; the last have links of two bytes, and more than 256 pages.
const RANDOM: [(usize, u64); 22] = [
    (2048, 0),
    (2048, 0),
    (2048, 0),
    (2048, 0),
    (4096, 0),
    (4096, 0),
    (4096, 0),
    (4096, 1),
    (4096, 1),
    (6144, 0),
    (6144, 0),
    (6144, 0),
    (8192, 0),
    (8192, 1),
    (8192, 2),
    (16_384, 1),
    (16_384, 2),
    (53_248, 0),
    (69_632, 1),
    (69_632, 1),
    (73_728, 2),
    (139_264, 1),
];

/// How many images there are.
pub const COUNT: usize = FRESH.len() + 2 + NESTS.len() + RANDOM.len();

/// All images.
pub fn images() -> &'static [Vec<u8>] {
    static IMAGES: OnceLock<Vec<Vec<u8>>> = OnceLock::new();
    IMAGES.get_or_init(|| {
        let fresh = FRESH.map(|(length, code)| Desk::fresh(&PLAIN, length, code).image);
        let mut images = fresh.to_vec();
        images.extend([(8192, 0), (69_632, 1)].map(|(length, code)| rich(length, code)));
        let mut random = Random::new(0x5A02);
        for (length, code, depth) in NESTS {
            let tree = nested_tree(length, code, depth, &mut random);
            images.push(assemble(&tree, Order::Scattered, &mut random));
        }
        for (length, code) in RANDOM {
            let tree = random_tree(length, code, &mut random);
            images.push(assemble(&tree, Order::Scattered, &mut random));
        }
        images
    })
}

/// The image of that number; the numbers go round.
pub fn image(number: usize) -> Vec<u8> {
    images()[number % COUNT].clone()
}

/// A root and a directory of two pages, a chain of two pages, a locked file, a
/// directory in a directory, a removed file.
fn rich(length: usize, code: u64) -> Vec<u8> {
    let page = 256 << code;
    let mut desk = Desk::fresh(&PLAIN, length, code);
    desk.make_all(&["/D", "/D/E"], &["/gone", "/F", "/0042", "/D/42"]);
    assert_eq!(desk.write("/gone", 0, 100), 0);
    assert_eq!(desk.remove_file("/gone"), 0);
    assert_eq!(desk.write("/F", 0, page + 1), 0);
    assert_eq!(desk.lock("/0042"), 0);
    // As many as fill all entries of a page and one more.
    for directory in ["", "/D"] {
        for number in 0..page / 32 {
            assert_eq!(desk.make_file(&format!("{directory}/{number}")), 0);
        }
    }
    desk.image
}
