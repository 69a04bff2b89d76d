//! The sound images that inputs start from. They are always the same, so that
//! an input means the same in every run.

use std::sync::OnceLock;
use zealfs_tests::assemble::{assemble, nest, Order};
use zealfs_tests::calls::{Base, Calls};
use zealfs_tests::desk::{Desk, DATE};
use zealfs_tests::generate::random_tree;
use zealfs_tests::plain::{Plain, PAGE};
use zealfs_tests::random::Random;

/// The lengths of the images: mostly the smallest, where little has to be
/// changed to reach a limit.
const LENGTHS: [usize; 20] = [
    2048, 2048, 2048, 2048, 2048, 2048, 2048, 2048, 2048, 2048, 2048, 2048, 4096, 4096, 4096, 8192,
    8192, 16_384, 32_768, 65_536,
];

/// How many images there are.
pub const COUNT: usize = 7 + LENGTHS.len();

/// All images: three fresh ones, one with a bit of everything, deep ones,
/// random ones.
pub fn images() -> &'static [Vec<u8>] {
    static IMAGES: OnceLock<Vec<Vec<u8>>> = OnceLock::new();
    IMAGES.get_or_init(|| {
        let fresh = [2048, 4096, 65_536].map(|length| Desk::fresh(&Plain, length).image);
        let mut images = fresh.to_vec();
        images.push(rich());
        let mut random = Random::new(0x5A01);
        // Deep, with room for a few more.
        for (pages, depth) in [(16, 8), (64, 40), (256, 250)] {
            images.push(assemble(
                &nest(pages, depth, 1),
                Order::Scattered,
                &mut random,
            ));
        }
        for length in LENGTHS {
            let tree = random_tree(length / PAGE, &mut random);
            images.push(assemble(&tree, Order::Scattered, &mut random));
        }
        images
    })
}

/// The image of that number; the numbers go round.
pub fn image(number: usize) -> Vec<u8> {
    images()[number % COUNT].clone()
}

/// An image of 16 pages with a chain of two pages, one of one, empty files, one
/// of them locked, a directory in a directory, a removed file and link lists, of
/// which one has a broken row and one rows that fall.
fn rich() -> Vec<u8> {
    let mut desk = Desk::fresh(&Plain, 4096);
    let directories = ["/D", "/D/E"].map(|path| desk.make_directory(path));
    let files = ["/gone", "/F", "/0042", "/D/42", "/D/E/H"].map(|path| desk.make_file(path));
    let gone = [desk.write("/gone", 0, 100), desk.remove_file("/gone")];
    let writes = [("/F", 256), ("/D/42", 255)].map(|(path, length)| desk.write(path, 0, length));
    let locked = [desk.lock("/0042")];
    let numbers = [&directories[..], &files, &gone, &writes, &locked].concat();
    assert!(numbers.iter().all(|&number| number == 0));
    let rows = [2, 42, 7, 4, 42, 300];
    for directory in [b"/D".as_slice(), b"/D/E"] {
        let answer = Plain.links_write(&mut desk.image, directory, &DATE, &rows);
        assert!(answer.is_granted());
    }
    let broken = Plain.write(&mut desk.image, b"/D/E/LINKS", 3, &[4, 0xAA, 0, 1]);
    let made = Plain.make_file(&mut desk.image, b"/LINKS", &DATE);
    let falling = Plain.write(&mut desk.image, b"/LINKS", 0, &[4, 42, 7, 2, 42, 7]);
    assert!([broken, made, falling]
        .iter()
        .all(|answer| answer.is_granted()));
    desk.image
}
