//! The inputs to begin with.

use crate::arguments::NAMES;
use crate::images::WHOLE;
use crate::pool;

/// The longest image that is a seed as a whole.
const LONGEST: usize = 4096;

pub fn of_images() -> Vec<Vec<u8>> {
    of_pool(pool::images(), &[1, 17, 3], 8)
}

/// Every starting image: as it is with no edits, with an edit of each kind with
/// these arguments, and, if it is short, byte by byte.
pub fn of_pool(images: &[Vec<u8>], arguments: &[u8], kinds: u8) -> Vec<Vec<u8>> {
    let mut seeds = Vec::new();
    for (number, image) in (0..).zip(images) {
        seeds.push(vec![number, 0]);
        seeds.extend((0..kinds).map(|kind| [&[number, 1, kind], arguments].concat()));
        if image.len() <= LONGEST {
            seeds.push([&[WHOLE, 0], image.as_slice()].concat());
            seeds.push([&[WHOLE, 1], image.as_slice()].concat());
        }
    }
    seeds
}

/// On every starting image a list that makes, writes, reads, locks, lists and
/// removes, and then has a link list.
pub fn of_lists() -> Vec<Vec<u8>> {
    let name = NAMES.len() as u8 - 8;
    let calls: [&[u8]; 25] = [
        // Make a directory, a file in it, a file in the root.
        &[1, 0, 0, name, 0],
        &[0, 0, 1, name + 1, 0],
        &[0, 0, 0, 0, 0],
        // Write and read 256 bytes of the newest, then all that there is room
        // for.
        &[2, 2, 255, 0, 10, 1],
        &[4, 2, 255, 0, 10, 0],
        &[2, 2, 255, 1, 5, 2],
        // Lock the newest, write and remove it; read, find and list it; unlock
        // it.
        &[16, 2, 255],
        &[2, 2, 255, 0, 0, 1],
        &[3, 2, 255],
        &[4, 2, 255, 0, 10, 0],
        &[6, 2, 255],
        &[16, 2, 255],
        &[17, 2, 255],
        // List, find; remove the same as a file and as a directory, then the
        // first.
        &[5, 2, 0, 0],
        &[6, 2, 1],
        &[3, 2, 2],
        &[12, 2, 2],
        &[12, 2, 1],
        // A link list of the root: write three rows, read and ask, check, write
        // bytes that are no rows, read again, write as many as there is room for.
        &[20, 2, 0, 0, 8 + 3, 1, 42, 3, 42, 0x8F],
        &[21, 2, 0, 4],
        &[22, 3, 42, 2, 0],
        &[23, 2, 0],
        &[24, 2, 0, 0xC2, 1, 42, 0, 0],
        &[21, 2, 0, 4],
        &[20, 2, 0, 0, 255, 4],
    ];
    let list = calls.concat();
    let numbers = 0..pool::COUNT as u8;
    numbers
        .map(|number| [&[number], list.as_slice()].concat())
        .collect()
}
