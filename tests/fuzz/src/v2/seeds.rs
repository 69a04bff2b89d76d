//! The inputs of version 2 to begin with.

use super::pool;
use crate::arguments::NAMES;
use crate::seeds::of_pool;

pub fn of_images() -> Vec<Vec<u8>> {
    let mut seeds = of_pool(pool::images(), &[1, 17, 3, 0], 10);
    // Each byte of the header by itself, and the bits of the pages set aside, with
    // the count following.
    for number in 0..8 {
        seeds.extend((0..8).map(|byte| vec![number, 0, 1, byte, 0, 1, 0]));
        seeds.extend([1, 2, 3, 5].map(|bits| vec![number, 0, 7, 0, 0, bits, 0]));
    }
    seeds
}

/// On every starting image a list that makes, writes, reads, locks, lists and
/// removes.
pub fn of_lists() -> Vec<Vec<u8>> {
    let name = NAMES.len() as u8 - 8;
    let calls: [&[u8]; 19] = [
        // Make a directory, a file in it, a file in the root.
        &[1, 0, 0, name, 0],
        &[0, 0, 1, name + 1, 0],
        &[0, 0, 0, 0, 0],
        // Write and read of the newest a page and a byte, then all that there is
        // room for.
        &[2, 2, 255, 0, 10, 1],
        &[4, 2, 255, 0, 10, 0],
        &[2, 2, 255, 1, 5, 2],
        // Lock the newest, write and remove it; find it; unlock it.
        &[17, 2, 255],
        &[2, 2, 255, 0, 0, 1],
        &[3, 2, 255],
        &[6, 2, 255],
        &[18, 2, 255],
        // List, all rows and some; remove the same as a file and as a directory,
        // then the first.
        &[5, 2, 0, 0],
        &[9, 2, 0, 0, 255],
        &[9, 2, 1, 1, 9],
        &[3, 2, 2],
        &[13, 2, 2],
        &[13, 2, 1],
        &[7],
        // A format with another code.
        &[8, 1],
    ];
    let list = calls.concat();
    let numbers = 0..pool::COUNT as u8;
    numbers
        .map(|number| [&[number], list.as_slice()].concat())
        .collect()
}
