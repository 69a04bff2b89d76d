//! Tidy pages (document 02 §13) on the bytes, for the benchmark: the tests
//! compare with [`crate::tidy`], which takes its time.

use super::{judge, pages_of_file, refuse, size_of, Entries, BITMAP_AT, DIRECTORY, ENTRY};
use super::{OCCUPIED, PAGE, ROOT, START};
use crate::calls::{Refusal, OWNERS};

/// Performs `each` for every occupied entry of a sound image, until it says no.
fn every_entry(image: &[u8], mut each: impl FnMut(usize) -> bool) -> bool {
    let mut directories = [0_u8; OWNERS];
    let (mut visited, mut found) = (0, 1);
    while visited < found {
        let Entries { from, to } = match directories[visited] {
            0 => ROOT,
            page => Entries::of_page(page),
        };
        for at in (from..to).step_by(ENTRY) {
            if image[at] & OCCUPIED == 0 {
                continue;
            }
            if image[at] & DIRECTORY != 0 {
                directories[found] = image[at + START];
                found += 1;
            }
            if !each(at) {
                return false;
            }
        }
        visited += 1;
    }
    true
}

/// The pages of the file whose entry is at `at`; none of a directory.
fn pages_of_entry(image: &[u8], at: usize) -> usize {
    match image[at] & DIRECTORY {
        0 => pages_of_file(size_of(&image[at..at + ENTRY])),
        _ => 0,
    }
}

fn is_each_once(places: &[u8]) -> bool {
    let mut seen = [false; OWNERS];
    places.iter().all(|&place| {
        let place = usize::from(place);
        place < places.len() && !std::mem::replace(&mut seen[place], true)
    })
}

fn is_accepted(image: &[u8], pages: usize, places: &[u8]) -> bool {
    places.len() == pages
        && places[0] == 0
        && is_each_once(places)
        && every_entry(image, |at| {
            let mut page = usize::from(image[at + START]);
            (1..pages_of_entry(image, at)).all(|_| {
                let next = usize::from(image[page * PAGE]);
                let is_beside = usize::from(places[next]) == usize::from(places[page]) + 1;
                page = next;
                is_beside
            })
        })
}

pub(super) fn tidy(image: &[u8], places: &[u8], target: &mut [u8]) -> Result<(), Refusal> {
    let pages = judge(image)?.pages;
    if target.len() != image.len() {
        return refuse(28);
    }
    if !is_accepted(image, pages, places) {
        return refuse(27);
    }
    for (page, &place) in image.chunks_exact(PAGE).zip(places) {
        let to = usize::from(place) * PAGE;
        target[to..to + PAGE].copy_from_slice(page);
    }
    target[BITMAP_AT..BITMAP_AT + pages / 8].fill(0);
    for (page, &place) in places.iter().enumerate() {
        let bit = image[BITMAP_AT + page / 8] >> (page % 8) & 1;
        target[BITMAP_AT + usize::from(place) / 8] |= bit << (place % 8);
    }
    every_entry(image, |at| {
        let start = image[at + START];
        target[usize::from(places[at / PAGE]) * PAGE + at % PAGE + START] =
            places[usize::from(start)];
        let mut page = usize::from(start);
        for _ in 0..pages_of_entry(image, at) {
            let next = usize::from(image[page * PAGE]);
            target[usize::from(places[page]) * PAGE] = places[next];
            page = next;
        }
        true
    });
    Ok(())
}

/// The header, each file's pages by its start page, all others.
pub(super) fn propose(image: &[u8], places: &mut [u8]) -> Result<(), Refusal> {
    let pages = judge(image)?.pages;
    if places.len() != pages {
        return refuse(27);
    }
    // How many pages the file has that starts there.
    let mut counts = [0_u16; OWNERS];
    every_entry(image, |at| {
        counts[usize::from(image[at + START])] = pages_of_entry(image, at) as u16;
        true
    });
    places[0] = 0;
    let mut place = 0;
    let mut is_placed = [false; OWNERS];
    is_placed[0] = true;
    for start in 1..pages {
        let mut page = start;
        for _ in 0..counts[start] {
            place += 1;
            places[page] = place;
            is_placed[page] = true;
            page = usize::from(image[page * PAGE]);
        }
    }
    for page in 1..pages {
        if !is_placed[page] {
            place += 1;
            places[page] = place;
        }
    }
    Ok(())
}
