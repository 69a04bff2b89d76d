//! Tidy pages (document 02 §13) a second time, from the paper alone: the check
//! of a proposal, the image that it makes, our helper's proposal, and a foreign
//! proposer that makes random ones.

use crate::calls::{Answer, Refusal};
use crate::plain::reader::judge;
use crate::plain::{pages_of_file, BITMAP_AT, ENTRY, PAGE, ROOT_ENTRIES_AT};
use crate::random::Random;

const OCCUPIED: u8 = 0x80;
const DIRECTORY: u8 = 0x01;
const START: usize = 17;

/// What the pages of a sound image are.
struct Layout {
    /// The chains of the files, in the order in which the entries are met.
    files: Vec<Vec<usize>>,
    /// The pages of the directories, the root's too.
    directories: Vec<usize>,
}

/// Where the entries of the directory on a page begin in the image.
fn entries(page: usize) -> impl Iterator<Item = usize> {
    let first = if page == 0 { ROOT_ENTRIES_AT } else { 0 };
    (page * PAGE + first..(page + 1) * PAGE).step_by(ENTRY)
}

fn layout(image: &[u8]) -> Layout {
    let mut files = Vec::new();
    let mut directories = vec![0];
    let mut seen = 0;
    while seen < directories.len() {
        for at in entries(directories[seen]) {
            if image[at] & OCCUPIED == 0 {
                continue;
            }
            let mut page = usize::from(image[at + START]);
            if image[at] & DIRECTORY != 0 {
                directories.push(page);
                continue;
            }
            let size = usize::from(image[at + 18]) + 256 * usize::from(image[at + 19]);
            let mut chain = Vec::new();
            for _ in 0..pages_of_file(size) {
                chain.push(page);
                page = usize::from(image[page * PAGE]);
            }
            files.push(chain);
        }
        seen += 1;
    }
    Layout { files, directories }
}

/// The check, on a sound image.
pub fn is_accepted(image: &[u8], places: &[u8]) -> bool {
    let pages = image.len() / PAGE;
    let mut sorted: Vec<usize> = places.iter().map(|&place| place.into()).collect();
    sorted.sort_unstable();
    let is_each_once = sorted.into_iter().eq(0..pages);
    is_each_once
        && places[0] == 0
        && layout(image).files.iter().all(|chain| {
            let next_to = |pair: &[usize]| places[pair[1]] == places[pair[0]].wrapping_add(1);
            chain.windows(2).all(next_to)
        })
}

/// The image with its pages at new places.
fn moved(image: &[u8], places: &[u8]) -> Vec<u8> {
    let pages = image.len() / PAGE;
    let mut new = image.to_vec();
    let Layout { files, directories } = layout(image);
    let follow = |byte: &mut u8| *byte = places[usize::from(*byte)];
    for &page in files.iter().flatten() {
        follow(&mut new[page * PAGE]);
    }
    for at in directories.into_iter().flat_map(entries) {
        if image[at] & OCCUPIED != 0 {
            follow(&mut new[at + START]);
        }
    }
    for byte in &mut new[BITMAP_AT..BITMAP_AT + pages / 8] {
        *byte = 0;
    }
    for (page, &place) in places.iter().enumerate() {
        let bit = image[BITMAP_AT + page / 8] >> (page % 8) & 1;
        new[BITMAP_AT + usize::from(place) / 8] |= bit << (place % 8);
    }
    let mut target = vec![0; image.len()];
    for (page, &place) in places.iter().enumerate() {
        let to = usize::from(place) * PAGE;
        target[to..to + PAGE].copy_from_slice(&new[page * PAGE..][..PAGE]);
    }
    target
}

pub fn tidy(image: &[u8], places: &[u8], target: &mut [u8]) -> Answer {
    if let Err(refusal) = judge(image) {
        return Answer::refused(refusal);
    }
    if target.len() != image.len() {
        return Answer::refused(Refusal::number(28));
    }
    if !is_accepted(image, places) {
        return Answer::refused(Refusal::number(27));
    }
    target.copy_from_slice(&moved(image, places));
    Answer::granted()
}

/// Numbers the pages in this order, from 0 on.
fn number(order: impl IntoIterator<Item = usize>, places: &mut [u8]) {
    for (place, page) in order.into_iter().enumerate() {
        places[page] = place as u8;
    }
}

/// Our helper: the header, each file's pages by its start page, all others.
pub fn propose(image: &[u8], places: &mut [u8]) -> Answer {
    if let Err(refusal) = judge(image) {
        return Answer::refused(refusal);
    }
    let pages = image.len() / PAGE;
    if places.len() != pages {
        return Answer::refused(Refusal::number(27));
    }
    let mut files = layout(image).files;
    files.sort_unstable_by_key(|chain| chain[0]);
    let in_files: Vec<usize> = files.into_iter().flatten().collect();
    let others: Vec<usize> = (1..pages).filter(|page| !in_files.contains(page)).collect();
    number([0].into_iter().chain(in_files).chain(others), places);
    Answer::granted()
}

/// A foreign proposer: files, directories and free pages in any order.
pub fn random_proposal(image: &[u8], random: &mut Random) -> Vec<u8> {
    let pages = image.len() / PAGE;
    let mut groups = layout(image).files;
    let in_files: Vec<usize> = groups.iter().flatten().copied().collect();
    let others = (1..pages).filter(|page| !in_files.contains(page));
    groups.extend(others.map(|page| vec![page]));
    random.shuffle(&mut groups);
    let mut places = vec![0; pages];
    number(
        [0].into_iter().chain(groups.into_iter().flatten()),
        &mut places,
    );
    places
}

/// Writes random bytes wherever a sound image may hold anything: free pages,
/// vacant entries, reserved bytes and bitmap bytes that are not in use.
pub fn litter(image: &mut [u8], random: &mut Random) {
    let pages = image.len() / PAGE;
    let Layout { files, directories } = layout(image);
    let owned: Vec<usize> = files
        .into_iter()
        .flatten()
        .chain(directories.clone())
        .collect();
    for page in (1..pages).filter(|page| !owned.contains(page)) {
        random.fill(&mut image[page * PAGE..][..PAGE]);
    }
    for at in directories.into_iter().flat_map(entries) {
        if image[at] & OCCUPIED == 0 {
            random.fill(&mut image[at..at + ENTRY]);
            image[at] &= !OCCUPIED;
        } else {
            random.fill(&mut image[at + 28..at + ENTRY]);
        }
    }
    random.fill(&mut image[BITMAP_AT + pages / 8..ROOT_ENTRIES_AT]);
}
