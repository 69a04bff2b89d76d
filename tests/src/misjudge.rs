//! What the broken judges of [`crate::wrong`] tell: another fault of the image
//! than the first one, or another place of it. They say no when they have to.

use crate::calls::{Refusal, NAME_BYTES};
use crate::damage::Survey;
use crate::plain::reader::{is_allocated, judge, stored_name};
use crate::plain::{DIRECTORY_ENTRIES, ENTRY, PAGE, ROOT_ENTRIES, ROOT_ENTRIES_AT};
use crate::wrong::Fault;

/// What a judge with the fault tells of an image whose first fault is `first`.
pub fn misjudged(fault: Fault, image: &[u8], first: Refusal) -> Refusal {
    let [directory, entry, passed] = first.place.map(|part| part as usize);
    let in_the_walk = matches!(first.number, 16 | 17 | 18 | 20);
    let other = match fault {
        Fault::FailedPageCounted if first.number == 17 => {
            Some(Refusal::at_chain(directory, entry, passed + 1))
        }
        Fault::EarlierOfEqualNames if first.number == 16 => {
            earlier_of_equal_names(image, directory, entry)
        }
        Fault::HighestLostPage if first.number == 19 => lost_pages(image).pop().map(at_lost_page),
        Fault::CountFirst if !is_counted(image) => Some(Refusal::number(3)),
        Fault::LostPagesFirst if in_the_walk => {
            lost_pages(image).first().copied().map(at_lost_page)
        }
        Fault::NamesBeforeChains if first.number == 17 => later_bad_name(image, directory, entry),
        Fault::RootFirst if in_the_walk => fault_of_the_root(image),
        _ => None,
    };
    other.unwrap_or(first)
}

fn at_lost_page(page: usize) -> Refusal {
    Refusal::at_page(19, page)
}

/// The entries of the directory on that page, by their 32 bytes.
fn entries(image: &[u8], directory: usize) -> std::slice::ChunksExact<'_, u8> {
    let bytes = match directory {
        0 => &image[ROOT_ENTRIES_AT..PAGE],
        page => &image[page * PAGE..(page + 1) * PAGE],
    };
    bytes.chunks_exact(ENTRY)
}

fn is_occupied(entry: &[u8]) -> bool {
    entry[0] & 0x80 != 0
}

fn name_of(entry: &[u8]) -> &[u8] {
    &entry[1..1 + NAME_BYTES]
}

fn earlier_of_equal_names(image: &[u8], directory: usize, entry: usize) -> Option<Refusal> {
    let later = name_of(entries(image, directory).nth(entry)?);
    let mut earlier = entries(image, directory).take(entry);
    let equal = earlier.position(|other| is_occupied(other) && name_of(other) == later)?;
    Some(Refusal::at_entry(directory, equal))
}

fn later_bad_name(image: &[u8], directory: usize, entry: usize) -> Option<Refusal> {
    let is_bad = |entry: &[u8]| is_occupied(entry) && stored_name(name_of(entry)).is_none();
    let mut numbered = entries(image, directory).enumerate().skip(entry + 1);
    let (number, _) = numbered.find(|(_, entry)| is_bad(entry))?;
    Some(Refusal::at_entry(directory, number))
}

/// Pages that are marked and that a walk past all faults does not meet.
fn lost_pages(image: &[u8]) -> Vec<usize> {
    let owned = Survey::of(image).owned();
    let pages = 1..image.len() / PAGE;
    let lost = pages.filter(|page| is_allocated(image, *page) && !owned.contains(page));
    lost.collect()
}

fn is_counted(image: &[u8]) -> bool {
    let zero_bits = (0..image.len() / PAGE).filter(|&page| !is_allocated(image, page));
    is_allocated(image, 0) && zero_bits.count() == usize::from(image[3])
}

/// The first fault of the walk if the root's directories held nothing.
fn fault_of_the_root(image: &[u8]) -> Option<Refusal> {
    let mut seen = image.to_vec();
    for entry in entries(image, 0).take(ROOT_ENTRIES) {
        let page = usize::from(entry[17]);
        let is_directory = entry[0] & 0x81 == 0x81;
        if is_directory && (1..image.len() / PAGE).contains(&page) {
            for number in 0..DIRECTORY_ENTRIES {
                seen[page * PAGE + number * ENTRY] &= 0x7F;
            }
        }
    }
    let refusal = judge(&seen).err()?;
    matches!(refusal.number, 16 | 17 | 18 | 20).then_some(refusal)
}
