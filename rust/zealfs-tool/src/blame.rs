//! The paths of what a fault names. No call reads an image that is not sound, so the calls are asked about a copy in which the entry at fault is
//! vacant: where that copy can be repaired, its directories have the paths that they have in the image. What is decided, the judges decide; what
//! this file reads of an image is the name in the entry that they point to. Version 2 has no repair, so that of its images no path is told.

use crate::either::is_two;
use crate::output::shown;
use crate::paths::{below, Paths};
use zealfs::{Owner, Owners, Refusal};

/// How many copies are judged at most, so that an image made to have many faults costs no more than a second; then no path is told.
const TRIALS: usize = 20_000;

/// An entry, by its directory's page and its number.
#[derive(Clone, Copy, PartialEq)]
struct Slot {
    directory: u16,
    entry: u16,
}

impl Slot {
    fn position(self) -> usize {
        let first = if self.directory == 0 { 64 } else { usize::from(self.directory) * 256 };
        first + 32 * usize::from(self.entry)
    }

    /// All that an image has room for. Those in a page that is no directory's name nothing.
    fn all(image: &[u8]) -> impl Iterator<Item = Self> {
        let pages = u16::try_from(image.len() / 256).unwrap_or(0);
        (0..pages).flat_map(|directory| {
            let entries = if directory == 0 { 6 } else { 8 };
            (0..entries).map(move |entry| Self { directory, entry })
        })
    }

    /// Makes the entry vacant: clears bit 7 of its flags.
    fn vacate(self, image: &mut [u8]) -> Option<()> {
        *image.get_mut(self.position())? &= 0x7F;
        Some(())
    }

    fn is_occupied(self, image: &[u8]) -> bool {
        image.get(self.position()).is_some_and(|flags| flags & 0x80 != 0)
    }

    fn is_file(self, image: &[u8]) -> bool {
        self.is_occupied(image) && image[self.position()] & 1 == 0
    }

    /// Whether the fault is the first one also without the entry. Without a file nothing else goes, so that a fault which goes with it is its own.
    fn keeps(self, image: &[u8], fault: Refusal) -> bool {
        let mut copy = image.to_vec();
        self.vacate(&mut copy).is_some() && zealfs::verdict(&copy) == Err(fault)
    }

    /// The name in the entry, as it stands there.
    fn name(self, image: &[u8]) -> Option<&[u8]> {
        let name = image.get(self.position() + 1..self.position() + 17)?;
        let end = name.iter().rposition(|&byte| byte != 0).map_or(0, |last| last + 1);
        Some(&name[..end])
    }

    /// Its path, by a sound copy of the image in which its directory is as in the image.
    fn path(self, image: &[u8], copy: &[u8], owners: &Owners) -> Option<String> {
        let directory = Paths::new(copy, owners).of_directory(self.directory)?;
        let name = self.name(image)?;
        let is_legal = !name.is_empty() && name.iter().all(|byte| matches!(byte, 0x20..=0x7E) && *byte != b'/');
        // a name that is none would not read as one in a path
        Some(if is_legal { shown(&below(&directory, name)) } else { format!("\"{}\" in {}", shown(name), shown(&directory)) })
    }
}

/// A copy of the image that was made sound.
struct Settled {
    copy: Vec<u8>,
    owners: Owners,
    /// How many entries had to be vacated for it.
    vacated: usize,
}

/// Makes a copy sound by vacating entries and marking pages, if that can be done so.
fn settle(mut copy: Vec<u8>, trials: &mut usize) -> Option<Settled> {
    let mut vacated = 0;
    while *trials > 0 {
        *trials -= 1;
        match zealfs::repair(&mut copy) {
            Ok(()) => return zealfs::audit(&copy).map(|owners| Settled { copy, owners, vacated }),
            Err(Refusal::BadEntry { directory, entry } | Refusal::BadChain { directory, entry, .. }) => {
                Slot { directory, entry }.vacate(&mut copy)?;
                vacated += 1;
            }
            Err(Refusal::MarkedFree { page }) => *copy.get_mut(4 + usize::from(page) / 8)? |= 1 << (page % 8),
            Err(_) => return None,
        }
    }
    None
}

/// A copy without an entry, made sound.
fn without(image: &[u8], slot: Slot, trials: &mut usize) -> Option<Settled> {
    let mut copy = image.to_vec();
    slot.vacate(&mut copy)?;
    settle(copy, trials)
}

/// Who shares the page with an entry that is missing in the settled copy, if the two can be told for certain. The page is then the other's; and it is
/// the entry's if that is a file, without which the fault is gone, if it lies in the other, or if without the other the page is the entry's.
/// A file that shares it with nobody returns to it.
fn sharers_with(image: &[u8], page: u16, slot: Slot, settled: &Settled, trials: &mut usize) -> Option<Vec<String>> {
    let path = slot.path(image, &settled.copy, &settled.owners)?;
    let is_file = slot.is_file(image) && !slot.keeps(image, Refusal::OwnedTwice { page });
    let Owner::Entry { directory, entry } = settled.owners.of(page.into()) else {
        return (is_file && settled.vacated == 0).then(|| vec![path]);
    };
    let other = Slot { directory, entry };
    let other_path = shown(&Paths::new(&settled.copy, &settled.owners).of_page(page.into())?);
    let is_in_other = path.starts_with(&format!("{other_path}/"));
    let is_certain = is_file || is_in_other || {
        let owner = without(image, other, trials).map(|settled| settled.owners.of(page.into()));
        owner == Some(Owner::Entry { directory: slot.directory, entry: slot.entry })
    };
    is_certain.then(|| vec![other_path, path])
}

/// The two that share a page, or the one that returns to it: of the entries without which the image can be made sound, the one that costs the
/// fewest pages, and whoever then owns the page.
fn sharers(image: &[u8], page: u16) -> Vec<String> {
    let mut best: Option<(usize, Vec<String>)> = None;
    let mut trials = TRIALS;
    for slot in Slot::all(image) {
        let Some(settled) = slot.is_occupied(image).then(|| without(image, slot, &mut trials)).flatten() else { continue };
        let count = settled.owners.count();
        if best.as_ref().is_none_or(|(most, _)| count > *most) {
            if let Some(paths) = sharers_with(image, page, slot, &settled, &mut trials) {
                best = Some((count, paths));
            }
        }
    }
    // what was not tried to the end is not told
    best.filter(|_| trials > 0).map_or_else(Vec::new, |(_, paths)| paths)
}

/// Whose page it is that is marked free: its owner once it is marked; or, where the rest of a file's chain is bad too, the file without which the
/// page is no longer the first fault.
fn user_of(image: &[u8], page: u16) -> Option<String> {
    let mut trials = TRIALS;
    let settled = settle(image.to_vec(), &mut trials)?;
    if let Some(path) = Paths::new(&settled.copy, &settled.owners).of_page(page.into()) {
        return Some(shown(&path));
    }
    let slot = Slot::all(image).find(|slot| slot.is_file(image) && !slot.keeps(image, Refusal::MarkedFree { page }))?;
    let settled = without(image, slot, &mut trials)?;
    slot.path(image, &settled.copy, &settled.owners)
}

/// An entry in words. In version 2 a directory has several pages, and number 255 on page 0 is the root itself.
fn entry_of(image: &[u8], directory: u16, entry: u16) -> String {
    match (directory, entry) {
        (0, 255) if is_two(image) => "the root".to_owned(),
        (0, entry) => format!("entry {entry} of the root"),
        (page, entry) if is_two(image) => format!("entry {entry} on page {page}"),
        (page, entry) => format!("entry {entry} of the directory on page {page}"),
    }
}

/// Where the fault is, in words.
pub fn place(image: &[u8], refusal: Refusal) -> Option<String> {
    match refusal {
        Refusal::BadEntry { directory, entry } => Some(entry_of(image, directory, entry)),
        Refusal::BadChain { directory, entry, passed } => {
            Some(format!("{}, after {passed} good {}", entry_of(image, directory, entry), if passed == 1 { "page" } else { "pages" }))
        }
        Refusal::OwnedTwice { page } | Refusal::LostPage { page } | Refusal::MarkedFree { page } => Some(format!("page {page}")),
        _ => None,
    }
}

/// The paths of what the fault names, where they can be told.
pub fn paths(image: &[u8], refusal: Refusal) -> Vec<String> {
    if is_two(image) {
        return Vec::new();
    }
    let mut trials = TRIALS;
    match refusal {
        Refusal::BadEntry { directory, entry } | Refusal::BadChain { directory, entry, .. } => {
            let slot = Slot { directory, entry };
            let path = without(image, slot, &mut trials).and_then(|settled| slot.path(image, &settled.copy, &settled.owners));
            path.into_iter().collect()
        }
        Refusal::OwnedTwice { page } => sharers(image, page),
        Refusal::MarkedFree { page } => user_of(image, page).into_iter().collect(),
        _ => Vec::new(),
    }
}
