//! Copies of version 2's plain implementation with one thing broken, to see that
//! the lists and the damaged images tell of each.

use super::calls::{Call, Calls, ROW};
use super::layout::{
    check_length, laid_out, layout, Layout, BITMAP_AT, BITMAP_BYTES, CODE, ENTRY, NAME_AT,
};
use super::plain::writer::Writer;
use super::plain::{Lay, Plain, PLAIN};
use crate::calls::{Answer, Base, Call as Shared, Refusal, NAME_BYTES};

/// What is broken.
#[derive(Clone, Copy, Debug, PartialEq, Eq)]
pub enum Fault {
    // The layout.
    /// Links of two bytes stand one byte apart.
    LinksOneByteApart,
    /// The table begins at byte 256, whatever the page size.
    TableAtByte256,
    /// The count of free pages has one byte.
    CountInOneByte,
    /// The high half of a size is ignored.
    SizeInTwoBytes,
    /// A start page has one byte.
    StartInOneByte,
    /// Links have two bytes where there are more than 256 pages.
    WidthByPages,
    /// The table has two pages in every image, as the document says.
    TableOfTwoPages,
    /// The root's entries begin at byte 64, as in version 1.
    RootAtByte64,
    /// A page carries a byte less of content, as in version 1.
    ContentLessOne,
    /// A directory's size is 256, whatever the page size.
    DirectorySize256,
    /// Too small a page code is taken.
    SmallCode,
    /// Page code 3 is taken.
    CodeThree,
    /// A length of any number of pages is taken.
    AnyNumberOfPages,
    // The header.
    /// 26 is told before 2.
    CodeBeforeVersion,
    /// The high byte of the bitmap's bytes is ignored.
    BitmapBytesInOneByte,
    /// The bit of a table's page is not asked.
    TableBitNotAsked,
    // Format.
    /// The code handed to format is cut to 8 bits.
    CodeInEightBits,
    /// Format leaves the table as it is.
    FormatKeepsTable,
    /// Format marks and counts the header page alone.
    FormatMarksHeaderAlone,
    /// Format zeroes the whole image.
    FormatAll,
    // Directories of several pages.
    /// A make in a full directory is 9.
    FullDirectory,
    /// Make's 10 does not count the directory's page, which is taken.
    DirectoryPageNotCounted,
    /// The entry's page is taken before the directory's.
    EntryPageFirst,
    /// An added page of a directory is not zeroed.
    AddedPageKept,
    /// An added page keeps the link that stood there.
    StaleLink,
    /// A make takes an empty entry of the last page before one further up.
    LastPageFirst,
    /// A make sees only the names on the page that it writes to.
    NamesOfOnePage,
    /// Of equal names only those on one page are told.
    NamesJudgedByPage,
    /// A directory gives back its last page when that is emptied.
    DirectoriesShrink,
    /// Only the first page of a directory is freed with it.
    FirstPageFreed,
    /// A directory whose first page is empty is taken for empty.
    EmptyByFirstPage,
    /// A removal clears the links of the freed pages.
    FreedLinksCleared,
    /// List knows the first page of a directory alone.
    ListOfFirstPage,
    /// Find tells the bytes of all pages of a directory.
    FindTellsAllPages,
    // The rows of a directory's entries.
    /// Only those of the directory's first page are told and counted.
    EntriesOfFirstPage,
    /// How many there are is told as how many were told.
    EntriesCountTold,
    /// To begin behind the last entry is refused.
    EntriesEndRefused,
    /// To begin further behind it is granted, and tells none.
    EntriesPastEndGranted,
    /// An empty entry is passed over.
    EntriesWithoutEmpty,
    /// An empty entry's row has what stands there.
    EntriesStaleRow,
    /// All of a size but its low byte is left out.
    EntriesSizeInOneByte,
    /// What is lent behind the last row is cleared.
    EntriesRestCleared,
    /// A row is also begun where there is no room for all of it.
    EntriesPartOfARow,
    /// Bit 6 of a directory is told as its lock.
    EntriesLockedDirectory,
    // The judge.
    /// The root's pages after page 0 have no owner.
    RootPagesLost,
    /// The root's links are judged after its entries.
    RootLinksLast,
    /// The root's 17 names entry 0.
    RootAtEntry0,
    /// The root's 17 counts page 0.
    RootCountsPage0,
    /// 16 and 17 name the directory's first page and count over its whole row.
    PlaceInDirectory,
    /// Entries of page 0 are counted from its first byte.
    PlaceFromByte0,
    /// A page of the table is owned by the table, which is 18.
    TablePageOwned,
}

/// All faults.
pub const FAULTS: [Fault; 51] = [
    Fault::LinksOneByteApart,
    Fault::TableAtByte256,
    Fault::CountInOneByte,
    Fault::SizeInTwoBytes,
    Fault::StartInOneByte,
    Fault::WidthByPages,
    Fault::TableOfTwoPages,
    Fault::RootAtByte64,
    Fault::ContentLessOne,
    Fault::DirectorySize256,
    Fault::SmallCode,
    Fault::CodeThree,
    Fault::AnyNumberOfPages,
    Fault::CodeBeforeVersion,
    Fault::BitmapBytesInOneByte,
    Fault::TableBitNotAsked,
    Fault::CodeInEightBits,
    Fault::FormatKeepsTable,
    Fault::FormatMarksHeaderAlone,
    Fault::FormatAll,
    Fault::FullDirectory,
    Fault::DirectoryPageNotCounted,
    Fault::EntryPageFirst,
    Fault::AddedPageKept,
    Fault::StaleLink,
    Fault::LastPageFirst,
    Fault::NamesOfOnePage,
    Fault::NamesJudgedByPage,
    Fault::DirectoriesShrink,
    Fault::FirstPageFreed,
    Fault::EmptyByFirstPage,
    Fault::FreedLinksCleared,
    Fault::ListOfFirstPage,
    Fault::FindTellsAllPages,
    Fault::EntriesOfFirstPage,
    Fault::EntriesCountTold,
    Fault::EntriesEndRefused,
    Fault::EntriesPastEndGranted,
    Fault::EntriesWithoutEmpty,
    Fault::EntriesStaleRow,
    Fault::EntriesSizeInOneByte,
    Fault::EntriesRestCleared,
    Fault::EntriesPartOfARow,
    Fault::EntriesLockedDirectory,
    Fault::RootPagesLost,
    Fault::RootLinksLast,
    Fault::RootAtEntry0,
    Fault::RootCountsPage0,
    Fault::PlaceInDirectory,
    Fault::PlaceFromByte0,
    Fault::TablePageOwned,
];

/// The papers' layout with something changed.
fn altered(length: usize, code: u64, alter: fn(&mut Layout)) -> Result<Layout, Refusal> {
    let mut layout = layout(length, code)?;
    alter(&mut layout);
    Ok(layout)
}

/// A layout of a code that may not go with the length.
fn taken(length: usize, code: u64, takes: fn(usize, usize) -> bool) -> Result<Layout, Refusal> {
    layout(length, code).or_else(|refusal| match code {
        0..=3 if takes(length, 256 << code) => Ok(laid_out(length, code as usize)),
        _ => Err(refusal),
    })
}

fn lay_of(fault: Fault) -> Lay {
    match fault {
        Fault::LinksOneByteApart => |length, code| altered(length, code, |lay| lay.link_step = 1),
        Fault::TableAtByte256 => |length, code| altered(length, code, |lay| lay.table_at = 256),
        Fault::CountInOneByte => |length, code| altered(length, code, |lay| lay.free.bytes = 1),
        Fault::SizeInTwoBytes => |length, code| altered(length, code, |lay| lay.size.bytes = 2),
        Fault::StartInOneByte => |length, code| altered(length, code, |lay| lay.start.bytes = 1),
        Fault::WidthByPages => |length, code| {
            altered(length, code, |lay| {
                let bytes = if lay.pages > 256 { 2 } else { 1 };
                (lay.link_bytes, lay.link_step, lay.aside) = (bytes, bytes, 1 + bytes);
            })
        },
        Fault::TableOfTwoPages => |length, code| altered(length, code, |lay| lay.aside = 3),
        Fault::RootAtByte64 => |length, code| altered(length, code, |lay| lay.root_at = 64),
        Fault::ContentLessOne => |length, code| altered(length, code, |lay| lay.content -= 1),
        Fault::DirectorySize256 => {
            |length, code| altered(length, code, |lay| lay.directory_size = 256)
        }
        Fault::SmallCode => |length, code| {
            taken(length, code, |length, page| {
                page < 2048 && length.is_multiple_of(8 * page)
            })
        },
        Fault::CodeThree => |length, code| {
            taken(length, code, |length, page| {
                page == 2048 && length.is_multiple_of(8 * page)
            })
        },
        Fault::AnyNumberOfPages => |length, code| {
            taken(length, code, |length, page| {
                page < 2048 && length <= 65_536 && length / page >= 8
            })
        },
        _ => layout,
    }
}

/// The plain implementation with one fault.
pub struct Wrong(pub Fault);

/// An image that is looked at.
struct Look {
    image: Vec<u8>,
    layout: Layout,
}

impl Look {
    /// None where the header is not good.
    fn at(image: &[u8]) -> Option<Look> {
        check_length(image.len()).ok()?;
        let layout = layout(image.len(), CODE.of(image) as u64).ok()?;
        let image = image.to_vec();
        Some(Look { image, layout })
    }

    fn writer(&mut self) -> Writer<'_> {
        Writer {
            image: &mut self.image,
            layout: self.layout,
        }
    }

    fn link(&self, page: usize) -> usize {
        self.layout.link(page).of(&self.image)
    }

    fn entry(&self, page: usize, number: usize) -> usize {
        self.layout.entries_at(page) + number * ENTRY
    }

    fn start(&self, at: usize) -> usize {
        self.layout.start.of(&self.image[at..at + ENTRY])
    }

    /// The occupied entries of a page of a directory.
    fn occupied(&self, page: usize) -> Vec<usize> {
        let places = self.layout.entry_places(page);
        places.filter(|&at| self.image[at] & 0x80 != 0).collect()
    }

    fn has_vacancy(&self, page: usize) -> bool {
        self.occupied(page).len() < self.layout.entry_places(page).count()
    }

    fn name(&self, at: usize) -> &[u8] {
        &self.image[at + NAME_AT..at + NAME_AT + NAME_BYTES]
    }
}

/// The path of the directory that holds the last name of a good path.
fn parent_of(path: &[u8]) -> &[u8] {
    let slash = path.iter().rposition(|&byte| byte == b'/');
    match slash {
        Some(0) | None => b"/",
        Some(slash) => &path[..slash],
    }
}

impl Wrong {
    fn has(&self, fault: Fault) -> bool {
        self.0 == fault
    }

    fn plain(&self) -> Plain {
        Plain {
            lay: lay_of(self.0),
        }
    }

    /// Performs a call that changes the image, and breaks what the fault says.
    fn change(&self, image: &mut [u8], mut call: Call) -> Answer {
        let before = image.to_vec();
        let mut answer = call.perform(&self.plain(), image);
        if let Call::Same(call) = &call {
            match call {
                Shared::MakeFile(path, _) | Shared::MakeDirectory(path, _) => {
                    self.spoil_make(image, &before, path, call, &mut answer);
                }
                Shared::RemoveFile(path) | Shared::RemoveDirectory(path) => {
                    self.spoil_removal(image, &before, path, &mut answer);
                }
                _ => {}
            }
            if answer.is_granted() && self.has(Fault::StaleLink) {
                keep_stale_links(image, &before);
            }
        }
        self.spoil_judgement(&before, &mut answer);
        answer
    }

    /// Performs a call that changes nothing, on the image as the faulty judge
    /// sees it.
    fn ask(&self, image: &[u8], mut call: Shared) -> (Answer, Shared) {
        let mut seen = self.seen(image);
        let mut asked = Call::Same(call.clone());
        let mut answer = asked.perform(&self.plain(), &mut seen);
        if let Call::Same(performed) = asked {
            call = performed;
        }
        if answer.is_granted() {
            self.spoil_answer(image, &call, &mut answer);
        }
        self.spoil_judgement(image, &mut answer);
        (answer, call)
    }

    /// The image as the faulty judge sees it.
    fn seen(&self, image: &[u8]) -> Vec<u8> {
        let Some(mut look) = Look::at(image) else {
            return image.to_vec();
        };
        match self.0 {
            Fault::BitmapBytesInOneByte => look.image[3] = 0,
            Fault::TableBitNotAsked => {
                let layout = look.layout;
                for page in 1..layout.aside {
                    if !layout.is_allocated(&look.image, page) {
                        look.image[BITMAP_AT + page / 8] |= 1 << (page % 8);
                        let free = layout.free.of(&look.image);
                        layout.free.put(&mut look.image, free.wrapping_sub(1));
                    }
                }
            }
            Fault::NamesJudgedByPage => rename_equals(&mut look),
            _ => {}
        }
        look.image
    }

    fn spoil_answer(&self, image: &[u8], call: &Shared, answer: &mut Answer) {
        let Some(mut look) = Look::at(image) else {
            return;
        };
        match call {
            Shared::List(path, entry) if self.has(Fault::ListOfFirstPage) => {
                let first = look.writer().pages_at(path)[0];
                if *entry >= look.layout.entry_places(first).count() as u64 {
                    *answer = Answer::refused(Refusal::number(12));
                }
            }
            Shared::Find(path) if self.has(Fault::FindTellsAllPages) && answer.values[0] == 1 => {
                answer.values[1] *= look.writer().pages_at(path).len() as u64;
            }
            _ => {}
        }
    }

    /// What is broken about the rows of a directory that is there.
    fn spoil_entries(
        &self,
        image: &[u8],
        path: &[u8],
        first: u64,
        rows: &mut [u8],
        answer: &mut Answer,
    ) {
        let Some(mut look) = Look::at(image).filter(|_| matches!(answer.number, 0 | 12)) else {
            return;
        };
        let pages = look.writer().pages_at(path);
        let places: Vec<usize> = (pages.iter())
            .flat_map(|&page| look.layout.entry_places(page))
            .collect();
        let all = places.len();
        let told = answer.values[0] as usize;
        match (self.0, answer.number) {
            (Fault::EntriesPastEndGranted, 12) => *answer = Answer::entries(0, all as u64),
            (_, 12) => {}
            (Fault::EntriesOfFirstPage, _) => {
                let few = look.layout.entry_places(pages[0]).count();
                answer.values[0] = answer.values[0].min((few as u64).saturating_sub(first));
                answer.values[1] = few as u64;
            }
            (Fault::EntriesCountTold, _) => answer.values[1] = answer.values[0],
            (Fault::EntriesEndRefused, _) if first == all as u64 => {
                *answer = Answer::refused(Refusal::number(12));
            }
            (Fault::EntriesWithoutEmpty, _) => {
                let occupied: Vec<[u8; ROW]> = (rows[..told * ROW].chunks_exact(ROW))
                    .filter(|row| row[0] == 1)
                    .map(|row| row.try_into().expect("a row"))
                    .collect();
                rows[..occupied.len() * ROW].copy_from_slice(&occupied.concat());
                answer.values[0] = occupied.len() as u64;
            }
            (Fault::EntriesRestCleared, _) => rows[told * ROW..].fill(0),
            (Fault::EntriesPartOfARow, _) if first as usize + told < all => {
                rows[told * ROW..].fill(0);
            }
            _ => {
                let rows = rows.chunks_exact_mut(ROW).take(told);
                for (row, at) in rows.zip(&places[first as usize..]) {
                    self.spoil_row(row, &image[*at..at + ENTRY]);
                }
            }
        }
    }

    fn spoil_row(&self, row: &mut [u8], entry: &[u8]) {
        match self.0 {
            Fault::EntriesStaleRow if row[0] == 0 => {
                row[16..].copy_from_slice(&entry[NAME_AT..NAME_AT + NAME_BYTES]);
            }
            Fault::EntriesSizeInOneByte => row[5..8].fill(0),
            Fault::EntriesLockedDirectory => row[2] |= row[1] & entry[0] >> 6 & 1,
            _ => {}
        }
    }

    fn spoil_make(
        &self,
        image: &mut [u8],
        before: &[u8],
        path: &[u8],
        call: &Shared,
        answer: &mut Answer,
    ) {
        let is_told = matches!(answer.number, 0 | 8 | 10);
        let Some(mut look) = Look::at(before).filter(|_| is_told && path != b"/") else {
            return;
        };
        let pages = look.writer().pages_at(parent_of(path));
        let last = *pages.last().expect("a directory has a page");
        let is_full = pages.iter().all(|&page| !look.has_vacancy(page));
        match (self.0, answer.number) {
            (Fault::FullDirectory, 0 | 10) if is_full => {
                image.copy_from_slice(before);
                *answer = Answer::refused(Refusal::number(9));
            }
            (Fault::DirectoryPageNotCounted, 10)
                if is_full && PLAIN.verdict(before).values[1] == 1 =>
            {
                look.writer().join(last);
                image.copy_from_slice(&look.image);
            }
            (Fault::EntryPageFirst, 0) if is_full => exchange_added_pages(image, last),
            (Fault::AddedPageKept, 0) if is_full => {
                let Some(after) = Look::at(image) else { return };
                let from = after.link(last) * after.layout.page;
                let rest = from + ENTRY..from + after.layout.page;
                image[rest.clone()].copy_from_slice(&before[rest]);
            }
            (Fault::LastPageFirst, 0) if pages.len() > 1 && look.has_vacancy(last) => {
                move_to_page(image, before, path, last);
            }
            (Fault::NamesOfOnePage, 8) => {
                let at = look.writer().entry_at(path);
                let written = pages.iter().find(|&&page| look.has_vacancy(page));
                if written != Some(&(at / look.layout.page)) {
                    make_beside(look, at, call, image, answer);
                }
            }
            _ => {}
        }
    }

    fn spoil_removal(&self, image: &mut [u8], before: &[u8], path: &[u8], answer: &mut Answer) {
        let is_told = matches!(answer.number, 0 | 13);
        let Some(mut look) = Look::at(before).filter(|_| is_told) else {
            return;
        };
        let at = look.writer().entry_at(path);
        let start = look.start(at);
        let chain = look.writer().chain(start);
        let is_directory = before[at] & 1 != 0;
        match (self.0, answer.number) {
            (Fault::DirectoriesShrink, 0) => {
                let Some(mut after) = Look::at(image) else {
                    return;
                };
                let pages = after.writer().pages_at(parent_of(path));
                if let [.., above, last] = pages[..] {
                    if after.occupied(last).is_empty() {
                        after.writer().release(last);
                        after.layout.link(above).put(&mut after.image, 0);
                        image.copy_from_slice(&after.image);
                    }
                }
            }
            (Fault::FirstPageFreed, 0) if is_directory => {
                look.writer().release(start);
                look.image[at] = 0;
                image.copy_from_slice(&look.image);
            }
            (Fault::EmptyByFirstPage, 13) if look.occupied(start).is_empty() => {
                for page in chain {
                    look.writer().release(page);
                }
                look.image[at] = 0;
                image.copy_from_slice(&look.image);
                *answer = Answer::granted();
            }
            (Fault::FreedLinksCleared, 0) => {
                for page in chain {
                    look.layout.link(page).put(image, 0);
                }
            }
            _ => {}
        }
    }

    /// What a faulty judge tells where the right one tells `answer`.
    fn spoil_judgement(&self, image: &[u8], answer: &mut Answer) {
        let told = Refusal {
            number: answer.number,
            place: answer.place,
        };
        let is_of_the_image = told.says_unsound() || matches!(told.number, 2 | 26);
        let is_granted = answer.is_granted() && self.has(Fault::RootPagesLost);
        if !is_of_the_image && !is_granted {
            return;
        }
        if let Some(other) = self.misjudged(image, told) {
            *answer = Answer::refused(other);
        }
    }

    fn misjudged(&self, image: &[u8], told: Refusal) -> Option<Refusal> {
        if self.has(Fault::CodeBeforeVersion) && told.number == 2 {
            let mut other = image.to_vec();
            other[..2].copy_from_slice(&[0x5A, 2]);
            return (PLAIN.verdict(&other).number == 26).then(|| Refusal::number(26));
        }
        let mut look = Look::at(image)?;
        let [page, number, passed] = told.place.map(|part| part as usize);
        let is_of_root_links = told.number == 17 && number == 255;
        match (self.0, told.number) {
            (Fault::RootPagesLost, 0 | 3 | 19) => {
                let pages = look.writer().chain(0);
                let lowest = pages[1..].iter().min()?;
                Some(Refusal::at_page(19, *lowest))
            }
            (Fault::RootLinksLast, 17 | 18 | 20) => {
                let link = look.layout.link(0);
                link.put(&mut look.image, 0);
                let other = PLAIN.verdict(&look.image);
                let in_the_walk = matches!(other.number, 16 | 17 | 18 | 20);
                in_the_walk.then_some(Refusal {
                    number: other.number,
                    place: other.place,
                })
            }
            (Fault::RootAtEntry0, 17) if is_of_root_links => Some(Refusal::at_chain(0, 0, passed)),
            (Fault::RootCountsPage0, 17) if is_of_root_links => {
                Some(Refusal::at_chain(0, 255, passed + 1))
            }
            (Fault::PlaceFromByte0, 16 | 17) if page == 0 && !is_of_root_links => {
                let number = number + look.layout.root_at / ENTRY;
                let place = [0, number as u64, told.place[2]];
                Some(Refusal { place, ..told })
            }
            (Fault::PlaceInDirectory, 16 | 17) if !is_of_root_links => {
                let (first, before) = beginning_of(&look, page)?;
                let place = [first as u64, (before + number) as u64, told.place[2]];
                Some(Refusal { place, ..told })
            }
            (Fault::TablePageOwned, 17) => {
                let start = match is_of_root_links {
                    true => look.link(0),
                    false => look.start(look.entry(page, number)),
                };
                let failed = (0..passed).fold(start, |page, _| look.link(page));
                let is_of_the_table = (1..look.layout.aside).contains(&failed);
                is_of_the_table.then(|| Refusal::at_page(18, failed))
            }
            _ => None,
        }
    }
}

/// The first page of the directory that has that page, and how many entries stand
/// before the page.
fn beginning_of(look: &Look, page: usize) -> Option<(usize, usize)> {
    let (mut first, mut before) = (page, 0);
    let pages = 0..look.layout.pages;
    for _ in 0..look.layout.pages {
        let is_above = |other: &usize| {
            let is_page = *other == 0 || *other >= look.layout.aside;
            is_page && look.link(*other) == first && look.layout.is_allocated(&look.image, *other)
        };
        let Some(above) = pages.clone().find(is_above).filter(|_| first != 0) else {
            return Some((first, before));
        };
        first = above;
        before += look.layout.entry_places(above).count();
    }
    None
}

/// Gives the later of two equal names another one, where the earlier is on
/// another page, as often as that is what the judge tells.
fn rename_equals(look: &mut Look) {
    for round in 0..20 {
        let answer = PLAIN.verdict(&look.image);
        let [page, number, _] = answer.place.map(|part| part as usize);
        if answer.number != 16 {
            return;
        }
        let at = look.entry(page, number);
        let name = look.name(at).to_vec();
        let on_page = look.occupied(page).into_iter().filter(|other| *other < at);
        let is_taken_there = on_page.into_iter().any(|other| look.name(other) == name);
        if is_taken_there || crate::plain::reader::stored_name(&name).is_none() {
            return;
        }
        let other = format!("~~~~{round:012}");
        look.image[at + NAME_AT..at + NAME_AT + NAME_BYTES].copy_from_slice(other.as_bytes());
    }
}

/// A new entry goes to the lowest one of another page of its directory that was
/// empty.
fn move_to_page(image: &mut [u8], before: &[u8], path: &[u8], page: usize) {
    let Some(mut look) = Look::at(image) else {
        return;
    };
    let at = look.writer().entry_at(path);
    let mut places = look.layout.entry_places(page);
    let to = places.find(|&place| before[place] & 0x80 == 0);
    if let Some(to) = to.filter(|_| at / look.layout.page != page) {
        image.copy_within(at..at + ENTRY, to);
        image[at..at + ENTRY].copy_from_slice(&before[at..at + ENTRY]);
    }
}

/// Performs a make with the entry of that name hidden by another one.
fn make_beside(mut look: Look, at: usize, call: &Shared, image: &mut [u8], answer: &mut Answer) {
    let name = at + NAME_AT..at + NAME_AT + NAME_BYTES;
    let kept = look.name(at).to_vec();
    look.image[name.clone()].fill(b'~');
    let other = Call::Same(call.clone()).perform(&PLAIN, &mut look.image);
    if other.is_granted() {
        look.image[name].copy_from_slice(&kept);
        image.copy_from_slice(&look.image);
        *answer = other;
    }
}

/// The pages that a make added to a full directory change places: the entry's
/// comes first.
fn exchange_added_pages(image: &mut [u8], last: usize) {
    let Some(mut look) = Look::at(image) else {
        return;
    };
    let layout = look.layout;
    let of_directory = look.link(last);
    let at = of_directory * layout.page;
    let of_entry = look.start(at);
    let entry = image[at..at + ENTRY].to_vec();
    let to = of_entry * layout.page;
    look.image[at..at + ENTRY].fill(0);
    look.image[to..to + ENTRY].copy_from_slice(&entry);
    layout
        .start
        .put(&mut look.image[to..to + ENTRY], of_directory);
    layout.link(last).put(&mut look.image, of_entry);
    image.copy_from_slice(&look.image);
}

/// Pages that were free keep the link that they had, if they are the last of
/// their chain.
fn keep_stale_links(image: &mut [u8], before: &[u8]) {
    let (Some(old), Some(new)) = (Look::at(before), Look::at(image)) else {
        return;
    };
    for page in new.layout.aside..new.layout.pages {
        let was_added = new.layout.is_allocated(image, page)
            && !old.layout.is_allocated(before, page)
            && new.link(page) == 0;
        if was_added {
            new.layout.link(page).put(image, old.link(page));
        }
    }
}

impl Base for Wrong {
    fn verdict(&self, image: &[u8]) -> Answer {
        self.ask(image, Shared::Verdict).0
    }

    fn find(&self, image: &[u8], path: &[u8]) -> Answer {
        self.ask(image, Shared::Find(path.to_vec())).0
    }

    fn list(&self, image: &[u8], path: &[u8], entry: u64) -> Answer {
        self.ask(image, Shared::List(path.to_vec(), entry)).0
    }

    fn read(&self, image: &[u8], path: &[u8], position: u64, buffer: &mut [u8]) -> Answer {
        let call = Shared::Read(path.to_vec(), position, buffer.to_vec());
        let (answer, call) = self.ask(image, call);
        if let Shared::Read(_, _, filled) = call {
            buffer.copy_from_slice(&filled);
        }
        answer
    }

    fn make_file(&self, image: &mut [u8], path: &[u8], date: &[u8]) -> Answer {
        let call = Shared::MakeFile(path.to_vec(), date.to_vec());
        self.change(image, Call::Same(call))
    }

    fn make_directory(&self, image: &mut [u8], path: &[u8], date: &[u8]) -> Answer {
        let call = Shared::MakeDirectory(path.to_vec(), date.to_vec());
        self.change(image, Call::Same(call))
    }

    fn write(&self, image: &mut [u8], path: &[u8], position: u64, bytes: &[u8]) -> Answer {
        let call = Shared::Write(path.to_vec(), position, bytes.to_vec());
        self.change(image, Call::Same(call))
    }

    fn remove_file(&self, image: &mut [u8], path: &[u8]) -> Answer {
        self.change(image, Call::Same(Shared::RemoveFile(path.to_vec())))
    }

    fn remove_directory(&self, image: &mut [u8], path: &[u8]) -> Answer {
        self.change(image, Call::Same(Shared::RemoveDirectory(path.to_vec())))
    }

    fn lock(&self, image: &mut [u8], path: &[u8]) -> Answer {
        self.change(image, Call::Same(Shared::Lock(path.to_vec())))
    }

    fn unlock(&self, image: &mut [u8], path: &[u8]) -> Answer {
        self.change(image, Call::Same(Shared::Unlock(path.to_vec())))
    }
}

impl Calls for Wrong {
    fn entries(&self, image: &[u8], path: &[u8], first: u64, rows: &mut [u8]) -> Answer {
        let mut answer = self.plain().entries(&self.seen(image), path, first, rows);
        self.spoil_entries(image, path, first, rows, &mut answer);
        self.spoil_judgement(image, &mut answer);
        answer
    }

    fn format(&self, image: &mut [u8], code: u64) -> Answer {
        let before = image.to_vec();
        let code = match self.0 {
            Fault::CodeInEightBits => code % 256,
            _ => code,
        };
        let answer = self.plain().format(image, code);
        let Some(layout) = Look::at(image)
            .map(|look| look.layout)
            .filter(|_| answer.is_granted())
        else {
            return answer;
        };
        let table = layout.page..layout.aside * layout.page;
        match self.0 {
            Fault::FormatKeepsTable => image[table.clone()].copy_from_slice(&before[table]),
            Fault::FormatMarksHeaderAlone => {
                image[BITMAP_AT] = 1;
                layout.free.put(image, BITMAP_BYTES.of(image) * 8 - 1);
            }
            Fault::FormatAll => image[table.end..].fill(0),
            _ => {}
        }
        answer
    }
}
