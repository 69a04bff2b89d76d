//! Copies of the plain implementation with one thing broken, to see that the
//! harness tells of each.

use crate::calls::{Answer, Audit, Base, Call, Calls, Refusal};
use crate::misjudge::misjudged;
use crate::plain::reader::is_allocated;
use crate::plain::writer::entry_at;
use crate::plain::{
    pages_of_file, pages_of_image, Plain, BITMAP_AT, CONTENT, ENTRY, PAGE, ROOT_ENTRIES_AT,
};
use crate::wrong_links::Links;

/// What is broken.
#[derive(Clone, Copy, Debug, PartialEq, Eq, PartialOrd)]
pub enum Fault {
    /// Leading zeros of names do not count.
    LeadingZeros,
    /// Byte 3 is trusted without counting.
    TrustedFreeCount,
    /// Zero bits are counted over all 32 bitmap bytes.
    WholeBitmap,
    /// The pages of a write are marked before it is refused.
    MarkedBeforeRefusal,
    /// Only the first page of content is written.
    FirstPageOnly,
    /// A granted write also stamps the entry's date.
    DateOnWrite,
    /// A removal clears all of the entry.
    WholeEntryCleared,
    /// A removal clears the freed page.
    FreedPageCleared,
    /// Read zeroes the rest of the buffer.
    BufferRestZeroed,
    /// A position is cut to 32 bits.
    ShortPosition,
    /// An entry number is cut to 8 bits.
    ShortEntryNumber,
    /// The place of 5 and 6 is the slash and not the name.
    PlaceOfSlash,
    /// A directory that holds something is told as 7 and not as 13.
    WrongNumber,
    /// An empty directory is removed as a file.
    DirectoryAsFile,
    /// A file is removed as a directory.
    FileAsDirectory,
    /// The root answers a date.
    RootDate,
    /// Format zeroes the whole image.
    FormatAll,
    /// The weekday is judged.
    JudgedWeekday,
    /// Reserved flag bits are cleared by a write.
    ReservedFlagsCleared,
    /// A bad date is told before a bad path.
    DateBeforePath,
    /// A locked file is written.
    LockedWritten,
    /// A locked file is removed.
    LockedRemoved,
    /// A write of no bytes to a locked file is granted.
    NothingToLocked,
    /// A position past the end is told before the lock.
    PastEndBeforeLock,
    /// Bit 6 of a directory is told as a lock.
    LockedDirectory,
    /// A directory is locked as a file is.
    DirectoryLocks,
    /// A lock clears the reserved flags.
    LockClearsFlags,
    /// To lock a second time unlocks.
    LockTurns,
    /// A repair leaves the bit of the highest lost page.
    RepairLeavesBit,
    /// A repair keeps byte 3.
    RepairKeepsCount,
    /// A repair also marks owned pages that are marked as free.
    RepairMarksOwned,
    /// The header is stored before the content.
    StoreHeaderFirst,
    /// The parent's page is stored before the header.
    StoreParentFirst,
    /// The last page of a stored file has a link.
    StoreLinksOn,
    /// What stood on a page stays behind the last byte that is stored there.
    StoreKeepsRest,
    /// The number past the last store is told before want of pages.
    StorePastBeforeFull,
    /// Every content page is stored on the first free one.
    StoreFirstPage,
    /// A refused store empties the buffer.
    StoreEmptiesBuffer,
    /// The second judge names each owner one page on.
    OwnerOnePageOn,
    /// The second judge trusts byte 3.
    AuditTrustsCount,
    /// A tidy leaves the bits where they were.
    TidyLeavesBits,
    /// A tidy moves the start pages of the root's vacant entries too.
    TidyMovesVacant,
    /// The numbers of a link list are in groups of six bits.
    LinksGroupsOf64,
    /// A number with a group too many is taken.
    LinksNotShortest,
    /// A row may be equal to the one before it.
    LinksEqualRows,
    /// Rows rise by value, then by count.
    LinksValueFirst,
    /// A row not above another is told before a broken one.
    LinksOrderFirst,
    /// An accession may have 17 digits.
    LinksSeventeenDigits,
    /// An accession may have no digit.
    LinksNoDigits,
    /// A value may be ten to the count.
    LinksTenToTheCount,
    /// A figure may have 33 bits.
    LinksLongFigure,
    /// A figure may have 31 bits only.
    LinksShortFigure,
    /// A broken row of a file is told by its number.
    LinksRowForByte,
    /// Two numbers past the last row are a row.
    LinksRemainder,
    /// The empty path is taken for the root.
    LinksEmptyPath,
    /// A directory without LINKS has a list of no rows.
    LinksMissingIsEmpty,
    /// A missing LINKS is told at the path's first name.
    LinksPlaceOfDirectory,
    /// A list too short is told before a bad row.
    LinksRoomFirst,
    /// A list has to have room for one row more.
    LinksRoomForOneMore,
    /// The list past the rows is overwritten.
    LinksRestOverwritten,
    /// Leading zeros of an accession do not count.
    LinksLeadingZeros,
    /// What follows the row that is found is not judged.
    LinksFoundFirst,
    /// A directory will do for a row's file.
    LinksDirectoryNamed,
    /// A bad date is told after a missing name.
    LinksDateAfterName,
    /// A directory of that name is told after the rows.
    LinksDirectoryLast,
    /// Want of an entry or of pages is told before the rows.
    LinksRoomBeforeRows,
    /// A locked list is written anew.
    LinksLockOverlooked,
    /// Pages are counted with the old list still there.
    LinksOldPagesCount,
    /// Entries are counted with the old list still there.
    LinksOldEntryCounts,
    /// The new list has the old one's date.
    LinksDateKept,
    /// Only the first page of a list is written.
    LinksFirstPageOnly,
    /// A writing that is refused for want of pages has removed the old list.
    LinksRefusedRemoves,
    // From here on the fault that is told of an image is not its first one, or
    // its place is another.
    /// The page that fails is counted among those that passed.
    FailedPageCounted,
    /// Of two equal names the earlier one is told.
    EarlierOfEqualNames,
    /// Of the lost pages the highest is told.
    HighestLostPage,
    /// Bit 0 and byte 3 are judged before the walk.
    CountFirst,
    /// Lost pages are told before a fault of the walk.
    LostPagesFirst,
    /// The names of a directory's later entries come before an entry's chain.
    NamesBeforeChains,
    /// What is in the root's directories comes after the root's last entry.
    RootFirst,
}

/// All faults.
pub const FAULTS: [Fault; 79] = [
    Fault::LeadingZeros,
    Fault::TrustedFreeCount,
    Fault::WholeBitmap,
    Fault::MarkedBeforeRefusal,
    Fault::FirstPageOnly,
    Fault::DateOnWrite,
    Fault::WholeEntryCleared,
    Fault::FreedPageCleared,
    Fault::BufferRestZeroed,
    Fault::ShortPosition,
    Fault::ShortEntryNumber,
    Fault::PlaceOfSlash,
    Fault::WrongNumber,
    Fault::DirectoryAsFile,
    Fault::FileAsDirectory,
    Fault::RootDate,
    Fault::FormatAll,
    Fault::JudgedWeekday,
    Fault::ReservedFlagsCleared,
    Fault::DateBeforePath,
    Fault::LockedWritten,
    Fault::LockedRemoved,
    Fault::NothingToLocked,
    Fault::PastEndBeforeLock,
    Fault::LockedDirectory,
    Fault::DirectoryLocks,
    Fault::LockClearsFlags,
    Fault::LockTurns,
    Fault::RepairLeavesBit,
    Fault::RepairKeepsCount,
    Fault::RepairMarksOwned,
    Fault::StoreHeaderFirst,
    Fault::StoreParentFirst,
    Fault::StoreLinksOn,
    Fault::StoreKeepsRest,
    Fault::StorePastBeforeFull,
    Fault::StoreFirstPage,
    Fault::StoreEmptiesBuffer,
    Fault::OwnerOnePageOn,
    Fault::AuditTrustsCount,
    Fault::TidyLeavesBits,
    Fault::TidyMovesVacant,
    Fault::LinksGroupsOf64,
    Fault::LinksNotShortest,
    Fault::LinksEqualRows,
    Fault::LinksValueFirst,
    Fault::LinksOrderFirst,
    Fault::LinksSeventeenDigits,
    Fault::LinksNoDigits,
    Fault::LinksTenToTheCount,
    Fault::LinksLongFigure,
    Fault::LinksShortFigure,
    Fault::LinksRowForByte,
    Fault::LinksRemainder,
    Fault::LinksEmptyPath,
    Fault::LinksMissingIsEmpty,
    Fault::LinksPlaceOfDirectory,
    Fault::LinksRoomFirst,
    Fault::LinksRoomForOneMore,
    Fault::LinksRestOverwritten,
    Fault::LinksLeadingZeros,
    Fault::LinksFoundFirst,
    Fault::LinksDirectoryNamed,
    Fault::LinksDateAfterName,
    Fault::LinksDirectoryLast,
    Fault::LinksRoomBeforeRows,
    Fault::LinksLockOverlooked,
    Fault::LinksOldPagesCount,
    Fault::LinksOldEntryCounts,
    Fault::LinksDateKept,
    Fault::LinksFirstPageOnly,
    Fault::LinksRefusedRemoves,
    Fault::FailedPageCounted,
    Fault::EarlierOfEqualNames,
    Fault::HighestLostPage,
    Fault::CountFirst,
    Fault::LostPagesFirst,
    Fault::NamesBeforeChains,
    Fault::RootFirst,
];

impl Fault {
    /// Whether it shows only in which fault of an image is told.
    pub fn is_of_the_judge(self) -> bool {
        self >= Fault::FailedPageCounted
    }

    /// Whether it is one of the link list.
    pub fn is_of_links(self) -> bool {
        self >= Fault::LinksGroupsOf64 && !self.is_of_the_judge()
    }
}

/// The plain implementation with one fault.
pub struct Wrong(pub Fault);

impl Wrong {
    fn has(&self, fault: Fault) -> bool {
        self.0 == fault
    }

    /// Performs a call and breaks what the fault says.
    fn perform(&self, image: &mut [u8], mut call: Call) -> (Answer, Call) {
        let before = image.to_vec();
        self.spoil_arguments(&mut call);
        let mut answer = call.perform(&Plain, image);
        self.remove_other_kind(image, &call, &mut answer);
        self.overlook_lock(image, &call, &mut answer);
        self.spoil_lock(image, &before, &call, &mut answer);
        match &mut call {
            Call::Read(_, _, buffer)
                if self.has(Fault::BufferRestZeroed) && answer.is_granted() =>
            {
                buffer[answer.values[0] as usize..].fill(0);
            }
            Call::Write(_, position, bytes) => {
                self.spoil_write(image, &before, *position, bytes, &answer);
            }
            Call::RemoveFile(_) | Call::RemoveDirectory(_) if answer.is_granted() => {
                self.spoil_removal(image, &before);
            }
            Call::Repair => self.spoil_repair(image, &before, &mut answer),
            _ => {}
        }
        self.spoil_answer(&mut answer, &call);
        self.spoil_judgement(&mut answer, &before);
        (answer, call)
    }

    fn spoil_arguments(&self, call: &mut Call) {
        match call {
            Call::Find(path)
            | Call::RemoveFile(path)
            | Call::RemoveDirectory(path)
            | Call::Lock(path)
            | Call::Unlock(path)
            | Call::List(path, _) => self.spoil_path(path),
            _ => {}
        }
        match call {
            Call::Read(_, position, _) | Call::Write(_, position, _)
                if self.has(Fault::ShortPosition) =>
            {
                *position &= 0xFFFF_FFFF;
            }
            Call::List(_, entry) if self.has(Fault::ShortEntryNumber) => *entry &= 0xFF,
            _ => {}
        }
    }

    fn spoil_path(&self, path: &mut Vec<u8>) {
        if self.has(Fault::LeadingZeros) && path.starts_with(b"/0") && path.len() > 2 {
            path.remove(1);
        }
    }

    fn spoil_write(
        &self,
        image: &mut [u8],
        before: &[u8],
        position: u64,
        bytes: &[u8],
        answer: &Answer,
    ) {
        match self.0 {
            Fault::MarkedBeforeRefusal if answer.number == 10 => image[BITMAP_AT] = 0xFF,
            Fault::FirstPageOnly if answer.is_granted() && bytes.len() > CONTENT => {
                let all = image.to_vec();
                image[PAGE..].copy_from_slice(&before[PAGE..]);
                image[PAGE..2 * PAGE].copy_from_slice(&all[PAGE..2 * PAGE]);
            }
            Fault::DateOnWrite if answer.is_granted() && position > 0 => {
                let entry = changed_entry(image, before);
                image[entry + 27] ^= 1;
            }
            Fault::ReservedFlagsCleared if answer.is_granted() => {
                let entry = changed_entry(image, before);
                image[entry] &= 0x81;
            }
            _ => {}
        }
    }

    /// Performs the other removal where this one was refused for the kind.
    fn remove_other_kind(&self, image: &mut [u8], call: &Call, answer: &mut Answer) {
        let other = match (self.0, call, answer.number) {
            (Fault::DirectoryAsFile, Call::RemoveFile(path), 7) => {
                Plain.remove_directory(image, path)
            }
            (Fault::FileAsDirectory, Call::RemoveDirectory(path), 6) => {
                Plain.remove_file(image, path)
            }
            _ => return,
        };
        if other.is_granted() {
            *answer = other;
        }
    }

    /// Performs a call that was refused for the lock as if there were none.
    fn overlook_lock(&self, image: &mut [u8], call: &Call, answer: &mut Answer) {
        let overlooked = match (self.0, call) {
            _ if answer.number != 25 => return,
            (Fault::LockedWritten | Fault::PastEndBeforeLock, Call::Write(path, ..)) => path,
            (Fault::NothingToLocked, Call::Write(path, _, bytes)) if bytes.is_empty() => path,
            (Fault::LockedRemoved, Call::RemoveFile(path)) => path,
            _ => return,
        };
        let at = entry_at(image, overlooked);
        let mut open = image.to_vec();
        open[at] &= !0x40;
        let other = call.clone().perform(&Plain, &mut open);
        match self.0 {
            Fault::PastEndBeforeLock if other.number != 12 => return,
            Fault::PastEndBeforeLock => {}
            _ if other.is_granted() => {
                image.copy_from_slice(&open);
                let is_still_there = open[at] & 0x80 != 0;
                image[at] |= u8::from(is_still_there) << 6;
            }
            _ => {}
        }
        *answer = other;
    }

    /// Breaks what a lock does, or how it is told.
    fn spoil_lock(&self, image: &mut [u8], before: &[u8], call: &Call, answer: &mut Answer) {
        match (self.0, call, answer.number) {
            (Fault::DirectoryLocks, Call::Lock(path), 7) if path != b"/" => {
                image[entry_at(before, path)] |= 0x40;
                *answer = Answer::granted();
            }
            (Fault::LockClearsFlags, Call::Lock(path), 0) => image[entry_at(before, path)] = 0xC0,
            (Fault::LockTurns, Call::Lock(path), 0) => {
                let at = entry_at(before, path);
                image[at] = before[at] ^ 0x40;
            }
            (Fault::LockedDirectory, Call::Find(path), 0) if path != b"/" => {
                answer.values[2] = u64::from(image[entry_at(before, path)] >> 6 & 1);
            }
            _ => {}
        }
    }

    fn spoil_removal(&self, image: &mut [u8], before: &[u8]) {
        let entry = changed_entry(image, before);
        match self.0 {
            Fault::WholeEntryCleared => image[entry..entry + 32].fill(0),
            Fault::FreedPageCleared => {
                let page = usize::from(image[entry + 17]);
                if page != 0 {
                    image[page * PAGE..(page + 1) * PAGE].fill(0);
                }
            }
            _ => {}
        }
    }

    fn spoil_repair(&self, image: &mut [u8], before: &[u8], answer: &mut Answer) {
        match self.0 {
            Fault::RepairLeavesBit if answer.is_granted() => {
                let pages = 1..image.len() / PAGE;
                let was_cleared =
                    |&page: &usize| is_allocated(before, page) && !is_allocated(image, page);
                if let Some(page) = pages.rev().find(was_cleared) {
                    image[BITMAP_AT + page / 8] |= 1 << (page % 8);
                    image[3] -= 1;
                }
            }
            Fault::RepairKeepsCount if answer.is_granted() => image[3] = before[3],
            Fault::RepairMarksOwned if answer.number == 20 => {
                let mut marked = before.to_vec();
                while answer.number == 20 {
                    let page = answer.place[0] as usize;
                    marked[BITMAP_AT + page / 8] |= 1 << (page % 8);
                    *answer = Plain.repair(&mut marked);
                }
                if answer.is_granted() {
                    image.copy_from_slice(&marked);
                }
            }
            _ => {}
        }
    }

    fn spoil_answer(&self, answer: &mut Answer, call: &Call) {
        match self.0 {
            Fault::PlaceOfSlash if matches!(answer.number, 5 | 6) => answer.place[0] -= 1,
            Fault::WrongNumber if answer.number == 13 => answer.number = 7,
            Fault::RootDate if *call == Call::Find(b"/".to_vec()) && answer.is_granted() => {
                answer.date[2] = 1;
            }
            _ => {}
        }
    }

    fn spoil_judgement(&self, answer: &mut Answer, image: &[u8]) {
        let first = Refusal {
            number: answer.number,
            place: answer.place,
        };
        if first.says_unsound() {
            *answer = Answer::refused(misjudged(self.0, image, first));
        }
    }

    /// The image as the faulty judge sees it.
    fn judged(&self, image: &[u8]) -> Vec<u8> {
        let mut seen = image.to_vec();
        if image.len() < 2048 {
            return seen;
        }
        let pages = (image.len() / PAGE).min(256);
        let in_use = BITMAP_AT..BITMAP_AT + pages / 8;
        let zeros = |bytes: &[u8]| bytes.iter().map(|byte| byte.count_zeros()).sum::<u32>() as u8;
        match self.0 {
            Fault::TrustedFreeCount => seen[3] = zeros(&image[in_use]),
            Fault::WholeBitmap => {
                let past = zeros(&image[in_use.end..BITMAP_AT + 32]);
                seen[3] = seen[3].wrapping_sub(past);
            }
            _ => {}
        }
        seen
    }

    fn make(&self, image: &mut [u8], path: &[u8], date: &[u8], call: Call) -> Answer {
        let mut answer = self.perform(image, call).0;
        if self.has(Fault::JudgedWeekday) && answer.is_granted() && date[4] > 6 {
            answer.number = 11;
        }
        let no_path = !path.starts_with(b"/");
        if self.has(Fault::DateBeforePath) && no_path && date.len() != 8 && answer.number == 4 {
            answer.number = 11;
        }
        answer
    }
}

/// The first entry of which a byte has changed; the first of all if none has.
fn changed_entry(image: &[u8], before: &[u8]) -> usize {
    let is_changed = |&at: &usize| image[at..at + 32] != before[at..at + 32];
    (64..image.len()).step_by(32).find(is_changed).unwrap_or(64)
}

impl Base for Wrong {
    fn verdict(&self, image: &[u8]) -> Answer {
        self.perform(&mut self.judged(image), Call::Verdict).0
    }

    fn find(&self, image: &[u8], path: &[u8]) -> Answer {
        let call = Call::Find(path.to_vec());
        self.perform(&mut self.judged(image), call).0
    }

    fn list(&self, image: &[u8], path: &[u8], entry: u64) -> Answer {
        let call = Call::List(path.to_vec(), entry);
        self.perform(&mut self.judged(image), call).0
    }

    fn read(&self, image: &[u8], path: &[u8], position: u64, buffer: &mut [u8]) -> Answer {
        let call = Call::Read(path.to_vec(), position, buffer.to_vec());
        let (answer, call) = self.perform(&mut image.to_vec(), call);
        if let Call::Read(_, _, filled) = call {
            buffer.copy_from_slice(&filled);
        }
        answer
    }

    fn make_file(&self, image: &mut [u8], path: &[u8], date: &[u8]) -> Answer {
        let call = Call::MakeFile(path.to_vec(), date.to_vec());
        self.make(image, path, date, call)
    }

    fn make_directory(&self, image: &mut [u8], path: &[u8], date: &[u8]) -> Answer {
        let call = Call::MakeDirectory(path.to_vec(), date.to_vec());
        self.make(image, path, date, call)
    }

    fn write(&self, image: &mut [u8], path: &[u8], position: u64, bytes: &[u8]) -> Answer {
        let call = Call::Write(path.to_vec(), position, bytes.to_vec());
        self.perform(image, call).0
    }

    fn remove_file(&self, image: &mut [u8], path: &[u8]) -> Answer {
        self.perform(image, Call::RemoveFile(path.to_vec())).0
    }

    fn remove_directory(&self, image: &mut [u8], path: &[u8]) -> Answer {
        self.perform(image, Call::RemoveDirectory(path.to_vec())).0
    }

    fn lock(&self, image: &mut [u8], path: &[u8]) -> Answer {
        self.perform(image, Call::Lock(path.to_vec())).0
    }

    fn unlock(&self, image: &mut [u8], path: &[u8]) -> Answer {
        self.perform(image, Call::Unlock(path.to_vec())).0
    }
}

impl Calls for Wrong {
    fn format(&self, image: &mut [u8]) -> Answer {
        let answer = Plain.format(image);
        if self.has(Fault::FormatAll) && answer.is_granted() {
            image[PAGE..].fill(0);
        }
        answer
    }

    fn store(
        &self,
        image: &[u8],
        path: &[u8],
        date: &[u8],
        content: &[u8],
        number: u64,
        page: &mut [u8],
    ) -> Answer {
        let pages = pages_of_file(content.len()) as u64;
        let asked = match self.0 {
            Fault::StoreHeaderFirst if number == 0 => pages,
            Fault::StoreHeaderFirst if number <= pages => number - 1,
            Fault::StoreParentFirst if number == pages => pages + 1,
            Fault::StoreParentFirst if number == pages + 1 => pages,
            _ => number,
        };
        let right = |asked, page: &mut [u8]| Plain.store(image, path, date, content, asked, page);
        let before = page.to_vec();
        let mut answer = right(asked, page);
        if answer.number == 12 {
            // There is no parent's page to store first.
            answer = right(number, page);
        }
        let at = answer.values[0] as usize;
        match self.0 {
            Fault::StoreLinksOn if answer.is_granted() && number + 1 == pages => page[0] = 1,
            Fault::StoreKeepsRest if answer.is_granted() && number + 1 == pages => {
                let kept = 1 + content.len() - (pages as usize - 1) * CONTENT;
                page[kept..].copy_from_slice(&image[at * PAGE + kept..(at + 1) * PAGE]);
            }
            Fault::StorePastBeforeFull if answer.number == 10 && number > pages + 1 => {
                answer = Answer::refused(Refusal::number(12));
            }
            Fault::StoreFirstPage if answer.is_granted() && number < pages => {
                answer = right(0, &mut before.clone());
            }
            Fault::StoreEmptiesBuffer if !answer.is_granted() => page.fill(0),
            _ => {}
        }
        answer
    }

    fn repair(&self, image: &mut [u8]) -> Answer {
        self.perform(image, Call::Repair).0
    }

    fn audit(&self, image: &[u8]) -> Audit {
        let mut seen = image.to_vec();
        if let (Fault::AuditTrustsCount, Ok(pages)) = (self.0, pages_of_image(image.len())) {
            let zero_bits = (0..pages).filter(|&page| !is_allocated(image, page));
            seen[3] = zero_bits.count() as u8;
        }
        let mut audit = Plain.audit(&seen);
        if self.has(Fault::OwnerOnePageOn) {
            audit.owners[1..].rotate_right(1);
        }
        audit
    }

    fn tidy(&self, image: &[u8], places: &[u8], target: &mut [u8]) -> Answer {
        let answer = Plain.tidy(image, places, target);
        if answer.is_granted() && self.has(Fault::TidyLeavesBits) {
            let bits = BITMAP_AT..BITMAP_AT + places.len() / 8;
            target[bits.clone()].copy_from_slice(&image[bits]);
        }
        if answer.is_granted() && self.has(Fault::TidyMovesVacant) {
            for at in (ROOT_ENTRIES_AT..PAGE).step_by(ENTRY) {
                let start = usize::from(image[at + 17]);
                if image[at] & 0x80 == 0 && start < places.len() {
                    target[at + 17] = places[start];
                }
            }
        }
        answer
    }

    fn links_read(&self, image: &[u8], directory: &[u8], numbers: &mut [u64]) -> Answer {
        match self.0.is_of_links() {
            true => Links(self.0).read(image, directory, numbers),
            false => Plain.links_read(image, directory, numbers),
        }
    }

    fn links_write(
        &self,
        image: &mut [u8],
        directory: &[u8],
        date: &[u8],
        numbers: &[u64],
    ) -> Answer {
        match self.0.is_of_links() {
            true => Links(self.0).write(image, directory, date, numbers),
            false => Plain.links_write(image, directory, date, numbers),
        }
    }

    fn links_find(&self, image: &[u8], directory: &[u8], count: u64, value: u64) -> Answer {
        match self.0.is_of_links() {
            true => Links(self.0).find(image, directory, count, value),
            false => Plain.links_find(image, directory, count, value),
        }
    }

    fn links_check(&self, image: &[u8], directory: &[u8]) -> Answer {
        match self.0.is_of_links() {
            true => Links(self.0).check(image, directory),
            false => Plain.links_check(image, directory),
        }
    }
}
