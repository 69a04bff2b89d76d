//! Faults that show only where several things come together, unlike those of
//! tests/src/wrong.rs.

use zealfs_tests::calls::{Answer, Audit, Base, Calls, Kind, NAME_BYTES};
use zealfs_tests::damage::Survey;
use zealfs_tests::plain::reader::judge;
use zealfs_tests::plain::{Plain, BITMAP_AT, CONTENT, PAGE};

/// What is broken.
#[derive(Clone, Copy, Debug, PartialEq, Eq)]
pub enum Rare {
    /// The verdict overlooks where the last page of a file leads if all of it
    /// is content.
    LastLink,
    /// The verdict overlooks the last byte of a name of 16 bytes.
    LastNameByte,
    /// A write that gains two pages or more and leaves none free sets byte 3
    /// to 1.
    LastPages,
    /// A make takes a name for there already if its first 15 bytes are.
    NameTail,
    /// A directory made in one that is the sixth on its path answers 10.
    DeepMake,
    /// A removed file of three pages or more keeps the bit of the last one if
    /// its number is below that of the first.
    KeptBit,
    /// A locked file of two pages or more takes bytes at its end.
    LockedAppend,
}

/// All rare faults.
pub const RARE: [Rare; 7] = [
    Rare::LastLink,
    Rare::LastNameByte,
    Rare::LastPages,
    Rare::NameTail,
    Rare::DeepMake,
    Rare::KeptBit,
    Rare::LockedAppend,
];

/// The plain implementation with one rare fault.
pub struct Rarely(pub Rare);

impl Rarely {
    /// The image as the faulty verdict sees it.
    fn judged(&self, image: &[u8]) -> Vec<u8> {
        let mut seen = image.to_vec();
        if !judge(image).is_err_and(|refusal| refusal.says_unsound()) {
            return seen;
        }
        for (at, pages) in Survey::of(image).entries {
            let size = usize::from(image[at + 18]) + 256 * usize::from(image[at + 19]);
            let is_file = image[at] & 1 == 0;
            match (self.0, pages.last()) {
                (Rare::LastLink, Some(last)) if is_file && size == pages.len() * CONTENT => {
                    seen[last * PAGE] = 0;
                }
                (Rare::LastNameByte, _) if image[at + 1..at + 17].iter().all(|&byte| byte != 0) => {
                    seen[at + NAME_BYTES] = b'A';
                }
                _ => {}
            }
        }
        seen
    }

    fn make(&self, image: &mut [u8], path: &[u8], date: &[u8], kind: Kind) -> Answer {
        let before = image.to_vec();
        let answer = match kind {
            Kind::File => Plain.make_file(image, path, date),
            Kind::Directory => Plain.make_directory(image, path, date),
        };
        if !answer.is_granted() {
            return answer;
        }
        let names = path.iter().filter(|&&byte| byte == b'/').count();
        let number = match self.0 {
            Rare::NameTail if has_name_with_tail(&before, path) => 8,
            Rare::DeepMake if kind == Kind::Directory && names == 7 => 10,
            _ => return answer,
        };
        image.copy_from_slice(&before);
        Answer { number, ..answer }
    }
}

/// Whether there is a path of the same length that differs in the last byte
/// alone, and the last name has 16 bytes.
fn has_name_with_tail(image: &[u8], path: &[u8]) -> bool {
    let Ok(tree) = judge(image) else {
        return false;
    };
    let name = path.rsplit(|&byte| byte == b'/').next().unwrap_or(path);
    let without_last = &path[..path.len() - 1];
    let mut paths = tree.paths().into_iter().map(|(path, _)| path);
    name.len() == NAME_BYTES
        && paths.any(|other| other.len() == path.len() && other.starts_with(without_last))
}

/// Lengthens a locked file of two pages or more, if the bytes are put at its end.
fn append_to_locked(
    image: &mut [u8],
    path: &[u8],
    position: u64,
    bytes: &[u8],
    refused: Answer,
) -> Answer {
    let size = Plain.find(image, path).values[1];
    if position != size || size <= CONTENT as u64 || bytes.is_empty() {
        return refused;
    }
    Plain.unlock(image, path);
    let answer = Plain.write(image, path, position, bytes);
    Plain.lock(image, path);
    answer
}

impl Base for Rarely {
    fn verdict(&self, image: &[u8]) -> Answer {
        Plain.verdict(&self.judged(image))
    }

    fn find(&self, image: &[u8], path: &[u8]) -> Answer {
        Plain.find(image, path)
    }

    fn list(&self, image: &[u8], path: &[u8], entry: u64) -> Answer {
        Plain.list(image, path, entry)
    }

    fn read(&self, image: &[u8], path: &[u8], position: u64, buffer: &mut [u8]) -> Answer {
        Plain.read(image, path, position, buffer)
    }

    fn make_file(&self, image: &mut [u8], path: &[u8], date: &[u8]) -> Answer {
        self.make(image, path, date, Kind::File)
    }

    fn make_directory(&self, image: &mut [u8], path: &[u8], date: &[u8]) -> Answer {
        self.make(image, path, date, Kind::Directory)
    }

    fn write(&self, image: &mut [u8], path: &[u8], position: u64, bytes: &[u8]) -> Answer {
        let free = image.get(3).copied();
        let answer = Plain.write(image, path, position, bytes);
        if self.0 == Rare::LockedAppend && answer.number == 25 {
            return append_to_locked(image, path, position, bytes, answer);
        }
        let was_roomy = free >= Some(2);
        if self.0 == Rare::LastPages && answer.is_granted() && was_roomy && image[3] == 0 {
            image[3] = 1;
        }
        answer
    }

    fn remove_file(&self, image: &mut [u8], path: &[u8]) -> Answer {
        let before = image.to_vec();
        let answer = Plain.remove_file(image, path);
        if self.0 != Rare::KeptBit || !answer.is_granted() {
            return answer;
        }
        let entries = Survey::of(&before).entries.into_iter();
        let mut gone = entries.filter(|(at, _)| image[*at] != before[*at]);
        if let Some((_, pages)) = gone.next() {
            if let [first, _, .., last] = pages[..] {
                if last < first {
                    image[BITMAP_AT + last / 8] |= 1 << (last % 8);
                }
            }
        }
        answer
    }

    fn remove_directory(&self, image: &mut [u8], path: &[u8]) -> Answer {
        Plain.remove_directory(image, path)
    }

    fn lock(&self, image: &mut [u8], path: &[u8]) -> Answer {
        Plain.lock(image, path)
    }

    fn unlock(&self, image: &mut [u8], path: &[u8]) -> Answer {
        Plain.unlock(image, path)
    }
}

impl Calls for Rarely {
    fn format(&self, image: &mut [u8]) -> Answer {
        Plain.format(image)
    }

    fn store(
        &self,
        image: &[u8],
        path: &[u8],
        date: &[u8],
        content: &[u8],
        number: u64,
        page: &mut [u8],
    ) -> Answer {
        Plain.store(image, path, date, content, number, page)
    }

    fn repair(&self, image: &mut [u8]) -> Answer {
        Plain.repair(image)
    }

    fn audit(&self, image: &[u8]) -> Audit {
        Plain.audit(image)
    }
}
