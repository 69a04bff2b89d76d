//! Why a call was refused.

use crate::words::WORDS;
use core::fmt;

/// What a call answers: what it tells, or why it was refused.
pub type Answer<T> = Result<T, Refusal>;

/// Why a call was refused, with the place where the paper gives one. Image and buffer then hold what they held before.
///
/// A `directory` is the page of the directory on which the entry stands, 0 for the root's first; an `entry` counts from 0 on it, and 255 stands in
/// version 2 for the root itself; a `byte` is that of the path at which the name begins; a `row` of a link list counts from 0, and a broken one is
/// `at` the byte of the file where it begins, or in writing at that row.
///
/// ```
/// let image = [0; 100];
/// let refusal = zealfs::verdict(&image).unwrap_err();
/// assert_eq!(refusal, zealfs::Refusal::WrongLength);
/// assert_eq!(refusal.number(), 1);
/// assert_eq!(refusal.advice(), "read the cartridge again, whole");
/// ```
#[derive(Clone, Copy, Debug, PartialEq, Eq, Hash)]
#[non_exhaustive]
#[allow(missing_docs)] // the words of each number, and what its place is, stand in words/numbers.txt
#[rustfmt::skip] // one case a line
pub enum Refusal {
    WrongLength,
    WrongHeader,
    WrongCount,
    NotAPath,
    NoSuchName { byte: u16 },
    NotADirectory { byte: u16 },
    IsADirectory,
    NameExists,
    DirectoryFull,
    NoFreePages,
    BadDate,
    PastTheEnd,
    NotEmpty,
    IsTheRoot,
    BadEntry { directory: u16, entry: u16 },
    BadChain { directory: u16, entry: u16, passed: u16 },
    OwnedTwice { page: u16 },
    LostPage { page: u16 },
    MarkedFree { page: u16 },
    #[cfg(feature = "links")]
    BrokenRow { at: u64 },
    #[cfg(feature = "links")]
    RowNotAbove { row: u64 },
    #[cfg(feature = "links")]
    RowWithoutFile { row: u64 },
    #[cfg(feature = "links")]
    ListTooShort,
    Locked,
    WrongShape,
    #[cfg(feature = "tidy")]
    BadProposal,
    #[cfg(feature = "tidy")]
    WrongTarget,
    #[cfg(feature = "store")]
    WrongPageBuffer,
    /// A number that this crate does not know: the library is newer than the crate.
    Unknown { code: u64 },
}

/// 0 is granted; any other code is that of a refusal.
pub(crate) fn granted(code: u64) -> Answer<()> {
    match code {
        0 => Ok(()),
        _ => Err(Refusal::of(code)),
    }
}

impl Refusal {
    fn of(code: u64) -> Self {
        let [a, b, c] = [8, 24, 40].map(|shift| (code >> shift) as u16);
        match code & 0xFF {
            1 => Self::WrongLength,
            2 => Self::WrongHeader,
            3 => Self::WrongCount,
            4 => Self::NotAPath,
            5 => Self::NoSuchName { byte: a },
            6 => Self::NotADirectory { byte: a },
            7 => Self::IsADirectory,
            8 => Self::NameExists,
            9 => Self::DirectoryFull,
            10 => Self::NoFreePages,
            11 => Self::BadDate,
            12 => Self::PastTheEnd,
            13 => Self::NotEmpty,
            14 => Self::IsTheRoot,
            16 => Self::BadEntry { directory: a, entry: b },
            17 => Self::BadChain { directory: a, entry: b, passed: c },
            18 => Self::OwnedTwice { page: a },
            19 => Self::LostPage { page: a },
            20 => Self::MarkedFree { page: a },
            #[cfg(feature = "links")]
            21 => Self::BrokenRow { at: code >> 8 },
            #[cfg(feature = "links")]
            22 => Self::RowNotAbove { row: code >> 8 },
            #[cfg(feature = "links")]
            23 => Self::RowWithoutFile { row: code >> 8 },
            #[cfg(feature = "links")]
            24 => Self::ListTooShort,
            25 => Self::Locked,
            26 => Self::WrongShape,
            #[cfg(feature = "tidy")]
            27 => Self::BadProposal,
            #[cfg(feature = "tidy")]
            28 => Self::WrongTarget,
            #[cfg(feature = "store")]
            29 => Self::WrongPageBuffer,
            _ => Self::Unknown { code },
        }
    }

    /// The paper's number.
    pub fn number(self) -> u8 {
        match self {
            Self::WrongLength => 1,
            Self::WrongHeader => 2,
            Self::WrongCount => 3,
            Self::NotAPath => 4,
            Self::NoSuchName { .. } => 5,
            Self::NotADirectory { .. } => 6,
            Self::IsADirectory => 7,
            Self::NameExists => 8,
            Self::DirectoryFull => 9,
            Self::NoFreePages => 10,
            Self::BadDate => 11,
            Self::PastTheEnd => 12,
            Self::NotEmpty => 13,
            Self::IsTheRoot => 14,
            Self::BadEntry { .. } => 16,
            Self::BadChain { .. } => 17,
            Self::OwnedTwice { .. } => 18,
            Self::LostPage { .. } => 19,
            Self::MarkedFree { .. } => 20,
            #[cfg(feature = "links")]
            Self::BrokenRow { .. } => 21,
            #[cfg(feature = "links")]
            Self::RowNotAbove { .. } => 22,
            #[cfg(feature = "links")]
            Self::RowWithoutFile { .. } => 23,
            #[cfg(feature = "links")]
            Self::ListTooShort => 24,
            Self::Locked => 25,
            Self::WrongShape => 26,
            #[cfg(feature = "tidy")]
            Self::BadProposal => 27,
            #[cfg(feature = "tidy")]
            Self::WrongTarget => 28,
            #[cfg(feature = "store")]
            Self::WrongPageBuffer => 29,
            Self::Unknown { code } => code as u8,
        }
    }

    /// Whether the image is at fault (1 to 3, 16 to 20 and 26), and not what was asked of it.
    pub fn is_of_the_image(self) -> bool {
        matches!(self.number(), 1..=3 | 16..=20 | 26)
    }

    /// What is wrong, in words.
    pub fn text(self) -> &'static str {
        text(self.number())
    }

    /// What to do about it, in words.
    pub fn advice(self) -> &'static str {
        advice(self.number())
    }
}

/// What is wrong, by the number; nothing for what is no number. As `zealfs_text` of C.
pub fn text(number: u8) -> &'static str {
    WORDS.iter().find(|words| words.0 == number).map_or("", |words| words.2)
}

/// What to do about it, by the number; nothing for what is no number. As `zealfs_advice` of C.
pub fn advice(number: u8) -> &'static str {
    WORDS.iter().find(|words| words.0 == number).map_or("", |words| words.3)
}

impl fmt::Display for Refusal {
    fn fmt(&self, out: &mut fmt::Formatter<'_>) -> fmt::Result {
        write!(out, "refused {}: {}", self.number(), self.text())
    }
}

impl core::error::Error for Refusal {}
