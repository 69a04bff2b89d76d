// Made from words/numbers.txt by tools/words.py; edit it there.

/// Number, name, what is wrong, what to do.
pub type Words = (u8, &'static str, &'static str, &'static str);

/// All numbers, in order.
pub const WORDS: &[Words] = &[
    (
        1,
        "WrongLength",
        "the image is not as long as any cartridge: a multiple of 2,048 bytes, from 2,048 to 65,536, in version 2 to 1,048,576",
        "read the cartridge again, whole",
    ),
    (
        2,
        "WrongHeader",
        "its first bytes are not those of ZealFS, of this version and this length",
        "read the cartridge again, whole; if it stays so it is not formatted, or another system's: do not write to it",
    ),
    (
        3,
        "WrongCount",
        "the header's own mark (in version 2 also that of the table of links) or its count of free pages is wrong; all files and directories are in order",
        "nothing is lost, but no call reads the image until it is mended: repair it (zealfs repair), and it is as good as before; version 2 has no repair: make the cartridge anew from a backup",
    ),
    (
        4,
        "NotAPath",
        "the path is not written as a path: /, or names of 1 to 16 characters, each after a /",
        "correct the path",
    ),
    (
        5,
        "NoSuchName",
        "a name of the path is not there",
        "look at the listing",
    ),
    (
        6,
        "NotADirectory",
        "a file's name stands where a directory's is needed, also when a directory is to be removed",
        "look at the listing; a file is removed as a file",
    ),
    (
        7,
        "IsADirectory",
        "a directory cannot be read, written, locked or unlocked, nor removed as a file",
        "name a file in it; or remove it as a directory, if you mean to",
    ),
    (
        8,
        "NameExists",
        "the name is there already",
        "choose another, or remove the old one",
    ),
    (
        9,
        "DirectoryFull",
        "the directory has no empty entry: in version 1 the root has 6, any other 8",
        "remove something from it, or take another directory",
    ),
    (
        10,
        "NoFreePages",
        "not enough free pages",
        "remove something, or take another cartridge",
    ),
    (
        11,
        "BadDate",
        "the date or the time does not exist, or is not 8 bytes of two decimal digits each",
        "correct it",
    ),
    (
        12,
        "PastTheEnd",
        "the position is past the end of the file, the entry past the directory's last, or the store past the last one",
        "begin at the end at most; of stores: all are done",
    ),
    (
        13,
        "NotEmpty",
        "the directory to be removed holds something",
        "empty it first",
    ),
    (
        14,
        "IsTheRoot",
        "the root cannot be removed, neither as a file nor as a directory",
        "name what is to be removed",
    ),
    (
        16,
        "BadEntry",
        "damaged: a name is not legal or stands twice in a directory, or a directory's size is wrong",
        "keep a copy of the image; then format the cartridge and make its directories and files anew from a backup",
    ),
    (
        17,
        "BadChain",
        "damaged: a file or directory leads out of the cartridge, into its header or into its table of links, or a file has fewer or more pages than its size wants",
        "keep a copy of the image; then format the cartridge and make its directories and files anew from a backup; what it holds cannot be trusted",
    ),
    (
        18,
        "OwnedTwice",
        "damaged: two files or directories share a page, or one returns to a page of its own",
        "keep a copy of the image; then format the cartridge and make its directories and files anew from a backup; neither of the two can be trusted",
    ),
    (
        19,
        "LostPage",
        "a page is marked as taken and nobody owns it, as when a cartridge is pulled too early; all files and directories are in order",
        "nothing is lost, but no call reads the image until it is mended: repair it (zealfs repair), and it is as good as before; version 2 has no repair: make the cartridge anew from a backup; a repair wins the page back",
    ),
    (
        20,
        "MarkedFree",
        "damaged: a page of a file or directory is marked as free",
        "keep a copy of the image; then format the cartridge and make its directories and files anew from a backup; a write since then may have gone over that page",
    ),
    (
        21,
        "BrokenRow",
        "a row of the link list is broken: its numbers are not written as they must be, or one is out of range",
        "write the list anew from the accession book; in a table that is to be written, correct that row",
    ),
    (
        22,
        "RowNotAbove",
        "a row of the link list is not above the one before it: it is out of order, or stands twice",
        "sort the rows by the number of digits and then by value, each accession once",
    ),
    (
        23,
        "RowWithoutFile",
        "a row of the link list names an accession that has no file in its directory",
        "make the file, or take the row out of the list",
    ),
    (
        24,
        "ListTooShort",
        "the list lent for the rows is too short",
        "lend a longer one",
    ),
    (
        25,
        "Locked",
        "the file is locked: it is neither written nor removed",
        "leave it as it is; if it is to be altered after all, let whoever answers for it unlock it first",
    ),
    (
        26,
        "WrongShape",
        "the page size does not go with the cartridge's length: pages of 256 bytes go up to 65,536, of 512 up to 262,144, of 1,024 up to 1,048,576, a multiple of 8 of them; or the header gives a wrong length of its bitmap",
        "read the cartridge again, whole; if it stays so, keep a copy of the image and make the cartridge anew from a backup; in formatting, choose another page size or length",
    ),
    (
        27,
        "BadProposal",
        "the proposed places are not one for every page, or part the pages of a file",
        "take the proposal that the library makes",
    ),
    (
        28,
        "WrongTarget",
        "the buffer for the tidied image is not as long as the image",
        "lend one of the same length",
    ),
    (
        29,
        "WrongPageBuffer",
        "the buffer for a page is not 256 bytes long",
        "lend one of 256 bytes",
    ),
];
