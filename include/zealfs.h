/*
 * ZealFS over an image in memory. The functions zealfs_.. are version 1's, in libzealfs_c.a (crates/zealfs_c, built by `tools/build zealfs_c`), and
 * zealfs2_.. version 2's, in libzealfs2_c.a (crates/zealfs2_c); libzealfs.a and libzealfs.so hold both, with zealfs_text and zealfs_advice beside
 * them (`make`). An image of version 1 begins with the bytes 5A 01, one of version 2 with 5A 02; the other version's functions refuse it.
 *
 * Whatever the bytes, each function answers, and always returns. The result is 0 when the call is granted, else the code of a refusal
 * (zealfs_audit and zealfs_listing return something else):
 *
 *     number + 256 * (a + 65536 * (b + 65536 * c))
 *
 * a, b, c being its place, 0 where nothing is said of them. (The link list's 21, 22 and 23 have one number for a place: see there.)
 *
 * The numbers stand in the enum below, each with what it says and what its place is. An image that is given neither ZEALFS_WRONG_LENGTH nor
 * ZEALFS_WRONG_HEADER (in version 2 nor ZEALFS_WRONG_SHAPE) is judged from its root on, and its first fault is told. Entries go in order, what a
 * directory holds before the entry after it; of one entry 16 comes first, then its pages one after the other. 19 comes after all entries, and 3 last.
 * There is no number 15.
 *
 * A refused call sets its out arrays to zeros and changes no other byte.
 *
 * What the caller sees to: a pointer is not null and points to as many initialized elements as the length after it or the array's bound
 * says, and what a function may write overlaps nothing else that it is handed. A path has a length and no final 0.
 */
#ifndef ZEALFS_H
#define ZEALFS_H

#include <stddef.h>
#include <stdint.h>

/* The compiled functions take lengths of 64 bits. */
#ifdef __cplusplus
static_assert(sizeof(size_t) == 8, "zealfs wants a size_t of 8 bytes");
#else
_Static_assert(sizeof(size_t) == 8, "zealfs wants a size_t of 8 bytes");
#endif

#ifdef __cplusplus
extern "C" {
#endif

/* Made from words/numbers.txt by tools/words.py; edit it there. */
enum zealfs_numbers {
    ZEALFS_GRANTED = 0,
    ZEALFS_WRONG_LENGTH = 1,
        /* the image's length is not one of the allowed */
    ZEALFS_WRONG_HEADER = 2,
        /* byte 0, 1 or 2 of the image is wrong; of version 2 byte 0 or 1 */
    ZEALFS_WRONG_COUNT = 3,
        /* bit 0 of the bitmap, in version 2 also that of a page of the table of links, or the count of free pages is wrong, and nothing else
           */
    ZEALFS_NOT_A_PATH = 4,
        /* the path is no path */
    ZEALFS_NO_SUCH_NAME = 5,
        /* a name of the path isn't in its directory: a is the byte of the path at which it begins; for a link list, of the path
           DIRECTORY/LINKS */
    ZEALFS_NOT_A_DIRECTORY = 6,
        /* a file stands where a directory is needed: a is the byte of the path at which its name begins */
    ZEALFS_IS_A_DIRECTORY = 7,
        /* read, write, remove file, lock or unlock: the path is a directory; link list: its LINKS is one */
    ZEALFS_NAME_EXISTS = 8,
        /* make, store: the name is there already, or the path is "/" */
    ZEALFS_DIRECTORY_FULL = 9,
        /* make, store, links_write: no empty entry; version 2 never gives it */
    ZEALFS_NO_FREE_PAGES = 10,
        /* make, write, store, links_write: more pages wanted than are free, in version 2 that by which a directory grows among them */
    ZEALFS_BAD_DATE = 11,
        /* make, store, links_write: the date is not good */
    ZEALFS_PAST_THE_END = 12,
        /* position past the size, entry past the directory's last (zealfs2_entries: more than one past it), or store past the last */
    ZEALFS_NOT_EMPTY = 13,
        /* remove directory: it holds something */
    ZEALFS_IS_THE_ROOT = 14,
        /* removals: the path is "/" */
    ZEALFS_BAD_ENTRY = 16,
        /* an entry's name is not legal or that of an earlier entry, or a directory's size is not that of a page: a is the page on which the
           entry stands, 0 for the header, and b the entry's number there, from 0 */
    ZEALFS_BAD_CHAIN = 17,
        /* a page of an entry is not one of 1 to N-1 (in version 2 one behind the table of links), or its chain does not end where the size
           says: a and b as for 16, and c is how many of its pages before that were good; for the root's own chain in version 2 a is 0, b 255,
           and c counts the pages after page 0 */
    ZEALFS_OWNED_TWICE = 18,
        /* a page belongs to two owners, or twice to one: a is the page */
    ZEALFS_LOST_PAGE = 19,
        /* a page is marked as taken and belongs to nobody: a is the lowest such page */
    ZEALFS_MARKED_FREE = 20,
        /* a page belongs to a file or directory and is marked as free: a is the page */
    ZEALFS_BROKEN_ROW = 21,
        /* link list: a row is no row, or one to be written has a number out of range: the place is where it begins in the file, or the row's
           number */
    ZEALFS_ROW_NOT_ABOVE = 22,
        /* link list: a row is not above the one before it: the place is the row, from 0 */
    ZEALFS_ROW_WITHOUT_FILE = 23,
        /* links_check: a row names no file of the directory: the place is the first such row, from 0 */
    ZEALFS_LIST_TOO_SHORT = 24,
        /* links_read: the lent list is too short for the rows */
    ZEALFS_LOCKED = 25,
        /* write, remove file or links_write: the file is locked */
    ZEALFS_WRONG_SHAPE = 26,
        /* version 2: the page code is above 2 or too small for the image, the length is no multiple of 8 pages, or the bitmap's bytes are not
           N/8; format judges the code that it is handed */
    ZEALFS_BAD_PROPOSAL = 27,
        /* tidy: the proposal is not accepted, or has not N numbers; propose: the row has not N numbers */
    ZEALFS_WRONG_TARGET = 28,
        /* tidy: the second buffer is not as long as the image */
    ZEALFS_WRONG_PAGE_BUFFER = 29,
        /* store: the page's buffer has not 256 bytes */
};
/* end of numbers */

/* Writes page 0; every other byte stays. It judges only the image's length. */
uint64_t zealfs_format(uint8_t *image, size_t image_len);

/* out: pages, free pages. */
uint64_t zealfs_verdict(const uint8_t *image, size_t image_len, uint64_t out[2]);

/* out: kind (0 file, 1 directory), size, locked (0 or 1; 0 for a directory). The root's date is zeros. */
uint64_t zealfs_find(const uint8_t *image, size_t image_len, const uint8_t *path, size_t path_len, uint64_t out[3], uint8_t date[8]);

/* out: occupied (0 or 1), kind, size, locked. The name is padded with zeros; for an empty entry all is 0. Entries count from 0. */
uint64_t zealfs_list(const uint8_t *image, size_t image_len, const uint8_t *path, size_t path_len, uint64_t entry, uint64_t out[4],
                     uint8_t name[16], uint8_t date[8]);

/* out: the number of bytes copied to the front of the buffer, which stays behind them. */
uint64_t zealfs_read(const uint8_t *image, size_t image_len, const uint8_t *path, size_t path_len, uint64_t position, uint8_t *buffer,
                     size_t buffer_len, uint64_t out[1]);

/*
 * A date has 8 bytes of two BCD digits: century, year, month, day, weekday, hour, minute, second. It is a day of the Gregorian calendar
 * (0000 is a leap year) and a time from 00:00:00 to 23:59:59; the weekday is any two digits.
 */
uint64_t zealfs_make_file(uint8_t *image, size_t image_len, const uint8_t *path, size_t path_len, const uint8_t *date, size_t date_len);
uint64_t zealfs_make_directory(uint8_t *image, size_t image_len, const uint8_t *path, size_t path_len, const uint8_t *date, size_t date_len);

/* Replaces bytes from a position on that is at most the size, and lengthens the file where they reach past its end. */
uint64_t zealfs_write(uint8_t *image, size_t image_len, const uint8_t *path, size_t path_len, uint64_t position, const uint8_t *bytes,
                      size_t bytes_len);

/* Each removes only its kind; a directory has to be empty. */
uint64_t zealfs_remove_file(uint8_t *image, size_t image_len, const uint8_t *path, size_t path_len);
uint64_t zealfs_remove_directory(uint8_t *image, size_t image_len, const uint8_t *path, size_t path_len);

/* A locked file is read as before, and neither written nor removed. To lock or unlock twice is to do it once. */
uint64_t zealfs_lock(uint8_t *image, size_t image_len, const uint8_t *path, size_t path_len);
uint64_t zealfs_unlock(uint8_t *image, size_t image_len, const uint8_t *path, size_t path_len);

/*
 * A new file with its content by whole pages, which a board stores one after the other, so that a cartridge may be pulled amid them: as long as not all
 * are stored, zealfs_repair yields exactly what the cartridge held, and after the last it is as zealfs_make_file and then zealfs_write of all the
 * bytes leave it. Stores count from 0: the pages of the file along its chain, then the header, then the page of the file's directory unless that is
 * the header. out: the number of the page; its 256 bytes are put into page. The image is not changed, and for each store it is the one before the
 * first. 29 is given before all others, 10 counts the pages of the whole file, and 12, after 10, says that the number is past the last store.
 */
uint64_t zealfs_store(const uint8_t *image, size_t image_len, const uint8_t *path, size_t path_len, const uint8_t *date, size_t date_len,
                      const uint8_t *bytes, size_t bytes_len, uint64_t number, uint8_t *page, size_t page_len, uint64_t out[1]);

/*
 * Wins back lost pages, as when a cartridge was pulled too early: of an image that is sound, or given 19 or 3, it marks exactly the header and
 * the pages that files and directories have, and counts the free ones anew. The image is then sound and holds what it held; no byte changes but 3
 * and the N/8 of the bitmap. Any other image is refused as the verdict refuses it: 1, 2, 16, 17, 18 or 20.
 */
uint64_t zealfs_repair(uint8_t *image, size_t image_len);

/*
 * A second judge, which shares no walk with the verdict's. It returns 1 for an image that is sound, as the verdict has it, and 0 for any other: no
 * refusal, and no code. owners: for each page 0 if nobody owns it, 1 for the header, else where in the image the entry of the file or directory
 * begins that owns it (64 or more); nobody owns a page past N. All are 0 when it returns 0.
 */
uint64_t zealfs_audit(const uint8_t *image, size_t image_len, uint64_t owners[256]);

/*
 * Tidy pages: the board reads neighbouring pages faster. A proposal has one byte for each of the N pages of the image: places[p] is the new place of
 * page p. It is accepted exactly if each number 0 to N-1 occurs once, page 0 stays, and the pages of each file, in the order of its chain, get rising
 * neighbouring numbers. Neither function changes the image. The verdict's refusals come first, then 28, then 27.
 *
 * zealfs_propose writes a proposal that is accepted, on any sound image, to a row of N bytes. zealfs_tidy writes the image to the target with its pages
 * at their new places: links, the bitmap and the start pages of occupied entries follow, every other byte is carried along with its page. The target is
 * then a sound image with the same contents. A refused call leaves row and target as they were.
 */
uint64_t zealfs_propose(const uint8_t *image, size_t image_len, uint8_t *places, size_t places_len);
uint64_t zealfs_tidy(const uint8_t *image, size_t image_len, const uint8_t *places, size_t places_len, uint8_t *target, size_t target_len);

/*
 * The link list of a directory, which is its file LINKS: rows that rise by accession. A row is three numbers: how many digits the accession has (1 to
 * 16), those digits as a whole number, and a figure's number below 2^32. They are lent one after the other, three to a row: numbers_len counts
 * numbers, and one or two left over are not looked at. The directory's path names the list, "/" that of the root; the place of 5 and 6 is a byte of
 * DIRECTORY/LINKS. The place of 21, 22 and 23 is one number, code / 256, and 2^56 - 1 stands for any that is larger: in a file that is read the byte at
 * which the row of 21 begins, and else a row's number, from 0. All but zealfs_links_write judge the whole file first: 21, or 22, of the first bad row.
 *
 * In the file a number is written in groups of seven bits, the lowest first, the top bit set when more follow, and in as few groups as it needs.
 *
 * These functions have room for the file, and in writing for a copy of the image, on the stack: 190,000 bytes of stack are enough for any image (README.md has a
 * table).
 */

/* out: how many rows there are; they are put to the front of the numbers, which stay behind them. 24 if the numbers have no room for all. */
uint64_t zealfs_links_read(const uint8_t *image, size_t image_len, const uint8_t *directory, size_t directory_len, uint64_t *numbers,
                           size_t numbers_len, uint64_t out[1]);

/*
 * Removes any old LINKS and makes it anew with the date and these rows, all of it or nothing. A directory of that name gives 7 and a locked file 25;
 * then come 21, a row with a number out of range, and 22, and then 9 and 10, which are judged with the old file removed.
 */
uint64_t zealfs_links_write(uint8_t *image, size_t image_len, const uint8_t *directory, size_t directory_len, const uint8_t *date, size_t date_len,
                            const uint64_t *numbers, size_t numbers_len);

/* out: 1 if a row has the accession of so many digits and this value, else 0; its figure. */
uint64_t zealfs_links_find(const uint8_t *image, size_t image_len, const uint8_t *directory, size_t directory_len, uint64_t count, uint64_t value,
                           uint64_t out[2]);

/* Whether every row names a file of the directory by its exact digits; 23 tells the first that does not. */
uint64_t zealfs_links_check(const uint8_t *image, size_t image_len, const uint8_t *directory, size_t directory_len);

/*
 * The listing as text, a window at a time: the bytes of it from byte `from` on, as many as there are and as the buffer has room for. It returns how
 * many; fewer than the room has are the last. An image that is not sound has a listing too, `refused` and the number, so this is never refused.
 */
uint64_t zealfs_listing(const uint8_t *image, size_t image_len, uint64_t from, uint8_t *text, size_t text_len);

/*
 * Version 2: images of up to 1,048,576 bytes with pages of 256, 512 or 1,024 bytes and links in a table behind the header. These functions are as those
 * of version 1 with the same names but for what is said here; the others there are version 1's alone. A directory, the root too, grows by a page when
 * it has no empty entry and never shrinks, so that 9 is never given; its size is the page size, and an entry's place is its own page and number there.
 */

/*
 * Page codes 0, 1 and 2 stand for pages of 256, 512 and 1,024 bytes: 0 is for images of up to 65,536 bytes, 1 for up to 262,144, 2 for all, and the
 * length is a multiple of 8 pages; else 26. Page 0 and the table of links are written, every other byte stays. It judges only length and code.
 */
uint64_t zealfs2_format(uint8_t *image, size_t image_len, uint64_t code);

/* out: pages, free pages. The page size is image_len / pages. */
uint64_t zealfs2_verdict(const uint8_t *image, size_t image_len, uint64_t out[2]);

uint64_t zealfs2_find(const uint8_t *image, size_t image_len, const uint8_t *path, size_t path_len, uint64_t out[3], uint8_t date[8]);

/* Entries count from 0 through all pages of the directory. */
uint64_t zealfs2_list(const uint8_t *image, size_t image_len, const uint8_t *path, size_t path_len, uint64_t entry, uint64_t out[4],
                      uint8_t name[16], uint8_t date[8]);

/*
 * Many entries of a directory, for which the image is judged once: those from number `first` on, 32 bytes each, as many as there are and as the rows have
 * room for. out: how many they are, and how many entries the directory has in all. What lies behind them in the rows stays.
 *
 * An entry's 32 bytes: 0 occupied (0 or 1), 1 kind, 2 locked, 3 zero, 4 to 7 size, low byte first, 8 to 15 date, 16 to 31 name, padded with zeros; an
 * empty entry is zeros. 12 if `first` is more than the directory has; as many as it has tells none.
 */
uint64_t zealfs2_entries(const uint8_t *image, size_t image_len, const uint8_t *path, size_t path_len, uint64_t first, uint8_t *rows,
                         size_t rows_len, uint64_t out[2]);

uint64_t zealfs2_read(const uint8_t *image, size_t image_len, const uint8_t *path, size_t path_len, uint64_t position, uint8_t *buffer,
                      size_t buffer_len, uint64_t out[1]);

/* 10 counts the page by which the directory grows, too. */
uint64_t zealfs2_make_file(uint8_t *image, size_t image_len, const uint8_t *path, size_t path_len, const uint8_t *date, size_t date_len);
uint64_t zealfs2_make_directory(uint8_t *image, size_t image_len, const uint8_t *path, size_t path_len, const uint8_t *date, size_t date_len);

uint64_t zealfs2_write(uint8_t *image, size_t image_len, const uint8_t *path, size_t path_len, uint64_t position, const uint8_t *bytes,
                       size_t bytes_len);

uint64_t zealfs2_remove_file(uint8_t *image, size_t image_len, const uint8_t *path, size_t path_len);
uint64_t zealfs2_remove_directory(uint8_t *image, size_t image_len, const uint8_t *path, size_t path_len);

uint64_t zealfs2_lock(uint8_t *image, size_t image_len, const uint8_t *path, size_t path_len);
uint64_t zealfs2_unlock(uint8_t *image, size_t image_len, const uint8_t *path, size_t path_len);

/*
 * The words of a number: what is wrong, and what to do about it. In libzealfs.a and libzealfs.so; plain C beside the proved functions, for they
 * look at no image. "done" and "" for 0, and "" for what is no number.
 */
const char *zealfs_text(unsigned number);
const char *zealfs_advice(unsigned number);

/* The parts of a code: the number, 0 when the call was granted, and number i of the place, i being 0, 1 or 2. */
static inline unsigned zealfs_number(uint64_t code) { return (unsigned)(code & 0xff); }
static inline unsigned zealfs_place(uint64_t code, int i) { return (unsigned)(code >> (8 + 16 * i) & 0xffff); }

/* The place of a row of a link list: of 21, 22 and 23. */
static inline uint64_t zealfs_row_place(uint64_t code) { return code >> 8; }

#ifdef __cplusplus
}
#endif

#endif
