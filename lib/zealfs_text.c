/* Made from words/numbers.txt by tools/words.py; edit it there. Words alone: no image byte is looked at here. */
#include "zealfs.h"

const char *zealfs_text(unsigned number)
{
    switch (number) {
    case 0: return "done";
    case 1: return "the image is not as long as any cartridge: a multiple of 2,048 bytes, from 2,048 to 65,536, in version 2 to 1,048,576";
    case 2: return "its first bytes are not those of ZealFS, of this version and this length";
    case 3: return "the header's own mark (in version 2 also that of the table of links) or its count of free pages is wrong; all files and directories are in order";
    case 4: return "the path is not written as a path: /, or names of 1 to 16 characters, each after a /";
    case 5: return "a name of the path is not there";
    case 6: return "a file's name stands where a directory's is needed, also when a directory is to be removed";
    case 7: return "a directory cannot be read, written, locked or unlocked, nor removed as a file";
    case 8: return "the name is there already";
    case 9: return "the directory has no empty entry: in version 1 the root has 6, any other 8";
    case 10: return "not enough free pages";
    case 11: return "the date or the time does not exist, or is not 8 bytes of two decimal digits each";
    case 12: return "the position is past the end of the file, the entry past the directory's last, or the store past the last one";
    case 13: return "the directory to be removed holds something";
    case 14: return "the root cannot be removed, neither as a file nor as a directory";
    case 16: return "damaged: a name is not legal or stands twice in a directory, or a directory's size is wrong";
    case 17: return "damaged: a file or directory leads out of the cartridge, into its header or into its table of links, or a file has fewer or more pages than its size wants";
    case 18: return "damaged: two files or directories share a page, or one returns to a page of its own";
    case 19: return "a page is marked as taken and nobody owns it, as when a cartridge is pulled too early; all files and directories are in order";
    case 20: return "damaged: a page of a file or directory is marked as free";
    case 21: return "a row of the link list is broken: its numbers are not written as they must be, or one is out of range";
    case 22: return "a row of the link list is not above the one before it: it is out of order, or stands twice";
    case 23: return "a row of the link list names an accession that has no file in its directory";
    case 24: return "the list lent for the rows is too short";
    case 25: return "the file is locked: it is neither written nor removed";
    case 26: return "the page size does not go with the cartridge's length: pages of 256 bytes go up to 65,536, of 512 up to 262,144, of 1,024 up to 1,048,576, a multiple of 8 of them; or the header gives a wrong length of its bitmap";
    case 27: return "the proposed places are not one for every page, or part the pages of a file";
    case 28: return "the buffer for the tidied image is not as long as the image";
    case 29: return "the buffer for a page is not 256 bytes long";
    default: return "";
    }
}

const char *zealfs_advice(unsigned number)
{
    switch (number) {
    case 0: return "";
    case 1: return "read the cartridge again, whole";
    case 2: return "read the cartridge again, whole; if it stays so it is not formatted, or another system's: do not write to it";
    case 3: return "nothing is lost, but no call reads the image until it is mended: repair it (zealfs repair), and it is as good as before; version 2 has no repair: make the cartridge anew from a backup";
    case 4: return "correct the path";
    case 5: return "look at the listing";
    case 6: return "look at the listing; a file is removed as a file";
    case 7: return "name a file in it; or remove it as a directory, if you mean to";
    case 8: return "choose another, or remove the old one";
    case 9: return "remove something from it, or take another directory";
    case 10: return "remove something, or take another cartridge";
    case 11: return "correct it";
    case 12: return "begin at the end at most; of stores: all are done";
    case 13: return "empty it first";
    case 14: return "name what is to be removed";
    case 16: return "keep a copy of the image; then format the cartridge and make its directories and files anew from a backup";
    case 17: return "keep a copy of the image; then format the cartridge and make its directories and files anew from a backup; what it holds cannot be trusted";
    case 18: return "keep a copy of the image; then format the cartridge and make its directories and files anew from a backup; neither of the two can be trusted";
    case 19: return "nothing is lost, but no call reads the image until it is mended: repair it (zealfs repair), and it is as good as before; version 2 has no repair: make the cartridge anew from a backup; a repair wins the page back";
    case 20: return "keep a copy of the image; then format the cartridge and make its directories and files anew from a backup; a write since then may have gone over that page";
    case 21: return "write the list anew from the accession book; in a table that is to be written, correct that row";
    case 22: return "sort the rows by the number of digits and then by value, each accession once";
    case 23: return "make the file, or take the row out of the list";
    case 24: return "lend a longer one";
    case 25: return "leave it as it is; if it is to be altered after all, let whoever answers for it unlock it first";
    case 26: return "read the cartridge again, whole; if it stays so, keep a copy of the image and make the cartridge anew from a backup; in formatting, choose another page size or length";
    case 27: return "take the proposal that the library makes";
    case 28: return "lend one of the same length";
    case 29: return "lend one of 256 bytes";
    default: return "";
    }
}
