/* Every call of include/zealfs.h on one image, and refusals taken apart. Exits 1 if something is not as it should be. */
#include <stdio.h>
#include <string.h>
#include "zealfs.h"

#define IMAGE image, sizeof image
#define PATH(text) (const uint8_t *)(text), sizeof(text) - 1

static int failed = 0;

static void expect(const char *what, uint64_t is, uint64_t should)
{
    printf("%-32s %llu", what, (unsigned long long)is);
    if (is != should) {
        printf("  and should be %llu", (unsigned long long)should);
        failed = 1;
    }
    printf("\n");
}

static uint8_t image[2048];

/* The image with one byte changed, and what the verdict says of it: a number, and the three parts of its place. */
struct damage {
    const char *what;
    size_t at;
    uint8_t byte;
    unsigned number, place[3];
};

/* The image holds /A on page 1, and in its entry 0 the file 0042 of 256 bytes on pages 2 and 3. */
static const struct damage damages[] = {
    {"name of 0042 with a slash", 256 + 1, '/', 16, {1, 0, 0}},
    {"entry 3 of /A without a name", 256 + 3 * 32, 0x80, 16, {1, 3, 0}},
    {"size of /A", 64 + 18, 1, 16, {0, 0, 0}},
    {"0042 without a start page", 256 + 17, 0, 17, {1, 0, 0}},
    {"chain ends after one page", 512, 0, 17, {1, 0, 1}},
    {"link after the second page", 768, 4, 17, {1, 0, 2}},
    {"0042 on the page of /A", 256 + 17, 1, 18, {1, 0, 0}},
    {"page 7 lost", 4, 0x8F, 19, {7, 0, 0}},
    {"page 3 marked free", 4, 0x07, 20, {3, 0, 0}},
    {"bit 0", 4, 0x0E, 3, {0, 0, 0}},
    {"free count", 3, 5, 3, {0, 0, 0}},
};

static void judge(const struct damage *damage)
{
    static const char *const parts[] = {"  a", "  b", "  c"};
    uint8_t kept = image[damage->at];
    uint64_t out[2] = {9, 9};

    image[damage->at] = damage->byte;
    uint64_t code = zealfs_verdict(IMAGE, out);
    image[damage->at] = kept;
    expect(damage->what, zealfs_number(code), damage->number);
    for (int i = 0; i < 3; i++)
        expect(parts[i], zealfs_place(code, i), damage->place[i]);
    expect("  out is zeros", out[0] + out[1], 0);
}

/* Repair clears the bit of a lost page, sets the header's and counts anew; what the walk finds fault with it refuses, and changes nothing. */
static void repair(void)
{
    uint8_t sound[sizeof image], damaged[sizeof image];

    memcpy(sound, image, sizeof image);
    expect("repair a sound image", zealfs_repair(IMAGE), 0);
    expect("  it stays", memcmp(image, sound, sizeof image) == 0, 1);
    image[3] = 9;
    image[4] = 0x8E;
    expect("repair page 7, bit 0, the count", zealfs_repair(IMAGE), 0);
    expect("  as it was", memcmp(image, sound, sizeof image) == 0, 1);
    image[4] = 0x87;
    memcpy(damaged, image, sizeof image);
    expect("repair page 3 marked free", zealfs_repair(IMAGE), 20 + 256 * 3);
    expect("  it stays", memcmp(image, damaged, sizeof image) == 0, 1);
    memcpy(image, sound, sizeof image);
}

/* The stores of a new file, one page each; before the last the old header is all that a repair needs. */
static void stores(void)
{
    const uint8_t made[8] = {0x20, 0x26, 0x11, 0x15, 0x07, 0x21, 0x05, 0x00};
    static const uint64_t of_stores[] = {4, 5, 0, 1};
    uint8_t before[sizeof image], content[300], page[256];
    uint64_t out[1] = {99};

    memcpy(before, image, sizeof image);
    memset(content, 0x5A, sizeof content);
    for (uint64_t i = 0; i < 4; i++) {
        expect("store of /A/new", zealfs_store(before, sizeof before, PATH("/A/new"), made, 8, content, 300, i, page, 256, out), 0);
        expect("  page", out[0], of_stores[i]);
        if (i < 3)
            memcpy(image + 256 * out[0], page, 256);
    }
    expect("store on the pulled cartridge", zealfs_store(IMAGE, PATH("/x"), made, 8, content, 0, 2, page, 256, out), 19 + 256 * 4);
    expect("repair the pulled cartridge", zealfs_repair(IMAGE), 0);
    expect("  the old header", memcmp(image, before, 256) == 0, 1);
    expect("past the last", zealfs_store(IMAGE, PATH("/x"), made, 8, content, 0, 2, page, 256, out), 12);
    expect("no page", zealfs_store(IMAGE, PATH("/x"), made, 8, content, 0, 2, page, 255, out), 29);
    memcpy(image, before, sizeof image);
}

/* The second judge names an owner for each page of a sound image, and of any other nobody. */
static void audit(void)
{
    static const uint64_t of_pages[] = {1, 64, 256, 256};
    uint64_t owners[256];
    uint8_t kept = image[3];

    expect("audit", zealfs_audit(IMAGE, owners), 1);
    for (size_t i = 0; i < 256; i++)
        if (i < 5 || owners[i] != 0)
            expect("  owner", owners[i], i < 4 ? of_pages[i] : 0);
    image[3] = 5;
    expect("audit, the free count wrong", zealfs_audit(IMAGE, owners), 0);
    image[3] = kept;
    expect("  the header is nobody's", owners[0], 0);
}

/* The listing, whole and from its 15th byte on, and that of an image that is not sound; the buffer stays behind what is copied. */
static void list_all(void)
{
    static const char whole[] = "pages 8 free 4\nD 256 /A\nF 256 /A/0042\n";
    uint8_t text[sizeof whole + 10], kept = image[3];

    memset(text, 0xEE, sizeof text);
    expect("listing", zealfs_listing(IMAGE, 0, text, sizeof text), sizeof whole - 1);
    expect("  the text", memcmp(text, whole, sizeof whole - 1) == 0, 1);
    expect("  the buffer behind it stays", text[sizeof whole - 1], 0xEE);
    expect("listing from 15, 8 bytes", zealfs_listing(IMAGE, 15, text, 8), 8);
    expect("  the text", memcmp(text, "D 256 /A", 8) == 0, 1);
    expect("listing past its end", zealfs_listing(IMAGE, sizeof whole, text, 8), 0);
    image[3] = 5;
    expect("listing, the free count wrong", zealfs_listing(IMAGE, 0, text, sizeof text), 10);
    image[3] = kept;
    expect("  refused 3", memcmp(text, "refused 3\n", 10) == 0, 1);
}

static void tidy(void)
{
    uint8_t places[8], target[2048], again[8];
    uint64_t out[2];

    memset(target, 0xEE, sizeof target);
    expect("propose", zealfs_propose(IMAGE, places, 8), 0);
    expect("  page 0 stays", places[0], 0);
    expect("propose, 7 numbers", zealfs_propose(IMAGE, places, 7), 27);
    expect("tidy, a short target", zealfs_tidy(IMAGE, places, 8, target, 2047), 28);
    expect("tidy, 7 numbers", zealfs_tidy(IMAGE, places, 7, target, 2048), 27);
    expect("  the target stays", target[0], 0xEE);
    expect("tidy", zealfs_tidy(IMAGE, places, 8, target, 2048), 0);
    expect("  the target is sound", zealfs_verdict(target, 2048, out), 0);
    expect("  free pages", out[1], image[3]);
    expect("propose for it", zealfs_propose(target, 2048, again, 8), 0);
    for (unsigned page = 0; page < 8; page++)
        expect("  each page is in its place", again[page], page);
}

/* The link list of /A: written, read, asked, checked, and what is refused of it; then it is gone again. */
static void links(void)
{
    const uint8_t made[8] = {0x20, 0x26, 0x11, 0x15, 0x07, 0x21, 0x05, 0x00};
    static const uint64_t rows[] = {2, 42, 7, 4, 42, 300}, falling[] = {4, 42, 1, 2, 42, 1}, wide[] = {1, 10, 1};
    static const uint8_t file[] = {2, 42, 7, 4, 42, 0xAC, 2};
    uint8_t before[sizeof image], back[10];
    uint64_t numbers[8], out[2] = {9, 9};

    memcpy(before, image, sizeof image);
    expect("links, none there", zealfs_links_read(IMAGE, PATH("/A"), numbers, 8, out), 5 + 256 * 3);
    expect("write links of two rows", zealfs_links_write(IMAGE, PATH("/A"), made, 8, rows, 6), 0);
    expect("  the file", zealfs_read(IMAGE, PATH("/A/LINKS"), 0, back, 10, out), 0);
    expect("  its bytes", out[0] == sizeof file && memcmp(back, file, sizeof file) == 0, 1);
    memset(numbers, 0xEE, sizeof numbers);
    expect("read them into a short list", zealfs_links_read(IMAGE, PATH("/A"), numbers, 5, out), ZEALFS_LIST_TOO_SHORT);
    expect("  the list stays", numbers[0], 0xEEEEEEEEEEEEEEEE);
    expect("read them", zealfs_links_read(IMAGE, PATH("/A"), numbers, 8, out), 0);
    expect("  rows", out[0], 2);
    expect("  as written", memcmp(numbers, rows, sizeof rows) == 0, 1);
    expect("  the list behind them stays", numbers[6], 0xEEEEEEEEEEEEEEEE);
    expect("find 0042", zealfs_links_find(IMAGE, PATH("/A"), 4, 42, out), 0);
    expect("  its figure", out[0] == 1 ? out[1] : 0, 300);
    expect("find 042", zealfs_links_find(IMAGE, PATH("/A"), 3, 42, out), 0);
    expect("  none", out[0] + out[1], 0);
    uint64_t code = zealfs_links_check(IMAGE, PATH("/A"));
    expect("check, 42 has no file", zealfs_number(code), ZEALFS_ROW_WITHOUT_FILE);
    expect("  row", zealfs_row_place(code), 0);
    expect("write the second row alone", zealfs_links_write(IMAGE, PATH("/A"), made, 8, rows + 3, 3), 0);
    expect("check", zealfs_links_check(IMAGE, PATH("/A")), 0);
    expect("rows that fall", zealfs_links_write(IMAGE, PATH("/A"), made, 8, falling, 6), 22 + 256 * 1);
    expect("ten for one digit", zealfs_links_write(IMAGE, PATH("/A"), made, 8, wide, 3), 21);
    expect("a group too many", zealfs_write(IMAGE, PATH("/A/LINKS"), 0, (const uint8_t[]){1, 7, 0x81, 0}, 4), 0);
    expect("  read", zealfs_links_read(IMAGE, PATH("/A"), numbers, 8, out), 21);
    expect("remove the list", zealfs_remove_file(IMAGE, PATH("/A/LINKS")), 0);
    expect("  free again", image[3], before[3]);
    memcpy(image, before, sizeof image);
}

int main(void)
{
    const uint8_t made[8] = {0x20, 0x26, 0x11, 0x15, 0x07, 0x21, 0x05, 0x00};
    uint8_t bytes[256], back[100], name[16] = {0}, date[8] = {0};
    uint64_t out[4] = {0};

    for (int i = 0; i < 256; i++)
        bytes[i] = (uint8_t)(7 * i);
    memset(back, 0xEE, sizeof back);
    expect("format", zealfs_format(IMAGE), 0);
    expect("make directory /A", zealfs_make_directory(IMAGE, PATH("/A"), made, 8), 0);
    expect("make file /A/0042", zealfs_make_file(IMAGE, PATH("/A/0042"), made, 8), 0);
    expect("write 256 bytes", zealfs_write(IMAGE, PATH("/A/0042"), 0, bytes, 256), 0);

    expect("find /A/0042", zealfs_find(IMAGE, PATH("/A/0042"), out, date), 0);
    expect("  kind, a file", out[0], 0);
    expect("  size", out[1], 256);
    expect("  not locked", out[2], 0);
    expect("  date as made", memcmp(date, made, 8) == 0, 1);
    expect("list entry 0 of /A", zealfs_list(IMAGE, PATH("/A"), 0, out, name, date), 0);
    expect("  occupied", out[0], 1);
    expect("  size", out[2], 256);
    expect("  not locked", out[3], 0);
    expect("  name 0042", memcmp(name, "0042\0\0\0\0\0\0\0\0\0\0\0\0", 16) == 0, 1);

    expect("read from 200 on", zealfs_read(IMAGE, PATH("/A/0042"), 200, back, sizeof back, out), 0);
    expect("  count", out[0], 56);
    expect("  the bytes written", memcmp(back, bytes + 200, 56) == 0, 1);
    expect("  the buffer behind them stays", back[56], 0xEE);

    uint64_t code = zealfs_find(IMAGE, PATH("/A/42"), out, date);
    expect("find /A/42, refused", code, 5 + 256 * 3);
    expect("  number", zealfs_number(code), ZEALFS_NO_SUCH_NAME);
    expect("  byte of the path", zealfs_place(code, 0), 3);
    expect("  out is zeros", out[0] + out[1] + out[2], 0);

    expect("lock /A/0042", zealfs_lock(IMAGE, PATH("/A/0042")), 0);
    expect("lock it again", zealfs_lock(IMAGE, PATH("/A/0042")), 0);
    expect("find /A/0042", zealfs_find(IMAGE, PATH("/A/0042"), out, date), 0);
    expect("  locked", out[2], 1);
    expect("list entry 0 of /A", zealfs_list(IMAGE, PATH("/A"), 0, out, name, date), 0);
    expect("  locked", out[3], 1);
    expect("read it", zealfs_read(IMAGE, PATH("/A/0042"), 0, back, sizeof back, out), 0);
    expect("write to it, refused", zealfs_write(IMAGE, PATH("/A/0042"), 0, bytes, 1), 25);
    expect("write no bytes past it, refused", zealfs_write(IMAGE, PATH("/A/0042"), 257, bytes, 0), 25);
    expect("remove it, refused", zealfs_remove_file(IMAGE, PATH("/A/0042")), 25);
    expect("lock /A, refused", zealfs_lock(IMAGE, PATH("/A")), 7);
    expect("unlock /A/0042", zealfs_unlock(IMAGE, PATH("/A/0042")), 0);

    expect("verdict", zealfs_verdict(IMAGE, out), 0);
    expect("  pages", out[0], 8);
    expect("  free", out[1], 4);
    for (size_t i = 0; i < sizeof damages / sizeof damages[0]; i++)
        judge(&damages[i]);
    repair();
    stores();
    audit();
    list_all();
    tidy();
    links();
    expect("remove file /A, refused", zealfs_remove_file(IMAGE, PATH("/A")), 7);
    expect("remove directory /A, refused", zealfs_remove_directory(IMAGE, PATH("/A")), 13);
    expect("remove directory 0042, refused", zealfs_remove_directory(IMAGE, PATH("/A/0042")), 6 + 256 * 3);
    expect("remove file /A/0042", zealfs_remove_file(IMAGE, PATH("/A/0042")), 0);
    expect("remove directory /A", zealfs_remove_directory(IMAGE, PATH("/A")), 0);
    expect("verdict", zealfs_verdict(IMAGE, out), 0);
    expect("  free", out[1], 7);
    return failed;
}
