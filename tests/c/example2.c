/* Every call of version 2 (zealfs2_.. of include/zealfs.h) on one image, and refusals taken apart. Exits 1 if something is not as it should be. */
#include <stdio.h>
#include <string.h>
#include "zealfs.h"

#define IMAGE image, sizeof image
#define PATH(text) (const uint8_t *)(text), sizeof(text) - 1

static int failed = 0;

static void expect(const char *what, uint64_t is, uint64_t should)
{
    printf("%-32s %llu", what, (unsigned long long)is);
    if (is != should) {
        printf("  and should be %llu", (unsigned long long)should);
        failed = 1;
    }
    printf("\n");
}

static uint8_t image[131072];
static const uint8_t made[8] = {0x20, 0x26, 0x11, 0x15, 0x07, 0x21, 0x05, 0x00};

static void format(void)
{
    uint64_t out[2] = {9, 9};

    memset(image, 0xEE, sizeof image);
    expect("format, pages of 256", zealfs2_format(IMAGE, 0), ZEALFS_WRONG_SHAPE);
    expect("format, page code 3", zealfs2_format(IMAGE, 3), ZEALFS_WRONG_SHAPE);
    expect("format, a byte less", zealfs2_format(image, sizeof image - 1, 1), ZEALFS_WRONG_LENGTH);
    expect("  it stays", image[0], 0xEE);
    expect("format, pages of 512", zealfs2_format(IMAGE, 1), 0);
    expect("  behind the table it stays", image[3 * 512], 0xEE);
    expect("verdict", zealfs2_verdict(IMAGE, out), 0);
    expect("  pages", out[0], 256);
    expect("  free: header, two of links", out[1], 253);
}

/* Twenty files: more than the root's first page holds, which are 14, so that the root grows by a page. */
static void grow(void)
{
    char path[] = "/00";
    uint64_t out[4], told[2];
    uint8_t name[16], date[8], rows[7 * 32 + 5];

    for (int i = 0; i < 20; i++) {
        path[1] = (char)('0' + i / 10);
        path[2] = (char)('0' + i % 10);
        expect("make a file", zealfs2_make_file(IMAGE, (const uint8_t *)path, 3, made, 8), 0);
    }
    expect("remove /05", zealfs2_remove_file(IMAGE, PATH("/05")), 0);
    expect("verdict", zealfs2_verdict(IMAGE, out), 0);
    expect("  free: 19 files and a page", out[1], 253 - 20);
    expect("list 19", zealfs2_list(IMAGE, PATH("/"), 19, out, name, date), 0);
    expect("  occupied", out[0], 1);
    expect("  its name", memcmp(name, "19", 3) == 0 && memcmp(date, made, 8) == 0, 1);
    expect("list 30", zealfs2_list(IMAGE, PATH("/"), 30, out, name, date), ZEALFS_PAST_THE_END);
    memset(rows, 0xEE, sizeof rows);
    expect("entries from 4, room for 7", zealfs2_entries(IMAGE, PATH("/"), 4, rows, sizeof rows, told), 0);
    expect("  told", told[0], 7);
    expect("  in all", told[1], 30);
    expect("  /04", rows[0] == 1 && memcmp(rows + 16, "04", 3) == 0 && memcmp(rows + 8, made, 8) == 0, 1);
    expect("  the empty one", memcmp(rows + 32, (const uint8_t[32]){0}, 32), 0);
    expect("  /10", memcmp(rows + 6 * 32 + 16, "10", 3), 0);
    expect("  the rest stays", rows[7 * 32], 0xEE);
    expect("entries from 30", zealfs2_entries(IMAGE, PATH("/"), 30, rows, sizeof rows, told), 0);
    expect("  none", told[0], 0);
    expect("entries from 31", zealfs2_entries(IMAGE, PATH("/"), 31, rows, sizeof rows, told), ZEALFS_PAST_THE_END);
    expect("entries of a file", zealfs2_entries(IMAGE, PATH("/04"), 0, rows, sizeof rows, told), 6 + 256 * 1);
    expect("  told is zeros", told[0] + told[1], 0);
}

static void contents(void)
{
    static uint8_t content[70000], back[70001];
    uint64_t out[3];
    uint8_t date[8];

    for (size_t i = 0; i < sizeof content; i++)
        content[i] = (uint8_t)(i * i % 251);
    expect("make /A", zealfs2_make_directory(IMAGE, PATH("/A"), made, 8), 0);
    expect("find it", zealfs2_find(IMAGE, PATH("/A"), out, date), 0);
    expect("  a directory", out[0], 1);
    expect("  its size is that of a page", out[1], 512);
    expect("make /A/long", zealfs2_make_file(IMAGE, PATH("/A/long"), made, 8), 0);
    expect("write 70,000 bytes", zealfs2_write(IMAGE, PATH("/A/long"), 0, content, sizeof content), 0);
    expect("write 60,000 more", zealfs2_write(IMAGE, PATH("/A/long"), 70000, content, 60000), ZEALFS_NO_FREE_PAGES);
    memset(back, 0xEE, sizeof back);
    expect("read", zealfs2_read(IMAGE, PATH("/A/long"), 0, back, sizeof back, out), 0);
    expect("  count", out[0], sizeof content);
    expect("  as written", memcmp(back, content, sizeof content), 0);
    expect("  the buffer behind it stays", back[70000], 0xEE);
    expect("lock it", zealfs2_lock(IMAGE, PATH("/A/long")), 0);
    expect("  write", zealfs2_write(IMAGE, PATH("/A/long"), 0, content, 1), ZEALFS_LOCKED);
    expect("  find", zealfs2_find(IMAGE, PATH("/A/long"), out, date), 0);
    expect("  locked", out[2], 1);
    expect("remove /A", zealfs2_remove_directory(IMAGE, PATH("/A")), ZEALFS_NOT_EMPTY);
    expect("unlock it", zealfs2_unlock(IMAGE, PATH("/A/long")), 0);
    expect("remove it", zealfs2_remove_file(IMAGE, PATH("/A/long")), 0);
    expect("remove /A", zealfs2_remove_directory(IMAGE, PATH("/A")), 0);
}

/* A changed byte, and what the verdict says of it. The root goes on from page 0 to the page that the table's first byte tells. */
static void judge(const char *what, size_t at, uint8_t byte, unsigned number, unsigned a, unsigned b)
{
    uint64_t out[2] = {9, 9};
    uint8_t kept = image[at];

    image[at] = byte;
    uint64_t code = zealfs2_verdict(IMAGE, out);
    image[at] = kept;
    expect(what, zealfs_number(code), number);
    expect("  a", zealfs_place(code, 0), a);
    expect("  b", zealfs_place(code, 1), b);
    expect("  out is zeros", out[0] + out[1], 0);
}

int main(void)
{
    format();
    grow();
    contents();
    unsigned page = image[512];
    judge("version 3", 1, 3, ZEALFS_WRONG_HEADER, 0, 0);
    judge("page code 0", 6, 0, ZEALFS_WRONG_SHAPE, 0, 0);
    judge("name of /00", 64 + 1, '/', ZEALFS_BAD_ENTRY, 0, 0);
    judge("name on the root's second page", 512 * page + 1, '/', ZEALFS_BAD_ENTRY, page, 0);
    judge("/00 in the table", 64 + 17, 2, ZEALFS_BAD_CHAIN, 0, 0);
    judge("the root goes into the table", 512, 1, ZEALFS_BAD_CHAIN, 0, 255);
    judge("/00 on the page of /01", 64 + 17, image[64 + 32 + 17], ZEALFS_OWNED_TWICE, image[64 + 32 + 17], 0);
    judge("page 255 lost", 7 + 31, 0x80, ZEALFS_LOST_PAGE, 255, 0);
    judge("the table's bit", 7, image[7] & ~2, ZEALFS_WRONG_COUNT, 0, 0);
    return failed;
}
