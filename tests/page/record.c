/*
 * Performs random lists of calls by the native library and writes what was asked and answered to standard output, for replay.mjs to do the same
 * by the compiled page's functions: record LISTS [SEED].
 *
 * A list begins with its image's length and its version (32 bits each, low byte first; 0 is version 1, and 1, 2, 3 are version 2 with page code 0, 1, 2)
 * and has CALLS records: struct asked, struct told, then `more` bytes that the call has put into its buffer. The image as it is after the list ends it.
 * Some calls damage the image instead of calling, so that unsound ones are met.
 */
#include <stdio.h>
#include <stdlib.h>
#include <string.h>

#include "zealfs.h"

enum { CALLS = 60 };
enum call { FORMAT, VERDICT, FIND, LIST, READ, MAKE_FILE, MAKE_DIRECTORY, WRITE, REMOVE_FILE, REMOVE_DIRECTORY, LOCK, UNLOCK, REPAIR, AUDIT, LISTING, ENTRIES, DAMAGE };

struct asked {
    uint8_t call, path_len, mask, unused;
    uint32_t count;
    uint64_t position;
    uint8_t date[8], path[64];
};

struct told {
    uint64_t code, out[4];
    uint8_t name[16], date[8];
    uint32_t more, unused;
};

_Static_assert(sizeof(struct asked) == 88 && sizeof(struct told) == 72, "replay.mjs reads these sizes");

static uint64_t state;
static uint8_t image[131072], buffer[65536], bytes[65536];
static uint64_t owners[256];

/* xorshift64 */
static uint32_t below(uint32_t bound)
{
    state ^= state << 13;
    state ^= state >> 7;
    state ^= state << 17;
    return (uint32_t)(state >> 32) % bound;
}

/* Repair, audit and listing are version 1's, and entries is version 2's; format of version 2 takes a page code. */
static void fit(struct asked *a, uint32_t version)
{
    if (version && a->call >= REPAIR && a->call <= LISTING) a->call = ENTRIES;
    if (!version && a->call == ENTRIES) a->call = VERDICT;
    if (a->call == LIST || a->call == ENTRIES) a->position = below(version ? 30 : 10);
    if (a->call == FORMAT) a->position = below(4);
}

static void ask(struct asked *a, size_t length, uint32_t version)
{
    /* makes and writes often, so that there is something to look at; damage rarely, for a damaged image refuses nearly all */
    static const uint8_t often[] = {MAKE_FILE, MAKE_FILE, MAKE_FILE, MAKE_DIRECTORY, MAKE_DIRECTORY, WRITE, WRITE, WRITE};
    memset(a, 0, sizeof *a);
    a->call = below(2) ? often[below(sizeof often)] : (uint8_t)below(DAMAGE);
    if (a->call == FORMAT && below(4)) a->call = VERDICT;
    if (below(150) == 0) a->call = DAMAGE;
    for (uint32_t depth = 1 + below(3); depth > 0; depth--) {
        a->path[a->path_len++] = '/';
        a->path[a->path_len++] = (uint8_t)('a' + below(4));
        if (below(6) == 0) a->path[a->path_len++] = '0';
    }
    if (below(40) == 0) a->path[below(a->path_len)] = (uint8_t)below(256);
    if (below(30) == 0) a->path_len = (uint8_t)below(2);
    memcpy(a->date, (const uint8_t[8]){0x20, 0x26, 0x11, 0x15, 0x07, 0x12, 0, 0}, 8);
    if (below(30) == 0) a->date[below(8)] = (uint8_t)below(256);
    a->position = below(3) ? 0 : below(20) ? below(900) : UINT64_MAX - below(900);
    a->count = below(10) ? below(700) : below(65536);
    fit(a, version);
    if (a->call == DAMAGE) {
        uint32_t place = below((uint32_t)length);
        /* any byte, one of the header's page, the start page of an entry of the root, or a link of version 2 */
        a->position = below(3) == 0 ? place : below(2) ? place % 256 : 64 + 32 * below(6) + 17;
        if (version && below(3) == 0) a->position = (256u << (version - 1)) + below(16);
        a->mask = (uint8_t)(1 << below(a->position % 32 == 17 ? 3 : 8));
    }
}

/* the same call of either version */
#define CALL(name, ...) (version ? zealfs2_##name(image, length, __VA_ARGS__) : zealfs_##name(image, length, __VA_ARGS__))

static void tell(const struct asked *a, struct told *t, size_t length, uint32_t version)
{
    const uint8_t *path = a->path;
    size_t n = a->path_len;
    memset(t, 0, sizeof *t);
    switch ((enum call)a->call) {
    case FORMAT: t->code = version ? zealfs2_format(image, length, a->position) : zealfs_format(image, length); break;
    case VERDICT: t->code = CALL(verdict, t->out); break;
    case FIND: t->code = CALL(find, path, n, t->out, t->date); break;
    case LIST: t->code = CALL(list, path, n, a->position, t->out, t->name, t->date); break;
    case READ:
        memset(buffer, 0xEE, a->count);
        t->code = CALL(read, path, n, a->position, buffer, a->count, t->out);
        t->more = a->count;
        break;
    case MAKE_FILE: t->code = CALL(make_file, path, n, a->date, 8); break;
    case MAKE_DIRECTORY: t->code = CALL(make_directory, path, n, a->date, 8); break;
    case WRITE:
        for (uint32_t i = 0; i < a->count; i++) bytes[i] = (uint8_t)(i + a->count);
        t->code = CALL(write, path, n, a->position, bytes, a->count);
        break;
    case REMOVE_FILE: t->code = CALL(remove_file, path, n); break;
    case REMOVE_DIRECTORY: t->code = CALL(remove_directory, path, n); break;
    case LOCK: t->code = CALL(lock, path, n); break;
    case UNLOCK: t->code = CALL(unlock, path, n); break;
    case REPAIR: t->code = zealfs_repair(image, length); break;
    case AUDIT:
        t->code = zealfs_audit(image, length, owners);
        memcpy(buffer, owners, sizeof owners);
        t->more = sizeof owners;
        break;
    case LISTING:
        memset(buffer, 0xEE, a->count);
        t->code = zealfs_listing(image, length, a->position, buffer, a->count);
        t->more = a->count;
        break;
    case ENTRIES:
        memset(buffer, 0xEE, a->count);
        t->code = zealfs2_entries(image, length, path, n, a->position, buffer, a->count, t->out);
        t->more = a->count;
        break;
    case DAMAGE: image[a->position] ^= a->mask; break;
    }
}

/* Mostly short images, of version 2 also some whose links have two bytes; now and then a length that none has. */
static void size(uint32_t *length, uint32_t *version)
{
    *version = below(2) ? 0 : 1 + below(3);
    uint32_t unit = 2048u << (*version ? *version - 1 : 0);
    uint32_t most = *version ? 131072 / unit : 32;
    if (*version == 1) most = 32;
    *length = unit * (1 + below(below(3) ? 4 : most)) - (below(200) == 0);
}

int main(int count, char **words)
{
    long lists = count > 1 ? atol(words[1]) : 1000;
    state = count > 2 ? strtoull(words[2], 0, 10) | 1 : 88172645463325252u;
    for (long list = 0; list < lists; list++) {
        uint32_t length, version;
        size(&length, &version);
        for (uint32_t i = 0; i < length; i++) image[i] = (uint8_t)(i * 7);
        if (version) zealfs2_format(image, length, version - 1);
        else zealfs_format(image, length);
        fwrite(&length, sizeof length, 1, stdout);
        fwrite(&version, sizeof version, 1, stdout);
        for (int i = 0; i < CALLS; i++) {
            struct asked a;
            struct told t;
            ask(&a, length, version);
            tell(&a, &t, length, version);
            fwrite(&a, sizeof a, 1, stdout);
            fwrite(&t, sizeof t, 1, stdout);
            fwrite(buffer, t.more, 1, stdout);
        }
        fwrite(image, length, 1, stdout);
    }
    return fflush(stdout) || ferror(stdout);
}
