/*
 * Mounts a ZealFS image over the C library, so that programs that nobody here wrote drive it: mount IMAGE DIRECTORY [options of FUSE].
 *
 * A bench and no product. POSIX has calls that the library does not: shortening and renaming are done by removal, make and write on a copy, a write
 * past the end fills with zeros, times are taken and not kept, a file without write permission is a locked one. With ZEALFS_FOLD set a name of more
 * than 16 bytes is folded to 16: programs with long names come further, and so does libfuse, which hides a file that is removed while it is open
 * under such a name.
 *
 * The image is held in memory and stored when a file is closed or synced, and at the end, by the rule of the tool: the file is locked; a new one
 * beside it is locked, written and synced before it takes the name, if that still leads to the old one; then the directory is synced.
 */
#define FUSE_USE_VERSION 31
#define _GNU_SOURCE
#include <errno.h>
#include <fcntl.h>
#include <fuse3/fuse.h>
#include <libgen.h>
#include <stdbool.h>
#include <stdio.h>
#include <stdlib.h>
#include <string.h>
#include <sys/file.h>
#include <sys/stat.h>
#include <time.h>
#include <unistd.h>

#include "zealfs.h"

enum { LONGEST = 65536, LONGEST_FILE = 65025, LONGEST_PATH = 8192 };

static uint8_t image[LONGEST];
static size_t length;
static char *name_of_image;
static int held = -1;
static bool is_changed, is_folding;
static uint64_t calls, stores, numbers[256];

/* A path as the library takes it. */
struct path {
    uint8_t bytes[LONGEST_PATH];
    size_t length;
};

struct found {
    uint64_t is_directory, size, is_locked;
    uint8_t date[8];
};

/* ---- answers */

static int error_of(uint64_t code)
{
    static const int errors[256] = {
        [ZEALFS_NOT_A_PATH] = ENAMETOOLONG, [ZEALFS_NO_SUCH_NAME] = ENOENT, [ZEALFS_NOT_A_DIRECTORY] = ENOTDIR,
        [ZEALFS_IS_A_DIRECTORY] = EISDIR, [ZEALFS_NAME_EXISTS] = EEXIST, [ZEALFS_DIRECTORY_FULL] = ENOSPC, [ZEALFS_NO_FREE_PAGES] = ENOSPC,
        [ZEALFS_BAD_DATE] = EINVAL, [ZEALFS_PAST_THE_END] = EINVAL, [ZEALFS_NOT_EMPTY] = ENOTEMPTY, [ZEALFS_IS_THE_ROOT] = EBUSY,
        [ZEALFS_LOCKED] = EPERM,
    };
    unsigned number = zealfs_number(code);
    calls++;
    numbers[number]++;
    if (number == 0) return 0;
    return errors[number] ? -errors[number] : -EIO;
}

static int changed(uint64_t code)
{
    int error = error_of(code);
    if (!error) is_changed = true;
    return error;
}

/* Each name of more than 16 bytes becomes its first 7, a ~ and 8 digits of a hash. */
static int path_of(const char *text, struct path *p)
{
    p->length = 0;
    /* a file that is open and was removed has no path any more */
    if (!text) return -ENOENT;
    while (*text) {
        size_t n = 1 + strcspn(text + 1, "/");
        char folded[32];
        const char *name = text;
        size_t count = n;
        if (is_folding && n > 17) {
            uint32_t hash = 2166136261u;
            for (size_t i = 1; i < n; i++) hash = (hash ^ (uint8_t)text[i]) * 16777619u;
            count = (size_t)snprintf(folded, sizeof folded, "/%.7s~%08x", text + 1, hash);
            name = folded;
        }
        if (p->length + count > sizeof p->bytes) return -ENAMETOOLONG;
        memcpy(p->bytes + p->length, name, count);
        p->length += count;
        text += n;
    }
    return 0;
}

static int find(const struct path *p, struct found *f)
{
    uint64_t out[3];
    int error = error_of(zealfs_find(image, length, p->bytes, p->length, out, f->date));
    f->is_directory = out[0];
    f->size = out[1];
    f->is_locked = out[2];
    return error;
}

static int find_at(const char *text, struct path *p, struct found *f)
{
    int error = path_of(text, p);
    return error ? error : find(p, f);
}

/* ---- dates */

static uint8_t two_digits(int number)
{
    return (uint8_t)(number / 10 * 16 + number % 10);
}

static void now_as(uint8_t date[8])
{
    time_t seconds = time(0);
    struct tm t;
    localtime_r(&seconds, &t);
    int parts[8] = {(t.tm_year + 1900) / 100, t.tm_year % 100, t.tm_mon + 1, t.tm_mday, t.tm_wday ? t.tm_wday : 7, t.tm_hour, t.tm_min, t.tm_sec};
    for (int i = 0; i < 8; i++) date[i] = two_digits(parts[i]);
}

static time_t seconds_of(const uint8_t date[8])
{
    int n[8];
    for (int i = 0; i < 8; i++) n[i] = (date[i] >> 4) * 10 + (date[i] & 15);
    struct tm t = {.tm_year = n[0] * 100 + n[1] - 1900, .tm_mon = n[2] - 1, .tm_mday = n[3], .tm_hour = n[5], .tm_min = n[6], .tm_sec = n[7], .tm_isdst = -1};
    return n[2] ? mktime(&t) : 0;
}

/* ---- storing */

static bool is_same_file(int fd, const char *name)
{
    struct stat one, other;
    return fstat(fd, &one) == 0 && stat(name, &other) == 0 && one.st_dev == other.st_dev && one.st_ino == other.st_ino;
}

static int sync_directory(void)
{
    char copy[4096];
    snprintf(copy, sizeof copy, "%s", name_of_image);
    int fd = open(dirname(copy), O_RDONLY | O_DIRECTORY | O_CLOEXEC);
    int outcome = fd < 0 || fsync(fd) ? -errno : 0;
    if (fd >= 0) close(fd);
    return outcome;
}

static int write_beside(int fd)
{
    struct stat old;
    if (fstat(held, &old) || flock(fd, LOCK_EX | LOCK_NB) || write(fd, image, length) != (ssize_t)length || fchmod(fd, old.st_mode & 07777) || fsync(fd)) return -1;
    if (is_same_file(held, name_of_image)) return 0;
    errno = ESTALE;
    return -1;
}

static int store(void)
{
    uint64_t out[2];
    char beside[4096];
    if (!is_changed) return 0;
    if (zealfs_verdict(image, length, out)) {
        fprintf(stderr, "mount: NOT SOUND after granted calls; not stored\n");
        return -EIO;
    }
    snprintf(beside, sizeof beside, "%s.%d.tmp", name_of_image, (int)getpid());
    int fd = open(beside, O_RDWR | O_CREAT | O_EXCL | O_CLOEXEC, 0600);
    if (fd < 0) return -errno;
    if (write_beside(fd) || rename(beside, name_of_image)) {
        int error = -errno;
        close(fd);
        unlink(beside);
        return error;
    }
    close(held);
    held = fd;
    is_changed = false;
    stores++;
    return sync_directory();
}

/* ---- looking */

static void fill(struct stat *s, const struct found *f)
{
    memset(s, 0, sizeof *s);
    s->st_mode = f->is_directory ? S_IFDIR | 0755 : S_IFREG | (f->is_locked ? 0444 : 0644);
    s->st_nlink = f->is_directory ? 2 : 1;
    s->st_size = (off_t)f->size;
    s->st_blksize = 256;
    s->st_blocks = f->is_directory ? 1 : (off_t)((f->size + 254) / 255 + !f->size);
    s->st_uid = getuid();
    s->st_gid = getgid();
    s->st_mtime = s->st_ctime = s->st_atime = seconds_of(f->date);
}

static int on_getattr(const char *text, struct stat *s, struct fuse_file_info *info)
{
    (void)info;
    struct path p;
    struct found f;
    int error = find_at(text, &p, &f);
    if (!error) fill(s, &f);
    return error;
}

static int on_readdir(const char *text, void *buffer, fuse_fill_dir_t filler, off_t offset, struct fuse_file_info *info, enum fuse_readdir_flags flags)
{
    (void)offset, (void)info, (void)flags;
    struct path p;
    int error = path_of(text, &p);
    filler(buffer, ".", 0, 0, 0);
    filler(buffer, "..", 0, 0, 0);
    for (uint64_t i = 0; !error; i++) {
        uint64_t out[4];
        uint8_t name[17] = {0}, date[8];
        uint64_t code = zealfs_list(image, length, p.bytes, p.length, i, out, name, date);
        error = error_of(code);
        if (zealfs_number(code) == ZEALFS_PAST_THE_END) return 0;
        if (!error && out[0]) filler(buffer, (const char *)name, 0, 0, 0);
    }
    return error;
}

static int on_read(const char *text, char *buffer, size_t count, off_t position, struct fuse_file_info *info)
{
    (void)info;
    struct path p;
    uint64_t out[1];
    int error = path_of(text, &p);
    if (error) return error;
    uint64_t code = zealfs_read(image, length, p.bytes, p.length, (uint64_t)position, (uint8_t *)buffer, count, out);
    error = error_of(code);
    /* past the end POSIX reads nothing */
    if (zealfs_number(code) == ZEALFS_PAST_THE_END) return 0;
    return error ? error : (int)out[0];
}

static int on_statfs(const char *text, struct statvfs *s)
{
    (void)text;
    uint64_t out[2];
    int error = error_of(zealfs_verdict(image, length, out));
    memset(s, 0, sizeof *s);
    s->f_bsize = s->f_frsize = 256;
    s->f_blocks = out[0];
    s->f_bfree = s->f_bavail = out[1];
    s->f_namemax = 16;
    return error;
}

/* ---- changing */

static int put(const struct path *p, const uint8_t *bytes, size_t count, uint64_t position)
{
    return changed(zealfs_write(image, length, p->bytes, p->length, position, bytes, count));
}

static int lengthen(const struct path *p, uint64_t size, uint64_t to)
{
    static const uint8_t zeros[LONGEST];
    if (to > LONGEST_FILE) return -EFBIG;
    return to > size ? put(p, zeros, to - size, size) : 0;
}

static int on_write(const char *text, const char *bytes, size_t count, off_t position, struct fuse_file_info *info)
{
    (void)info;
    struct path p;
    struct found f;
    int error = find_at(text, &p, &f);
    if (!error) error = lengthen(&p, f.size, (uint64_t)position > f.size ? (uint64_t)position : 0);
    if (!error) error = put(&p, (const uint8_t *)bytes, count, (uint64_t)position);
    return error ? error : (int)count;
}

static int make(const char *text, bool is_directory)
{
    struct path p;
    uint8_t date[8];
    int error = path_of(text, &p);
    if (error) return error;
    now_as(date);
    return changed(is_directory ? zealfs_make_directory(image, length, p.bytes, p.length, date, 8) : zealfs_make_file(image, length, p.bytes, p.length, date, 8));
}

static int on_mkdir(const char *text, mode_t mode)
{
    (void)mode;
    return make(text, true);
}

static int on_create(const char *text, mode_t mode, struct fuse_file_info *info)
{
    (void)mode, (void)info;
    return make(text, false);
}

static int on_unlink(const char *text)
{
    struct path p;
    int error = path_of(text, &p);
    return error ? error : changed(zealfs_remove_file(image, length, p.bytes, p.length));
}

static int on_rmdir(const char *text)
{
    struct path p;
    int error = path_of(text, &p);
    return error ? error : changed(zealfs_remove_directory(image, length, p.bytes, p.length));
}

/* Makes a file anew under a path, with its date and at most `keep` of its bytes; a file that has the path already goes. All of it or nothing. */
static int remake(const struct path *from, const struct path *to, uint64_t keep)
{
    static uint8_t old[LONGEST], content[LONGEST];
    struct found f, there;
    uint64_t out[1];
    bool was_changed = is_changed, is_other = from->length != to->length || memcmp(from->bytes, to->bytes, to->length);
    memcpy(old, image, length);
    int error = find(from, &f);
    if (!error && f.is_directory) error = -EISDIR;
    if (error) return error;
    uint64_t size = f.size < keep ? f.size : keep;
    error = error_of(zealfs_read(image, length, from->bytes, from->length, 0, content, size, out));
    if (!error) error = changed(zealfs_remove_file(image, length, from->bytes, from->length));
    if (!error && is_other && find(to, &there) == 0) error = changed(zealfs_remove_file(image, length, to->bytes, to->length));
    if (!error) {
        uint64_t code = zealfs_make_file(image, length, to->bytes, to->length, f.date, 8);
        /* a stored date need not exist */
        if (zealfs_number(code) == ZEALFS_BAD_DATE) now_as(f.date), code = zealfs_make_file(image, length, to->bytes, to->length, f.date, 8);
        error = changed(code);
    }
    if (!error) error = put(to, content, size, 0);
    if (error) memcpy(image, old, length), is_changed = was_changed;
    return error;
}

static int on_truncate(const char *text, off_t size, struct fuse_file_info *info)
{
    (void)info;
    struct path p;
    struct found f;
    int error = find_at(text, &p, &f);
    if (error) return error;
    return (uint64_t)size < f.size ? remake(&p, &p, (uint64_t)size) : lengthen(&p, f.size, (uint64_t)size);
}

static int on_rename(const char *from, const char *to, unsigned flags)
{
    struct path old, new;
    struct found f;
    int error = find_at(from, &old, &f);
    if (!error) error = path_of(to, &new);
    if (error) return error;
    if (flags & ~(unsigned)RENAME_NOREPLACE) return -EINVAL;
    /* a program then copies; what a directory holds cannot be moved by these calls */
    if (f.is_directory) return -EXDEV;
    if (flags & RENAME_NOREPLACE && find(&new, &f) == 0) return -EEXIST;
    return old.length == new.length && !memcmp(old.bytes, new.bytes, old.length) ? 0 : remake(&old, &new, UINT64_MAX);
}

/* A file that its owner may not write is locked. */
static int on_chmod(const char *text, mode_t mode, struct fuse_file_info *info)
{
    (void)info;
    struct path p;
    struct found f;
    int error = find_at(text, &p, &f);
    if (error || f.is_directory) return error;
    return changed(mode & S_IWUSR ? zealfs_unlock(image, length, p.bytes, p.length) : zealfs_lock(image, length, p.bytes, p.length));
}

static int on_chown(const char *text, uid_t user, gid_t group, struct fuse_file_info *info)
{
    (void)text, (void)user, (void)group, (void)info;
    return 0;
}

static int on_utimens(const char *text, const struct timespec times[2], struct fuse_file_info *info)
{
    (void)text, (void)times, (void)info;
    return 0;
}

/* libfuse 3 hands O_TRUNC to open and not to truncate */
static int on_open(const char *text, struct fuse_file_info *info)
{
    struct path p;
    struct found f;
    int error = find_at(text, &p, &f);
    if (!error && f.is_directory) error = -EISDIR;
    if (error) return error;
    return info->flags & O_TRUNC ? on_truncate(text, 0, info) : 0;
}

static int on_flush(const char *text, struct fuse_file_info *info)
{
    (void)text, (void)info;
    return store();
}

static int on_fsync(const char *text, int is_data, struct fuse_file_info *info)
{
    (void)text, (void)is_data, (void)info;
    return store();
}

/* Where names are not folded, a file that is removed while it is open goes at once: libfuse cannot hide it. */
static void *on_init(struct fuse_conn_info *connection, struct fuse_config *config)
{
    (void)connection;
    config->hard_remove = !is_folding;
    return 0;
}

static void on_destroy(void *data)
{
    (void)data;
    int error = store();
    fprintf(stderr, "calls %llu stores %llu%s refused", (unsigned long long)calls, (unsigned long long)stores, error ? " LAST STORE FAILED" : "");
    for (int i = 1; i < 256; i++)
        if (numbers[i]) fprintf(stderr, " %d:%llu", i, (unsigned long long)numbers[i]);
    fputc('\n', stderr);
}

static const struct fuse_operations operations = {
    .init = on_init, .getattr = on_getattr, .readdir = on_readdir, .open = on_open, .read = on_read, .statfs = on_statfs,
    .write = on_write, .create = on_create, .mkdir = on_mkdir, .unlink = on_unlink, .rmdir = on_rmdir, .truncate = on_truncate,
    .rename = on_rename, .chmod = on_chmod, .chown = on_chown, .utimens = on_utimens, .flush = on_flush, .fsync = on_fsync, .destroy = on_destroy,
};

/* Opens, locks and reads the image; it has to be a regular file that is in order. */
static bool take_image(const char *name)
{
    struct stat s;
    uint64_t out[2];
    name_of_image = realpath(name, 0);
    held = name_of_image ? open(name_of_image, O_RDWR | O_NONBLOCK | O_CLOEXEC) : -1;
    if (held < 0 || fstat(held, &s)) return perror(name), false;
    if (!S_ISREG(s.st_mode)) return fprintf(stderr, "%s: not a regular file\n", name), false;
    if (flock(held, LOCK_EX | LOCK_NB) || !is_same_file(held, name_of_image)) return fprintf(stderr, "%s: held by another program\n", name), false;
    ssize_t got = s.st_size > LONGEST ? 0 : read(held, image, sizeof image);
    length = got < 0 ? 0 : (size_t)got;
    unsigned number = zealfs_number(zealfs_verdict(image, length, out));
    if (number) return fprintf(stderr, "%s: refused %u: %s\n", name, number, zealfs_text(number)), false;
    return true;
}

int main(int count, char **words)
{
    if (count < 3) return fprintf(stderr, "usage: mount IMAGE DIRECTORY [options of FUSE]\n"), 16;
    if (!take_image(words[1])) return 4;
    is_folding = getenv("ZEALFS_FOLD") != 0;
    words[1] = words[0];
    return fuse_main(count - 1, words + 1, &operations, 0);
}
