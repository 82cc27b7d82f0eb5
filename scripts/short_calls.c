/* Preloaded before the C library: cuts calls on regular files short, and fails one of them.

   SHORT_CALLS_MOST=BYTES                  a read or write moves at most so many bytes
   SHORT_CALLS_FAIL="KIND NUMBER ERRNO PATH"   that call of this kind on the file fails once: read, write, sync, stat,
                                           truncate or lock, counted from 1. With ERRNO 0 it answers 0 and does nothing
   SHORT_CALLS_SEEN=PATH                   this file gets a byte when the library is loaded, and one for each call that
                                           was cut (c) or failed (f)

   The calls themselves go to the system and not to the C library, so none of them comes back here. */
#define _GNU_SOURCE
#include <errno.h>
#include <fcntl.h>
#include <stdio.h>
#include <stdlib.h>
#include <string.h>
#include <sys/stat.h>
#include <sys/syscall.h>
#include <sys/uio.h>
#include <unistd.h>

static long calls_so_far;

static void note(char what)
{
    const char *path = getenv("SHORT_CALLS_SEEN");
    int kept = errno;
    if (path != NULL) {
        long file = syscall(SYS_openat, AT_FDCWD, path, O_WRONLY | O_CREAT | O_APPEND, 0600);
        if (file >= 0) {
            syscall(SYS_write, file, &what, 1L);
            syscall(SYS_close, file);
        }
    }
    errno = kept;
}

__attribute__((constructor)) static void loaded(void)
{
    note('l');
}

static int is_regular(int file)
{
    struct stat found;
    return fstat(file, &found) == 0 && S_ISREG(found.st_mode);
}

static int is_same(int file, const char *path)
{
    struct stat one, other;
    return fstat(file, &one) == 0 && stat(path, &other) == 0 && one.st_dev == other.st_dev
        && one.st_ino == other.st_ino;
}

/* Whether this call is the one that fails; then its error is set. */
static int fails(const char *kind, int file, long *answer)
{
    const char *wanted = getenv("SHORT_CALLS_FAIL");
    char wanted_kind[16], path[4096];
    long number;
    int error, kept = errno;
    if (wanted == NULL || sscanf(wanted, "%15s %ld %d %4095[^\n]", wanted_kind, &number, &error, path) != 4
        || strcmp(kind, wanted_kind) != 0 || !is_same(file, path) || ++calls_so_far != number) {
        errno = kept;
        return 0;
    }
    note('f');
    errno = error;
    *answer = error == 0 ? 0 : -1;
    return 1;
}

static size_t cut(int file, size_t size)
{
    const char *most = getenv("SHORT_CALLS_MOST");
    int kept = errno;
    if (most != NULL && size > (size_t)atol(most) && is_regular(file)) {
        note('c');
        size = (size_t)atol(most);
    }
    errno = kept;
    return size;
}

ssize_t read(int file, void *bytes, size_t size)
{
    long answer;
    return fails("read", file, &answer) ? answer : syscall(SYS_read, file, bytes, cut(file, size));
}

ssize_t pread64(int file, void *bytes, size_t size, off64_t at)
{
    long answer;
    return fails("read", file, &answer) ? answer : syscall(SYS_pread64, file, bytes, cut(file, size), at);
}

ssize_t pread(int file, void *bytes, size_t size, off_t at)
{
    return pread64(file, bytes, size, at);
}

ssize_t readv(int file, const struct iovec *parts, int count)
{
    return count == 0 ? 0 : read(file, parts[0].iov_base, parts[0].iov_len);
}

ssize_t write(int file, const void *bytes, size_t size)
{
    long answer;
    return fails("write", file, &answer) ? answer : syscall(SYS_write, file, bytes, cut(file, size));
}

ssize_t pwrite64(int file, const void *bytes, size_t size, off64_t at)
{
    long answer;
    return fails("write", file, &answer) ? answer : syscall(SYS_pwrite64, file, bytes, cut(file, size), at);
}

ssize_t pwrite(int file, const void *bytes, size_t size, off_t at)
{
    return pwrite64(file, bytes, size, at);
}

ssize_t writev(int file, const struct iovec *parts, int count)
{
    return count == 0 ? 0 : write(file, parts[0].iov_base, parts[0].iov_len);
}

int fdatasync(int file)
{
    long answer;
    return fails("sync", file, &answer) ? answer : syscall(SYS_fdatasync, file);
}

int fsync(int file)
{
    long answer;
    return fails("sync", file, &answer) ? answer : syscall(SYS_fsync, file);
}

int ftruncate64(int file, off64_t size)
{
    long answer;
    return fails("truncate", file, &answer) ? answer : syscall(SYS_ftruncate, file, size);
}

int ftruncate(int file, off_t size)
{
    return ftruncate64(file, size);
}

int flock(int file, int operation)
{
    long answer;
    return fails("lock", file, &answer) ? answer : syscall(SYS_flock, file, operation);
}

int statx(int file, const char *restrict path, int flags, unsigned mask, struct statx *restrict found)
{
    long answer;
    int is_file = path[0] == 0;
    return is_file && fails("stat", file, &answer) ? answer : syscall(SYS_statx, file, path, flags, mask, found);
}
