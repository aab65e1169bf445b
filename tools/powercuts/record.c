// Preloaded into the program: keeps, in their order, the calls on its journal's file and when it writes to its output.
//
//   RECORD_JOURNAL  the journal's path
//   RECORD_LOG      the file that the calls are added to
//   RECORD_CLOCK    what the system's clock tells first, in microseconds; each later reading is a millisecond more
//
// A record is a letter and two numbers of 8 bytes, the least byte first: w, where and how many, and the bytes that were
// written; t, the length that the file was cut to; s, a sync of it that succeeded; d, a sync of a folder; r, before bytes go
// to standard output, how many. Calls that change a file in another way are told by x, and the script then stops.
#define _GNU_SOURCE
#include <errno.h>
#include <fcntl.h>
#include <stdint.h>
#include <stdlib.h>
#include <string.h>
#include <sys/stat.h>
#include <sys/syscall.h>
#include <sys/uio.h>
#include <time.h>
#include <unistd.h>

static int told = -1;
static const char *journal;
static uint64_t clock_now;

__attribute__((constructor)) static void begin(void) {
    const char *path = getenv("RECORD_LOG"), *time = getenv("RECORD_CLOCK");
    journal = getenv("RECORD_JOURNAL");
    if (!path || !journal) _exit(70);
    int file = syscall(SYS_openat, AT_FDCWD, path, O_WRONLY | O_CREAT | O_APPEND | O_CLOEXEC, 0600);
    // a number that no file of the program gets
    told = file < 0 ? -1 : fcntl(file, F_DUPFD_CLOEXEC, 900);
    if (told < 0) _exit(70);
    close(file);
    clock_now = time ? strtoull(time, 0, 10) : 0;
}

static void tell(char kind, uint64_t at, uint64_t size, const void *bytes) {
    char head[17] = {kind};
    memcpy(head + 1, &at, 8);
    memcpy(head + 9, &size, 8);
    struct iovec parts[2] = {{head, 17}, {(void *)bytes, bytes ? size : 0}};
    if (syscall(SYS_writev, told, parts, bytes ? 2 : 1) != (long)(17 + (bytes ? size : 0))) _exit(70);
}

static int is_journal(int file) {
    struct stat one, other;
    return file > 2 && file != told && !fstat(file, &one) && !stat(journal, &other) && one.st_dev == other.st_dev && one.st_ino == other.st_ino;
}

static int is_folder(int file) {
    struct stat one;
    return !fstat(file, &one) && S_ISDIR(one.st_mode);
}

ssize_t pwrite64(int file, const void *bytes, size_t size, off64_t at) {
    ssize_t done = syscall(SYS_pwrite64, file, bytes, size, at);
    if (done > 0 && is_journal(file)) tell('w', at, done, bytes);
    return done;
}

ssize_t pwrite(int file, const void *bytes, size_t size, off_t at) {
    return pwrite64(file, bytes, size, at);
}

ssize_t write(int file, const void *bytes, size_t size) {
    if (file == 1 && told >= 0) tell('r', 0, size, 0);
    if (told >= 0 && is_journal(file)) tell('x', 0, 0, 0);
    return syscall(SYS_write, file, bytes, size);
}

ssize_t writev(int file, const struct iovec *parts, int count) {
    if (file == 1) tell('r', 0, 0, 0);
    if (is_journal(file)) tell('x', 1, 0, 0);
    return syscall(SYS_writev, file, parts, count);
}

ssize_t pwritev(int file, const struct iovec *parts, int count, off_t at) {
    if (is_journal(file)) tell('x', 2, 0, 0);
    return syscall(SYS_pwritev, file, parts, count, at, 0);
}

int ftruncate64(int file, off64_t size) {
    int done = syscall(SYS_ftruncate, file, size);
    if (!done && is_journal(file)) tell('t', size, 0, 0);
    return done;
}

int ftruncate(int file, off_t size) {
    return ftruncate64(file, size);
}

static int synced(long number, int file) {
    int done = syscall(number, file);
    if (!done && is_journal(file)) tell('s', 0, 0, 0);
    if (!done && is_folder(file)) tell('d', 0, 0, 0);
    return done;
}

int fsync(int file) {
    return synced(SYS_fsync, file);
}

int fdatasync(int file) {
    return synced(SYS_fdatasync, file);
}

int clock_gettime(clockid_t which, struct timespec *time) {
    if (which != CLOCK_REALTIME || !clock_now) return syscall(SYS_clock_gettime, which, time);
    uint64_t now = __atomic_fetch_add(&clock_now, 1000, __ATOMIC_RELAXED);
    time->tv_sec = now / 1000000;
    time->tv_nsec = now % 1000000 * 1000;
    return 0;
}
