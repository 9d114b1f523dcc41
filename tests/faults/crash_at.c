// Stops a program at one of its writes and syncs of files, for tests/robustness/crashes.py: as the STOP_AT-th
// begins the process is killed; with FAILS set that one and all after it fail, as on a disk that is gone.
#define _GNU_SOURCE
#include <dlfcn.h>
#include <errno.h>
#include <signal.h>
#include <stdlib.h>
#include <sys/stat.h>
#include <sys/uio.h>
#include <unistd.h>

static long calls;

// Whether this call fails; it does not return where the process is to be killed.
static int is_stopped(int file) {
    struct stat found;
    const char *at = getenv("STOP_AT");
    if (!at || file <= STDERR_FILENO || fstat(file, &found) || !S_ISREG(found.st_mode)) return 0;
    if (__atomic_add_fetch(&calls, 1, __ATOMIC_SEQ_CST) < atol(at)) return 0;
    if (!getenv("FAILS")) kill(getpid(), SIGKILL);
    errno = EIO;
    return 1;
}

#define STOPPED(NAME, ARGUMENTS, ...) \
    ARGUMENTS { \
        static __typeof__(&NAME) real; \
        if (!real) real = dlsym(RTLD_NEXT, #NAME); \
        return is_stopped(file) ? -1 : real(__VA_ARGS__); \
    }

STOPPED(write, ssize_t write(int file, const void *bytes, size_t count), file, bytes, count)
STOPPED(pwrite, ssize_t pwrite(int file, const void *bytes, size_t count, off_t at), file, bytes, count, at)
STOPPED(pwrite64, ssize_t pwrite64(int file, const void *bytes, size_t count, off64_t at), file, bytes, count, at)
STOPPED(writev, ssize_t writev(int file, const struct iovec *parts, int count), file, parts, count)
STOPPED(pwritev, ssize_t pwritev(int file, const struct iovec *parts, int count, off_t at), file, parts, count, at)
STOPPED(fsync, int fsync(int file), file)
STOPPED(fdatasync, int fdatasync(int file), file)
STOPPED(ftruncate, int ftruncate(int file, off_t length), file, length)
STOPPED(ftruncate64, int ftruncate64(int file, off64_t length), file, length)
