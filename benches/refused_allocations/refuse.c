// Refuses the allocation whose number is in REFUSE_AT, counted from 1, or where REFUSE is `thread`, the thread with that
// number, or where it is `file`, the read or write with that number, and keeps in the file REFUSE_COUNT how many there have
// been. Loaded before the C library by LD_PRELOAD. (The program ends without running what is to run at its end, so the count
// is written each time.)
#define _GNU_SOURCE
#include <dlfcn.h>
#include <errno.h>
#include <fcntl.h>
#include <pthread.h>
#include <stdatomic.h>
#include <stdlib.h>
#include <string.h>
#include <sys/syscall.h>
#include <sys/uio.h>
#include <unistd.h>

enum kind { MEMORY, THREAD, FILES };

static enum kind refused;
static unsigned long at, seen;
static int count_file = -1;
static atomic_flag counting = ATOMIC_FLAG_INIT;

static void tell(unsigned long count) {
    char text[24];
    int length = 0;
    for (unsigned long rest = count; rest || !length; rest /= 10) text[sizeof text - 1 - length++] = (char)('0' + rest % 10);
    if (count_file >= 0) (void)!syscall(SYS_pwrite64, count_file, text + sizeof text - length, length, 0);
}

__attribute__((constructor)) static void begin(void) {
    const char *kind = getenv("REFUSE"), *number = getenv("REFUSE_AT"), *path = getenv("REFUSE_COUNT");
    refused = kind && !strcmp(kind, "thread") ? THREAD : kind && !strcmp(kind, "file") ? FILES : MEMORY;
    at = number ? strtoul(number, NULL, 10) : 0;
    if (path) count_file = open(path, O_WRONLY | O_CREAT | O_TRUNC, 0600);
    tell(0);
}

static int is_refused(enum kind kind) {
    if (kind != refused) return 0;
    while (atomic_flag_test_and_set(&counting)) continue;
    unsigned long count = ++seen;
    tell(count);
    atomic_flag_clear(&counting);
    return count == at;
}

void *malloc(size_t size) {
    static void *(*next)(size_t);
    if (!next) next = dlsym(RTLD_NEXT, "malloc");
    return is_refused(MEMORY) ? NULL : next(size);
}

void *realloc(void *old, size_t size) {
    static void *(*next)(void *, size_t);
    if (!next) next = dlsym(RTLD_NEXT, "realloc");
    return is_refused(MEMORY) ? NULL : next(old, size);
}

void *aligned_alloc(size_t alignment, size_t size) {
    static void *(*next)(size_t, size_t);
    if (!next) next = dlsym(RTLD_NEXT, "aligned_alloc");
    return is_refused(MEMORY) ? NULL : next(alignment, size);
}

int posix_memalign(void **to, size_t alignment, size_t size) {
    static int (*next)(void **, size_t, size_t);
    if (!next) next = dlsym(RTLD_NEXT, "posix_memalign");
    return is_refused(MEMORY) ? ENOMEM : next(to, alignment, size);
}

int pthread_create(pthread_t *thread, const pthread_attr_t *attributes, void *(*begin)(void *), void *argument) {
    static int (*next)(pthread_t *, const pthread_attr_t *, void *(*)(void *), void *);
    if (!next) next = dlsym(RTLD_NEXT, "pthread_create");
    return is_refused(THREAD) ? EAGAIN : next(thread, attributes, begin, argument);
}

// Where it is this one's turn, the call fails as on a broken disk.
#define FAILS_OR(call) (is_refused(FILES) ? (errno = EIO, -1) : (call))

ssize_t read(int file, void *to, size_t size) { return FAILS_OR(syscall(SYS_read, file, to, size)); }

ssize_t readv(int file, const struct iovec *to, int count) { return FAILS_OR(syscall(SYS_readv, file, to, count)); }

ssize_t pread(int file, void *to, size_t size, off_t from) { return FAILS_OR(syscall(SYS_pread64, file, to, size, from)); }

ssize_t pread64(int file, void *to, size_t size, off64_t from) { return FAILS_OR(syscall(SYS_pread64, file, to, size, from)); }

ssize_t write(int file, const void *from, size_t size) { return FAILS_OR(syscall(SYS_write, file, from, size)); }

ssize_t writev(int file, const struct iovec *from, int count) { return FAILS_OR(syscall(SYS_writev, file, from, count)); }

ssize_t pwrite(int file, const void *from, size_t size, off_t to) { return FAILS_OR(syscall(SYS_pwrite64, file, from, size, to)); }

ssize_t pwrite64(int file, const void *from, size_t size, off64_t to) { return FAILS_OR(syscall(SYS_pwrite64, file, from, size, to)); }
