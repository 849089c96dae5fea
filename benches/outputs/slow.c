// Makes the writing of files slow, or lets one call on them fail. Loaded before the C library by LD_PRELOAD.
//
//   SLOW_BYTES         a write to a file takes at most so many bytes,
//   SLOW_MICROSECONDS  and waits for so long
//   FAIL               the name of a call that fails with EIO: fsync, rename or fchmod
//
// Standard input, standard output and standard error stay as they are.
#define _GNU_SOURCE
#include <errno.h>
#include <stdlib.h>
#include <string.h>
#include <sys/stat.h>
#include <sys/syscall.h>
#include <unistd.h>

static size_t most;
static unsigned long wait_for;
static const char *failing;

__attribute__((constructor)) static void begin(void) {
    const char *bytes = getenv("SLOW_BYTES"), *microseconds = getenv("SLOW_MICROSECONDS");
    most = bytes ? strtoul(bytes, NULL, 10) : 0;
    wait_for = microseconds ? strtoul(microseconds, NULL, 10) : 0;
    failing = getenv("FAIL");
}

static int fails(const char *name) {
    if (!failing || strcmp(failing, name)) return 0;
    errno = EIO;
    return 1;
}

ssize_t write(int file, const void *from, size_t size) {
    if (file > 2 && most && size > most) size = most;
    if (file > 2 && wait_for) usleep((useconds_t)wait_for);
    return syscall(SYS_write, file, from, size);
}

int fsync(int file) { return fails("fsync") ? -1 : (int)syscall(SYS_fsync, file); }

int fchmod(int file, mode_t mode) { return fails("fchmod") ? -1 : (int)syscall(SYS_fchmod, file, mode); }

int rename(const char *from, const char *to) {
    return fails("rename") ? -1 : (int)syscall(SYS_renameat2, -100, from, -100, to, 0);
}
