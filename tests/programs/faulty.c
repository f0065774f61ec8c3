/* read and write of a bad day, loaded before those of the C library (LD_PRELOAD). The environment says what is wrong:
 *     BYTEWISE=1     a call reads or writes one byte at most
 *     READ_FAILS=N   the N-th read fails (EIO)
 *     WRITE_FAILS=N  the N-th write to standard output fails (ENOSPC), and no other */
#define _GNU_SOURCE
#include <errno.h>
#include <stdlib.h>
#include <sys/syscall.h>
#include <unistd.h>

static long number(const char *name)
{
    const char *text = getenv(name);
    return text ? atol(text) : 0;
}

static size_t at_once(size_t length)
{
    return number("BYTEWISE") && length > 1 ? 1 : length;
}

ssize_t read(int file, void *bytes, size_t length)
{
    static long calls;
    if (++calls == number("READ_FAILS")) {
        errno = EIO;
        return -1;
    }
    return syscall(SYS_read, file, bytes, at_once(length));
}

ssize_t write(int file, const void *bytes, size_t length)
{
    static long calls;
    if (file == STDOUT_FILENO && ++calls == number("WRITE_FAILS")) {
        errno = ENOSPC;
        return -1;
    }
    return syscall(SYS_write, file, bytes, at_once(length));
}
