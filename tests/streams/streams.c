/* A test's streams: standard input is read and standard output written a few bytes at a time, and the call that
   READ_FAULT or WRITE_FAULT counts to, from 1, fails with the error that ERROR names by its number; then the file
   that FAILED names is made. After that one the others fail too, unless it was an interruption. Loaded before the C
   library. */
#define _GNU_SOURCE
#include <errno.h>
#include <fcntl.h>
#include <stdlib.h>
#include <sys/syscall.h>
#include <unistd.h>

enum { PIECE = 37 };

static int fails(const char *which, long seen) {
    const char *at = getenv(which);
    const int error = at ? atoi(getenv("ERROR")) : 0;
    if (!at || seen < atol(at) || (error == EINTR && seen > atol(at))) return 0;
    close(open(getenv("FAILED"), O_CREAT | O_WRONLY, 0600));
    errno = error;
    return 1;
}

ssize_t read(int file, void *bytes, size_t size) {
    static long seen;
    if (file != 0) return syscall(SYS_read, file, bytes, size);
    if (fails("READ_FAULT", ++seen)) return -1;
    return syscall(SYS_read, file, bytes, size < PIECE ? size : PIECE);
}

ssize_t write(int file, const void *bytes, size_t size) {
    static long seen;
    if (file != 1) return syscall(SYS_write, file, bytes, size);
    if (fails("WRITE_FAULT", ++seen)) return -1;
    return syscall(SYS_write, file, bytes, size < PIECE ? size : PIECE);
}
