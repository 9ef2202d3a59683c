/* Preloaded into a program, lets one read of standard input fail, or one write to standard output: the one whose number, from 1, stands in
 * FAIL_READ or FAIL_WRITE. Each read and write takes at most as many bytes as MOST says. Where one fails, it makes the file that FAILED
 * names, so that one can tell a run that asked for fewer.
 *
 *     gcc -O1 -shared -fPIC -o fail_streams.so fail_streams.c
 *     FAIL_READ=2 FAILED=failed MOST=1 LD_PRELOAD=./fail_streams.so PROGRAM ..
 */
#define _GNU_SOURCE
#include <errno.h>
#include <fcntl.h>
#include <stdlib.h>
#include <sys/syscall.h>
#include <unistd.h>

static long reads, writes;

static long number_of(const char *name) {
    const char *number = getenv(name);
    return number ? atol(number) : 0;
}

static int fails(long *calls, const char *name) {
    if (++*calls != number_of(name)) {
        return 0;
    }
    const char *failed = getenv("FAILED");
    if (failed) {
        close(open(failed, O_CREAT | O_WRONLY, 0600));
    }
    return 1;
}

static size_t taken_of(size_t size) {
    long most = number_of("MOST");
    return most > 0 && size > (size_t)most ? (size_t)most : size;
}

ssize_t read(int file, void *bytes, size_t size) {
    if (file != STDIN_FILENO) {
        return syscall(SYS_read, file, bytes, size);
    }
    if (fails(&reads, "FAIL_READ")) {
        errno = EIO;
        return -1;
    }
    return syscall(SYS_read, file, bytes, taken_of(size));
}

ssize_t write(int file, const void *bytes, size_t size) {
    if (file != STDOUT_FILENO) {
        return syscall(SYS_write, file, bytes, size);
    }
    if (fails(&writes, "FAIL_WRITE")) {
        errno = EIO;
        return -1;
    }
    return syscall(SYS_write, file, bytes, taken_of(size));
}
