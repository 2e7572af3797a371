/* The first write to standard output fails, and the others go through, as on a disk that is full and then is not. */
#define _GNU_SOURCE
#include <errno.h>
#include <sys/syscall.h>
#include <unistd.h>

ssize_t write(int descriptor, const void *bytes, size_t count) {
    static int failed;
    if (descriptor == STDOUT_FILENO && !failed) {
        failed = 1;
        errno = EIO;
        return -1;
    }
    return syscall(SYS_write, descriptor, bytes, count);
}
