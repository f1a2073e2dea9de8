/* Stands in front of the C library's read (LD_PRELOAD) for tools/test-program: every second call is interrupted by a signal, the others give at
   most 1,000 bytes, and the call of the number FAIL_AT, if it is set, fails. */
#include <errno.h>
#include <stdlib.h>
#include <sys/syscall.h>
#include <sys/types.h>
#include <unistd.h>

long syscall(long number, ...);

ssize_t read(int fd, void *buffer, size_t n) {
    static unsigned long calls;
    const char *fail_at = getenv("FAIL_AT");
    calls++;
    if (fail_at && calls == strtoul(fail_at, 0, 10)) {
        errno = EIO;
        return -1;
    }
    if (calls % 2 == 0) {
        errno = EINTR;
        return -1;
    }
    return syscall(SYS_read, fd, buffer, n < 1000 ? n : 1000);
}
