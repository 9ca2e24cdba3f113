/* Sets the date, and no other clock, of the processes that load this: by so many seconds as the file DATE_OFFSET says.
   The date of a kernel is that of the whole machine, and no namespace has one of its own. */
#define _GNU_SOURCE
#include <fcntl.h>
#include <stdlib.h>
#include <sys/syscall.h>
#include <time.h>
#include <unistd.h>

static long offset(void) {
    char text[32] = "";
    int file = open(DATE_OFFSET, O_RDONLY | O_CLOEXEC);
    if (file < 0)
        return 0;
    long length = read(file, text, sizeof text - 1);
    close(file);
    return length > 0 ? atol(text) : 0;
}

int clock_gettime(clockid_t clock, struct timespec *at) {
    int status = syscall(SYS_clock_gettime, clock, at);
    if (status == 0 && clock == CLOCK_REALTIME)
        at->tv_sec += offset();
    return status;
}
