/* Loaded into a program before the C library (LD_PRELOAD), it makes the program's monotonic clock go
   FASTER times as fast, so that what the program counts as minutes takes seconds. Sleeps and the
   time-outs of sockets are the system's and stay as they are. */
#include <stdint.h>
#include <sys/syscall.h>
#include <time.h>
#include <unistd.h>

enum { SECOND = 1000000000 };

int clock_gettime(clockid_t clock, struct timespec *moment) {
    int failed = syscall(SYS_clock_gettime, clock, moment);
    if (failed || clock != CLOCK_MONOTONIC)
        return failed;
    int64_t nanoseconds = FASTER * (moment->tv_sec * (int64_t)SECOND + moment->tv_nsec);
    moment->tv_sec = nanoseconds / SECOND;
    moment->tv_nsec = nanoseconds % SECOND;
    return 0;
}
