/* Loaded into a program before the C library (LD_PRELOAD), it shows the program another time, and fails
   calls that write or sync its files. The file that MOVING names has five numbers of 64 bits: the seconds
   since 1970 that CLOCK_REALTIME shows; how many writes, and how many syncs, are done before one fails,
   none if it is below 0; whether each one after it fails too; and how many have failed. Who maps the file
   as well reads and sets them while the program runs. */
#define _GNU_SOURCE
#include <errno.h>
#include <fcntl.h>
#include <stdint.h>
#include <stdlib.h>
#include <sys/mman.h>
#include <sys/syscall.h>
#include <sys/types.h>
#include <time.h>
#include <unistd.h>

struct moving { volatile int64_t seconds, writes, syncs, lasts, failed; };
static struct moving *moving;

__attribute__((constructor)) static void map_numbers(void) {
    const char *path = getenv("MOVING");
    int file = path ? open(path, O_RDWR | O_CLOEXEC) : -1;
    void *place = mmap(NULL, sizeof *moving, PROT_READ | PROT_WRITE, MAP_SHARED, file, 0);
    if (place == MAP_FAILED)
        abort();
    close(file);
    moving = place;
}

/* Whether a call fails, of those that are left to be done before one does. */
static int fails(volatile int64_t *left) {
    int is_after = moving->lasts && moving->failed;
    if (!is_after && (*left < 0 || (*left)-- > 0))
        return 0;
    moving->failed++;
    errno = EIO;
    return 1;
}

int clock_gettime(clockid_t clock, struct timespec *now) {
    if (clock != CLOCK_REALTIME)
        return syscall(SYS_clock_gettime, clock, now);
    *now = (struct timespec){.tv_sec = moving->seconds};
    return 0;
}

ssize_t pwrite64(int file, const void *from, size_t count, off64_t at) {
    return fails(&moving->writes) ? -1 : syscall(SYS_pwrite64, file, from, count, at);
}

ssize_t pwrite(int file, const void *from, size_t count, off_t at) { return pwrite64(file, from, count, at); }
int fdatasync(int file) { return fails(&moving->syncs) ? -1 : syscall(SYS_fdatasync, file); }
int fsync(int file) { return fails(&moving->syncs) ? -1 : syscall(SYS_fsync, file); }
