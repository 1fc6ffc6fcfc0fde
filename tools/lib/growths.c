/* Loaded into a program before the C library (LD_PRELOAD), it counts the program's growths, from 1, and
   refuses some. A growth is a call of malloc, calloc, realloc, aligned_alloc or posix_memalign. The file
   that REFUSALS names has three numbers of 64 bits: the count, and the first and the last growth that is
   refused. Who maps the file as well reads and sets them while the program runs. */
#include <errno.h>
#include <fcntl.h>
#include <stdint.h>
#include <stdlib.h>
#include <sys/mman.h>

void *__libc_malloc(size_t);
void *__libc_calloc(size_t, size_t);
void *__libc_realloc(void *, size_t);
void *__libc_memalign(size_t, size_t);

struct growths { volatile int64_t count, first, last; };
static struct growths *growths;

__attribute__((constructor)) static void map_growths(void) {
    int file = open(getenv("REFUSALS"), O_RDWR);
    void *place = mmap(NULL, sizeof *growths, PROT_READ | PROT_WRITE, MAP_SHARED, file, 0);
    if (place == MAP_FAILED)
        abort();
    growths = place;
}

static int is_refused(void) {
    if (!growths)
        return 0;
    int64_t number = ++growths->count;
    return growths->first <= number && number <= growths->last && (errno = ENOMEM);
}

void *malloc(size_t size) { return is_refused() ? NULL : __libc_malloc(size); }
void *calloc(size_t many, size_t size) { return is_refused() ? NULL : __libc_calloc(many, size); }
void *realloc(void *old, size_t size) { return is_refused() ? NULL : __libc_realloc(old, size); }
void *aligned_alloc(size_t unit, size_t size) { return is_refused() ? NULL : __libc_memalign(unit, size); }

int posix_memalign(void **place, size_t unit, size_t size) {
    void *found = is_refused() ? NULL : __libc_memalign(unit, size);
    if (!found)
        return ENOMEM;
    *place = found;
    return 0;
}
