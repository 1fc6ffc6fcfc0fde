/* The floor: each debit writes bytes behind those before and has them synced, nothing else. The
   place is the number of bytes, a space and the file; clients share it, so one sync may serve
   several. */
#define _GNU_SOURCE
#include "peer.h"

#include <errno.h>
#include <fcntl.h>
#include <stdatomic.h>
#include <stdio.h>
#include <stdlib.h>
#include <string.h>
#include <unistd.h>

struct floor {
    int file;
    size_t size;
    char *bytes;
};

static atomic_llong written;

static void *floor_connect(const char *place) {
    struct floor *floor = malloc(sizeof *floor);
    char *name;
    if (!floor)
        fail("memory", strerror(errno));
    floor->size = strtoul(place, &name, 10);
    floor->bytes = calloc(1, floor->size);
    floor->file = open(name + 1, O_CREAT | O_WRONLY, 0600);
    if (!floor->size || !floor->bytes || floor->file < 0)
        fail(place, strerror(errno));
    return floor;
}

static bool floor_debit(void *connection, const struct debit *debit) {
    const struct floor *floor = connection;
    off_t begin = atomic_fetch_add(&written, (long long)floor->size);
    (void)debit;
    return pwrite(floor->file, floor->bytes, floor->size, begin) == (ssize_t)floor->size &&
           !fdatasync(floor->file);
}

static void floor_disconnect(void *connection) {
    struct floor *floor = connection;
    close(floor->file);
    free(floor->bytes);
    free(floor);
}

const struct peer floor_peer = {"floor", floor_connect, floor_debit, floor_disconnect};
