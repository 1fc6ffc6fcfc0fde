/* Loaded into the program before the C library (LD_PRELOAD), it changes one thing that the program does.
   CHANGE names it; tools/repo noticed has the list, and says which tool has to notice which. */
#define _GNU_SOURCE
#include <arpa/inet.h>
#include <ctype.h>
#include <dlfcn.h>
#include <errno.h>
#include <fcntl.h>
#include <stdarg.h>
#include <stdio.h>
#include <stdlib.h>
#include <string.h>
#include <sys/socket.h>
#include <sys/syscall.h>
#include <sys/uio.h>
#include <time.h>
#include <unistd.h>

static char change[32], word[32];
static int is_export;
static int (*next_clock)(clockid_t, struct timespec *);

static int is(const char *name) { return strcmp(change, name) == 0; }

/* ---- words and the exit status */

static void end_otherwise(int status, void *unused) {
    (void)unused;
    _exit(status == 0 ? 1 : status == 1 ? 0 : status);
}

/* The digit before an end, one higher or 1. */
static void raise_last(char *end) { end[-1] = end[-1] == '9' ? '1' : end[-1] + 1; }

static void say_and_end(const char *line) {
    syscall(SYS_write, 2, line, strlen(line));
    _exit(1);
}

__attribute__((constructor)) static void begin(int count, char **words) {
    snprintf(change, sizeof change, "%s", getenv("CHANGE") ? getenv("CHANGE") : "");
    snprintf(word, sizeof word, "%s", count > 1 ? words[1] : "");
    is_export = count > 1 && strcmp(words[count - 1], "--csv") == 0;
    next_clock = (int (*)(clockid_t, struct timespec *))dlsym(RTLD_NEXT, "clock_gettime");
    if (is("another-status"))
        on_exit(end_otherwise, NULL);
    if (is("another-row") && count > 4 && strcmp(word, "credit") == 0)
        raise_last(words[4] + strlen(words[4]));
    if (is("always-out-of-memory"))
        say_and_end("ocs: memory fault\n");
    if (is("always-a-file-fault"))
        say_and_end("ocs: file fault\n");
}

/* ---- what is written on standard output: line by line, where lines are changed */

static char *line;
static size_t held, room;
static long lines, charges;

/* A digit behind a text in the line that is held becomes another one. */
static void turn_behind(const char *text) {
    char *found = memmem(line, held, text, strlen(text));
    char *end = line + held;
    if (!found)
        return;
    for (found += strlen(text); found < end && !isdigit(*found); found++)
        ;
    for (; found + 1 < end && isdigit(found[1]); found++)
        ;
    if (found < end)
        *found = *found == '9' ? '1' : *found + 1;
}

/* The digits behind a text become those of the most, where they are more and as many. */
static void lower_behind(const char *text, const char *most) {
    char *found = memmem(line, held, text, strlen(text));
    size_t digits = 0;
    if (!found)
        return;
    found += strlen(text);
    while (isdigit(found[digits]))
        digits++;
    if (digits == strlen(most) && memcmp(found, most, digits) > 0)
        memcpy(found, most, digits);
}

/* Changes the line that is held; whether it is printed. */
static int is_printed(void) {
    lines++;
    if (is("line-501") && lines > 500)
        turn_behind("\"Validity-Time\":");
    if (is("bucket-101"))
        lower_behind("\"Bucket\":", "100");
    if (is("voucher-21") && strcmp(word, "import") == 0)
        lower_behind("new ", "20");
    if (is("record-51") && is_export)
        return lines <= 51;
    if (is("charge-101") && strcmp(word, "statement") == 0 && !is_export && charges >= 0) {
        charges = held > 6 && memcmp(line, "TOTAL ", 6) == 0 ? -1 : charges + 1;
        return charges <= 102;
    }
    return 1;
}

static int changes_lines(void) {
    return is("line-501") || is("bucket-101") || is("voucher-21") || is("record-51") || is("charge-101");
}

static void write_line(void) {
    if (held && is_printed())
        syscall(SYS_write, 1, line, held);
    held = 0;
}

static void hold(const char *from, size_t count) {
    for (size_t at = 0; at < count; at++) {
        if (held == room)
            line = realloc(line, room = 2 * room + 4096);
        line[held++] = from[at];
        if (from[at] == '\n')
            write_line();
    }
}

__attribute__((destructor)) static void write_rest(void) { write_line(); }

/* Whether the byte of an answer with 2001 is turned: of the first, or of each third. */
static int is_turned(void) {
    static int answers;
    return is("another-byte") ? answers++ == 0 : is("wandering-byte") && answers++ % 3 == getpid() % 3;
}

/* What is written in place of some bytes: an answer whose byte is turned, or a line of faults whose last
   letter or digit is. */
static const void *turned(int file, const char *from, size_t count) {
    static char copy[1 << 16];
    const char *found = file == 2 ? NULL : memmem(from, count, "\"Result-Code\":2001", 18);
    found = found && is_turned() ? found + 17 : NULL;
    if (is("another-fault") && file == 2 && count > 1)
        found = from + count - (from[count - 1] == '\n' ? 2 : 1);
    if (!found || count > sizeof copy)
        return from;
    memcpy(copy, from, count);
    copy[found - from] = *found == '3' || *found == 't' ? *found - 1 : *found + 1;
    return copy;
}

/* ---- a commit that is late: the byte that makes it valid is written when more has been read */

static struct { int file; char byte; off_t at; } late = {-1, 0, 0};

static void write_late(void) {
    if (late.file >= 0)
        syscall(SYS_pwrite64, late.file, &late.byte, 1, late.at);
    late.file = -1;
}

int close(int file) {
    if (file == late.file)
        write_late();
    return syscall(SYS_close, file);
}

/* ---- calls */

ssize_t write(int file, const void *from, size_t count) {
    ssize_t done;
    if (file == 1 && changes_lines()) {
        hold(from, count);
        return count;
    }
    done = syscall(SYS_write, file, turned(file, from, count), count);
    return done < 0 && file == 1 && is("unseen-failure") ? (ssize_t)count : done;
}

ssize_t send(int file, const void *from, size_t count, int flags) {
    return syscall(SYS_sendto, file, turned(file, from, count), count, flags, NULL, 0);
}

static ssize_t taken(ssize_t count, char *from) {
    char *found = count > 0 && is("another-row") ? memmem(from, count, "\"Amount\":", 9) : NULL;
    write_late();
    if (count < 0 && errno == EINTR && is("interrupted-end"))
        return 0;
    if (!found)
        return count;
    for (found += 9; found < from + count && isdigit(*found); found++)
        ;
    raise_last(found);
    return count;
}

ssize_t recv(int file, void *place, size_t room, int flags) {
    return taken(syscall(SYS_recvfrom, file, place, room, flags, NULL, NULL), place);
}

ssize_t read(int file, void *place, size_t room) {
    ssize_t count = syscall(SYS_read, file, place, room);
    write_late();
    return count < 0 && errno == EINTR && is("interrupted-end") ? 0 : count;
}

ssize_t pread64(int file, void *place, size_t count, off64_t at) {
    write_late();
    return syscall(SYS_pread64, file, place, count, at);
}

ssize_t pread(int file, void *place, size_t count, off_t at) { return pread64(file, place, count, at); }

ssize_t pwrite64(int file, const void *from, size_t count, off64_t at) {
    if (is("late-commit") && count == 1) {
        write_late();
        late.file = file;
        late.byte = *(const char *)from;
        late.at = at;
        return 1;
    }
    return syscall(SYS_pwrite64, file, from, count, at);
}

ssize_t pwrite(int file, const void *from, size_t count, off_t at) { return pwrite64(file, from, count, at); }

/* Some millions of instructions, of which nobody sees anything. */
static void dawdle(void) {
    for (volatile long at = 0; at < 1000000; at++)
        continue;
}

int fdatasync(int file) {
    if (is("more-instructions"))
        dawdle();
    return is("no-sync") ? 0 : syscall(SYS_fdatasync, file);
}
int fsync(int file) { return is("no-sync") ? 0 : syscall(SYS_fsync, file); }

int clock_gettime(clockid_t clock, struct timespec *now) {
    static struct timespec first;
    int failed = next_clock ? next_clock(clock, now) : (int)syscall(SYS_clock_gettime, clock, now);
    if (clock != CLOCK_REALTIME || !is("clock-stops"))
        return failed;
    if (first.tv_sec == 0)
        first = *now;
    *now = first;
    return failed;
}

int setsockopt(int file, int level, int name, const void *value, socklen_t size) {
    if (is("no-time-outs") && level == SOL_SOCKET && (name == SO_RCVTIMEO || name == SO_SNDTIMEO))
        return 0;
    return syscall(SYS_setsockopt, file, level, name, value, size);
}

int bind(int file, const struct sockaddr *address, socklen_t size) {
    struct sockaddr_in any;
    if (is("every-address") && address->sa_family == AF_INET && size == sizeof any) {
        memcpy(&any, address, size);
        any.sin_addr.s_addr = htonl(INADDR_ANY);
        address = (const struct sockaddr *)&any;
    }
    return syscall(SYS_bind, file, address, size);
}

int fcntl64(int file, int command, ...) {
    va_list more;
    va_start(more, command);
    void *value = va_arg(more, void *);
    va_end(more);
    return command == F_OFD_SETLK && is("no-lock") ? 0 : (int)syscall(SYS_fcntl, file, command, value);
}

int fcntl(int file, int command, ...) {
    va_list more;
    va_start(more, command);
    void *value = va_arg(more, void *);
    va_end(more);
    return fcntl64(file, command, value);
}
