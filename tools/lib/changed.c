/* The program, changed: it is run with changes.c loaded before the C library, beside what is to be loaded
   already. It is linked by itself, so that nothing is loaded into it. PROGRAM, LIBRARY and CHANGE are
   texts that are defined when it is compiled. */
#define _GNU_SOURCE
#include <stdio.h>
#include <stdlib.h>
#include <unistd.h>

int main(int count, char **words) {
    const char *before = getenv("LD_PRELOAD");
    char *all = NULL;
    (void)count;
    if (asprintf(&all, "%s%s%s", LIBRARY, before ? ":" : "", before ? before : "") < 0)
        return 70;
    setenv("LD_PRELOAD", all, 1);
    setenv("CHANGE", CHANGE, 1);
    execv(PROGRAM, words);
    perror(PROGRAM);
    return 70;
}
