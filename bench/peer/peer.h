/* What answers debits of bench/peers, and a debit as each of them is asked. */
#ifndef PEER_H
#define PEER_H

#include <stdbool.h>

struct debit {
    long moment; /* seconds since 1970 */
    char account[16];
    char session[96];
    char request[512]; /* its JSON, as a gateway sends it */
    char answer[512];  /* that of ocs, which the others keep beside it */
};

struct peer {
    const char *name;
    /* A connection to the place that the command names; one that fails ends the program. */
    void *(*connect)(const char *place);
    /* Asks for a debit and waits for the answer: whether it was accepted. */
    bool (*debit)(void *connection, const struct debit *debit);
    void (*disconnect)(void *connection);
};

extern const struct peer http_peer, postgres_peer, short_postgres_peer, redis_peer,
    sqlite_full_peer, sqlite_normal_peer, floor_peer;

/* Ends the program with a line on standard error. */
_Noreturn void fail(const char *what, const char *why);
/* A connection to a port of 127.0.0.1 that sends each write at once. */
int tcp_connect(const char *port);

#endif
