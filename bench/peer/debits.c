/* Asks debits of a peer by several clients at once, and says how long each took.

       debits PEER PLACE CLIENTS DEBITS ACCOUNTS TAG

   Each client is a thread with a connection and accounts of its own, and asks for a debit once the
   one before is answered; DEBITS are each client's. PLACE is what the peer's connection takes: a
   port, a file, or words of libpq.

   Prints "ready" when all are connected, and begins when a line comes. Then it prints debits a
   second, the microseconds within which 50 and 99 of a hundred were answered and those of the
   slowest, and how many weren't accepted. It stays connected until standard input ends. */
#define _GNU_SOURCE
#include "peer.h"

#include <errno.h>
#include <pthread.h>
#include <stdio.h>
#include <stdlib.h>
#include <string.h>
#include <time.h>

enum { FIRST_ACCOUNT = 49000000 };

struct client {
    pthread_t thread;
    int number;
    int failed;
    double *microseconds; /* of each of its debits */
};

static const struct peer *const peers[] = {&http_peer,  &postgres_peer,    &short_postgres_peer,
                                           &redis_peer, &sqlite_full_peer, &sqlite_normal_peer,
                                           &floor_peer};

static struct {
    const struct peer *peer;
    const char *place, *tag;
    int clients, debits, accounts;
} asked;

/* All clients and the main thread meet when all are connected, when a line has come, when all
   debits are answered, and when all may go. */
static pthread_barrier_t meeting;

_Noreturn void fail(const char *what, const char *why) {
    fprintf(stderr, "debits: %s: %s\n", what, why);
    exit(1);
}

static double now(void) {
    struct timespec moment;
    clock_gettime(CLOCK_MONOTONIC, &moment);
    return (double)moment.tv_sec * 1e6 + (double)moment.tv_nsec / 1e3;
}

static void make_debit(struct debit *debit, int client, int place) {
    int share = asked.accounts / asked.clients;
    int account = FIRST_ACCOUNT + client * share + place % share;
    debit->moment = (long)time(NULL);
    snprintf(debit->account, sizeof debit->account, "%d", account);
    snprintf(debit->session, sizeof debit->session, "%s-%d-%d", asked.tag, client, place);
    snprintf(debit->request, sizeof debit->request,
             "{\"CC-Request-Number\":0,\"CC-Request-Type\":4,\"Multiple-Services-Credit-Control\":"
             "[{\"Rating-Group\":30,\"Requested-Service-Unit\":{\"CC-Service-Specific-Units\":1}}],"
             "\"Requested-Action\":0,\"Session-Id\":\"%s\",\"Subscription-Id\":"
             "{\"Subscription-Id-Data\":\"%d\",\"Subscription-Id-Type\":0}}",
             debit->session, account);
    snprintf(debit->answer, sizeof debit->answer,
             "{\"CC-Request-Number\":0,\"CC-Request-Type\":4,\"Multiple-Services-Credit-Control\":"
             "[{\"Granted-Service-Unit\":{\"CC-Service-Specific-Units\":1},\"Rating-Group\":30,"
             "\"Result-Code\":2001}],\"Result-Code\":2001,\"Session-Id\":\"%s\"}",
             debit->session);
}

static void *run_client(void *word) {
    struct client *client = word;
    struct debit debit;
    void *connection = asked.peer->connect(asked.place);

    pthread_barrier_wait(&meeting);
    pthread_barrier_wait(&meeting);
    for (int place = 0; place < asked.debits; place++) {
        make_debit(&debit, client->number, place);
        double begun = now();
        if (!asked.peer->debit(connection, &debit))
            client->failed++;
        client->microseconds[place] = now() - begun;
    }
    pthread_barrier_wait(&meeting);
    pthread_barrier_wait(&meeting);
    asked.peer->disconnect(connection);
    return NULL;
}

static int by_size(const void *one, const void *other) {
    double a = *(const double *)one, b = *(const double *)other;
    return (a > b) - (a < b);
}

static void print_result(const struct client *clients, double *microseconds, double elapsed) {
    size_t all = (size_t)asked.clients * (size_t)asked.debits;
    int failed = 0;

    for (int at = 0; at < asked.clients; at++)
        failed += clients[at].failed;
    qsort(microseconds, all, sizeof *microseconds, by_size);
    printf("%.1f %.0f %.0f %.0f %d\n", (double)all / elapsed * 1e6, microseconds[all / 2],
           microseconds[all - 1 - all / 100], microseconds[all - 1], failed);
    fflush(stdout);
}

static void run(void) {
    size_t all = (size_t)asked.clients * (size_t)asked.debits;
    struct client *clients = calloc((size_t)asked.clients, sizeof *clients);
    double *microseconds = calloc(all, sizeof *microseconds);

    if (!clients || !microseconds)
        fail("memory", strerror(errno));
    pthread_barrier_init(&meeting, NULL, (unsigned)asked.clients + 1);
    for (int at = 0; at < asked.clients; at++) {
        clients[at].number = at;
        clients[at].microseconds = microseconds + (size_t)at * (size_t)asked.debits;
        if (pthread_create(&clients[at].thread, NULL, run_client, &clients[at]))
            fail("thread", strerror(errno));
    }
    pthread_barrier_wait(&meeting);
    puts("ready");
    fflush(stdout);
    if (getchar() == EOF)
        exit(1);
    double begun = now();
    pthread_barrier_wait(&meeting);
    pthread_barrier_wait(&meeting);
    print_result(clients, microseconds, now() - begun);
    while (getchar() != EOF)
        continue;
    pthread_barrier_wait(&meeting);
    for (int at = 0; at < asked.clients; at++)
        pthread_join(clients[at].thread, NULL);
    free(microseconds);
    free(clients);
}

int main(int count, char **words) {
    if (count != 7) {
        fputs("debits PEER PLACE CLIENTS DEBITS ACCOUNTS TAG\n", stderr);
        return 2;
    }
    for (size_t at = 0; at < sizeof peers / sizeof *peers; at++)
        if (!strcmp(peers[at]->name, words[1]))
            asked.peer = peers[at];
    asked.place = words[2], asked.tag = words[6];
    asked.clients = atoi(words[3]), asked.debits = atoi(words[4]), asked.accounts = atoi(words[5]);
    if (!asked.peer || asked.clients < 1 || asked.debits < 1 || asked.accounts < asked.clients)
        fail("words", "no such peer, or a number is out of range");
    run();
    return 0;
}
