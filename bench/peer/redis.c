/* Redis by its own protocol: EVALSHA of the script redis.lua. The place is the port, a space and
   the script's digest. */
#include "peer.h"

#include <errno.h>
#include <stdarg.h>
#include <stdio.h>
#include <stdlib.h>
#include <string.h>
#include <sys/socket.h>
#include <unistd.h>

struct redis {
    int socket;
    char digest[64];
};

static void *redis_connect(const char *place) {
    struct redis *redis = malloc(sizeof *redis);
    char port[8];
    if (!redis)
        fail("memory", strerror(errno));
    if (sscanf(place, "%7s %63s", port, redis->digest) != 2)
        fail("redis", "the place is no port with a digest");
    redis->socket = tcp_connect(port);
    return redis;
}

/* Writes a list of texts, which a null ends, as a command of the protocol: its length. */
static size_t write_command(char *command, size_t room, const char *const *words) {
    size_t count = 0, size;
    while (words[count])
        count++;
    size = (size_t)snprintf(command, room, "*%zu\r\n", count);
    for (size_t at = 0; at < count; at++)
        size += (size_t)snprintf(command + size, room - size, "$%zu\r\n%s\r\n", strlen(words[at]),
                                 words[at]);
    return size;
}

/* Reads an answer that is one text: whether it came, and is this one. */
static bool is_answered(int peer, const char *wanted) {
    char text[2048];
    size_t filled = 0;
    for (;;) {
        ssize_t got = recv(peer, text + filled, sizeof text - 1 - filled, 0);
        if (got <= 0)
            return false;
        filled += (size_t)got;
        text[filled] = '\0';
        char *line = strstr(text, "\r\n");
        if (!line)
            continue;
        if (text[0] != '$') {
            fprintf(stderr, "debits: redis: %s", text);
            return false;
        }
        size_t size = strtoul(text + 1, NULL, 10), begin = (size_t)(line - text) + 2;
        if (filled >= begin + size + 2)
            return size == strlen(wanted) && !memcmp(text + begin, wanted, size);
    }
}

static bool redis_debit(void *connection, const struct debit *debit) {
    struct redis *redis = connection;
    char answer[160], account[32], charges[32], moment[24], command[4096];
    snprintf(answer, sizeof answer, "answer:%s:%s", debit->account, debit->session);
    snprintf(account, sizeof account, "account:%s", debit->account);
    snprintf(charges, sizeof charges, "charges:%s", debit->account);
    snprintf(moment, sizeof moment, "%ld", debit->moment);
    const char *const words[] = {"EVALSHA", redis->digest,  "3",           answer,
                                 account,   charges,        moment,        debit->session,
                                 "90000",   debit->request, debit->answer, NULL};
    size_t size = write_command(command, sizeof command, words);
    return send(redis->socket, command, size, MSG_NOSIGNAL) == (ssize_t)size &&
           is_answered(redis->socket, debit->answer);
}

static void redis_disconnect(void *connection) {
    struct redis *redis = connection;
    close(redis->socket);
    free(redis);
}

const struct peer redis_peer = {"redis", redis_connect, redis_debit, redis_disconnect};
