/* ocs, or what stands before it: a request of RFC 8506 in JSON by POST /ccr. */
#define _GNU_SOURCE
#include "peer.h"

#include <arpa/inet.h>
#include <errno.h>
#include <netinet/tcp.h>
#include <stdio.h>
#include <stdlib.h>
#include <string.h>
#include <sys/socket.h>
#include <unistd.h>

struct http {
    int socket;
    const char *port;
};

int tcp_connect(const char *port) {
    int peer = socket(AF_INET, SOCK_STREAM, 0), yes = 1;
    struct sockaddr_in address = {.sin_family = AF_INET,
                                  .sin_port = htons((unsigned short)atoi(port)),
                                  .sin_addr.s_addr = htonl(INADDR_LOOPBACK)};
    if (peer < 0 || connect(peer, (struct sockaddr *)&address, sizeof address))
        fail(port, strerror(errno));
    setsockopt(peer, IPPROTO_TCP, TCP_NODELAY, &yes, sizeof yes);
    return peer;
}

static void *http_connect(const char *port) {
    struct http *http = malloc(sizeof *http);
    if (!http)
        fail("memory", strerror(errno));
    *http = (struct http){.socket = tcp_connect(port), .port = port};
    return http;
}

/* Reads an answer with its body into a text: whether it came whole. */
static bool read_answer(int peer, char *text, size_t room) {
    size_t filled = 0, whole = 0;
    while (!whole || filled < whole) {
        ssize_t got = recv(peer, text + filled, room - 1 - filled, 0);
        if (got <= 0)
            return false;
        filled += (size_t)got;
        text[filled] = '\0';
        char *end = strstr(text, "\r\n\r\n");
        if (!whole && end) {
            char *length = strcasestr(text, "content-length:");
            whole = (size_t)(end - text) + 4 + (length ? strtoul(length + 15, NULL, 10) : 0);
        }
    }
    return true;
}

static bool http_debit(void *connection, const struct debit *debit) {
    struct http *http = connection;
    char text[4096];
    int size =
        snprintf(text, sizeof text,
                 "POST /ccr HTTP/1.1\r\nHost: 127.0.0.1:%s\r\nContent-Type: application/json\r\n"
                 "Content-Length: %zu\r\n\r\n%s",
                 http->port, strlen(debit->request), debit->request);
    bool is_whole = send(http->socket, text, (size_t)size, MSG_NOSIGNAL) == size &&
                    read_answer(http->socket, text, sizeof text);
    bool is_accepted = is_whole && !strncmp(text + 9, "200", 3) &&
                       strstr(text, "\"Result-Code\":2001,\"Session-Id\"");
    if (!is_whole || strcasestr(text, "connection: close")) {
        close(http->socket);
        http->socket = tcp_connect(http->port);
    }
    return is_accepted;
}

static void http_disconnect(void *connection) {
    struct http *http = connection;
    close(http->socket);
    free(http);
}

const struct peer http_peer = {"http", http_connect, http_debit, http_disconnect};
