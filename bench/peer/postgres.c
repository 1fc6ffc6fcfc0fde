/* PostgreSQL by libpq: one prepared call of the function `debit` (postgres.sql), or one statement
   that takes the amount from the first bucket and keeps a row. */
#include "peer.h"

#include <libpq-fe.h>
#include <stdio.h>
#include <stdlib.h>
#include <string.h>

static const char function_call[] = "SELECT debit($1, $2, $3, $4, $5)";
static const char one_statement[] =
    "WITH paid AS (UPDATE buckets SET available = available - 90000, charged = charged + 90000"
    " WHERE account = $1 AND number = 1 AND available >= 90000 RETURNING account)"
    " INSERT INTO debits SELECT account, $2, $3, 90000, $4, $5 FROM paid RETURNING answer";

static void *prepare(const char *words, const char *text) {
    PGconn *base = PQconnectdb(words);
    if (PQstatus(base) != CONNECTION_OK)
        fail("postgres", PQerrorMessage(base));
    PGresult *made = PQprepare(base, "debit", text, 5, NULL);
    if (PQresultStatus(made) != PGRES_COMMAND_OK)
        fail("postgres", PQerrorMessage(base));
    PQclear(made);
    return base;
}

static void *function_connect(const char *words) { return prepare(words, function_call); }

static void *statement_connect(const char *words) { return prepare(words, one_statement); }

static bool postgres_debit(void *connection, const struct debit *debit) {
    char moment[24];
    snprintf(moment, sizeof moment, "%ld", debit->moment);
    const char *values[] = {debit->account, debit->session, moment, debit->request, debit->answer};
    PGresult *got = PQexecPrepared(connection, "debit", 5, values, NULL, NULL, 0);
    bool is_accepted = PQresultStatus(got) == PGRES_TUPLES_OK && PQntuples(got) == 1 &&
                       !strcmp(PQgetvalue(got, 0, 0), debit->answer);
    if (!is_accepted)
        fprintf(stderr, "debits: postgres: %s\n", PQerrorMessage(connection));
    PQclear(got);
    return is_accepted;
}

static void postgres_disconnect(void *connection) { PQfinish(connection); }

const struct peer postgres_peer = {"postgres", function_connect, postgres_debit,
                                   postgres_disconnect};
const struct peer short_postgres_peer = {"postgres-short", statement_connect, postgres_debit,
                                         postgres_disconnect};
