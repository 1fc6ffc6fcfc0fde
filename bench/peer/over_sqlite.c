/* SQLite within the process, over a database of ocs: the statements of a debit as ocs asks them, in
   a transaction each. SQLite has one writer, so the clients take turns at one connection. */
#include "peer.h"

#include <pthread.h>
#include <sqlite3.h>
#include <stdio.h>
#include <stdlib.h>

enum statement {
    ANSWER,
    SESSION,
    HEAD,
    BUCKETS,
    OPEN_SESSIONS,
    PUT_MOMENT,
    PUT_HEAD,
    PUT_BUCKET,
    PUT_COUNTER,
    ADD_COUNTER,
    ADD_SESSION,
    ADD_GROUP,
    ADD_CHARGE,
    ADD_ANSWER,
    BEGIN,
    COMMIT,
    STATEMENTS
};

#define LIVE_COLUMNS                                                                               \
    "SELECT number, starts, ends, scope, credited, available, reserved, charged, expired,"         \
    " EXISTS (SELECT 1 FROM allowance_buckets WHERE allowance_buckets.account = buckets.account"   \
    " AND allowance_buckets.number = buckets.number) AS counts_blocks FROM buckets WHERE account " \
    "= ?1 "

static const char *const texts[STATEMENTS] = {
    [ANSWER] = "SELECT content, answer FROM answers WHERE account = ?1 AND kind = 1 AND name = ?2 "
               "AND number = 0",
    [SESSION] = "SELECT session, last_number, touched, state FROM sessions WHERE account = ?1 AND "
                "session = ?2",
    [HEAD] = "SELECT 0, barred, as_of, next_bucket, next_charge FROM accounts WHERE account = ?1"
             " UNION ALL SELECT 1, rating_group, cycle, blocks, 0 FROM counters WHERE account = ?1 "
             "AND cycle = ?2"
             " UNION ALL SELECT 2, rating_group, cycle, blocks, 0 FROM counters WHERE account = ?1 "
             "AND cycle = ?3"
             " UNION ALL SELECT 3, rating_group, cycle, blocks, 0 FROM counters WHERE account = ?1 "
             "AND cycle = ?4"
             " ORDER BY 1, 2",
    [BUCKETS] = LIVE_COLUMNS "AND available >= 1 UNION ALL " LIVE_COLUMNS
                             "AND available = 0 AND reserved >= 1 ORDER BY ends, number",
    [OPEN_SESSIONS] = "SELECT session, last_number, touched, state FROM sessions"
                      " WHERE account = ?1 AND state = 1 ORDER BY session",
    [PUT_MOMENT] = "UPDATE meta SET last_moment = ?1 WHERE id = 1",
    [PUT_HEAD] = "UPDATE accounts SET account = ?1, barred = ?2, as_of = ?3, next_bucket = ?4, "
                 "next_charge = ?5"
                 " WHERE account = ?1",
    [PUT_BUCKET] =
        "UPDATE buckets SET account = ?1, number = ?2, starts = ?3, ends = ?4, scope = ?5,"
        " credited = ?6, available = ?7, reserved = ?8, charged = ?9, expired = ?10"
        " WHERE account = ?1 AND number = ?2",
    [PUT_COUNTER] = "UPDATE counters SET account = ?1, rating_group = ?2, cycle = ?3, blocks = ?4"
                    " WHERE account = ?1 AND rating_group = ?2 AND cycle = ?3",
    [ADD_COUNTER] = "INSERT INTO counters VALUES (?1, ?2, ?3, ?4)",
    [ADD_SESSION] = "INSERT INTO sessions VALUES (?1, ?2, 0, ?3, 3)",
    [ADD_GROUP] = "INSERT INTO session_groups VALUES (?1, ?2, 30, 1, 0, NULL, NULL)",
    [ADD_CHARGE] = "INSERT INTO charges VALUES (?1, ?2, ?3, ?4, 30, 1, 90000, 90000, 0)"
                   " ON CONFLICT (account, number) DO NOTHING",
    [ADD_ANSWER] = "INSERT INTO answers VALUES (?1, 1, ?2, 0, ?3, ?4)",
    [BEGIN] = "BEGIN IMMEDIATE",
    [COMMIT] = "COMMIT",
};

/* The columns of a bucket, of a head and of a counter, as the selections have them. */
enum { NUMBER, STARTS, ENDS, SCOPE, CREDITED, AVAILABLE, RESERVED, CHARGED, EXPIRED, COLUMNS };
enum { PART, BARRED, AS_OF, NEXT_BUCKET, NEXT_CHARGE };
enum { RATING_GROUP = 1, CYCLE, BLOCKS };
enum { PRICE = 90000, GROUP = 30, DAY = 86400, MONTH = 684 };

struct account {
    sqlite3_int64 barred, next_bucket, next_charge, blocks;
    sqlite3_int64 bucket[COLUMNS];
};

static pthread_mutex_t turn = PTHREAD_MUTEX_INITIALIZER;
static sqlite3 *database;
static sqlite3_stmt *statements[STATEMENTS];
static int connections;
static long last_moment;

static void require(int code) {
    if (code != SQLITE_OK && code != SQLITE_ROW && code != SQLITE_DONE)
        fail("sqlite", sqlite3_errmsg(database));
}

static void open_database(const char *file, const char *synchronous) {
    char pragmas[256];
    snprintf(
        pragmas, sizeof pragmas,
        "PRAGMA journal_mode = WAL; PRAGMA synchronous = %s; PRAGMA wal_autocheckpoint = 16000;"
        "PRAGMA cache_size = 4000; PRAGMA foreign_keys = ON",
        synchronous);
    require(sqlite3_open_v2(file, &database, SQLITE_OPEN_READWRITE | SQLITE_OPEN_NOMUTEX, NULL));
    require(sqlite3_exec(database, pragmas, NULL, NULL, NULL));
    for (int at = 0; at < STATEMENTS; at++)
        require(sqlite3_prepare_v3(database, texts[at], -1, SQLITE_PREPARE_PERSISTENT,
                                   &statements[at], NULL));
}

static void *connect_to(const char *file, const char *synchronous) {
    pthread_mutex_lock(&turn);
    if (connections++ == 0)
        open_database(file, synchronous);
    pthread_mutex_unlock(&turn);
    return database;
}

static void *full_connect(const char *file) { return connect_to(file, "FULL"); }

static void *normal_connect(const char *file) { return connect_to(file, "NORMAL"); }

static void sqlite_disconnect(void *connection) {
    (void)connection;
    pthread_mutex_lock(&turn);
    if (--connections == 0) {
        for (int at = 0; at < STATEMENTS; at++)
            sqlite3_finalize(statements[at]);
        require(sqlite3_close(database));
    }
    pthread_mutex_unlock(&turn);
}

static sqlite3_stmt *with_text(enum statement which, int place, const char *text) {
    require(sqlite3_bind_text(statements[which], place, text, -1, SQLITE_STATIC));
    return statements[which];
}

static void bind(enum statement which, int place, sqlite3_int64 number) {
    require(sqlite3_bind_int64(statements[which], place, number));
}

/* Runs a statement to its next row: whether there is one. */
static bool step(enum statement which) {
    int code = sqlite3_step(statements[which]);
    require(code);
    return code == SQLITE_ROW;
}

/* Runs a statement to its end: how many rows it found. */
static int run(enum statement which) {
    int rows = 0;
    while (step(which))
        rows++;
    require(sqlite3_reset(statements[which]));
    return rows;
}

static bool read_account(struct account *account, const struct debit *debit) {
    sqlite3_stmt *head = with_text(HEAD, 1, debit->account),
                 *buckets = with_text(BUCKETS, 1, debit->account);
    bool is_there = false, is_paid = false;

    bind(HEAD, 2, 0);
    bind(HEAD, 3, debit->moment / DAY + 1);
    bind(HEAD, 4, MONTH);
    while (step(HEAD)) {
        if (sqlite3_column_int(head, PART) == 0) {
            is_there = true;
            account->barred = sqlite3_column_int64(head, BARRED);
            account->next_bucket = sqlite3_column_int64(head, NEXT_BUCKET);
            account->next_charge = sqlite3_column_int64(head, NEXT_CHARGE);
        } else if (sqlite3_column_int(head, PART) == 1 &&
                   sqlite3_column_int(head, RATING_GROUP) == GROUP)
            account->blocks = sqlite3_column_int64(head, BLOCKS);
    }
    require(sqlite3_reset(head));
    while (step(BUCKETS)) {
        if (is_paid || sqlite3_column_int64(buckets, AVAILABLE) < PRICE)
            continue;
        is_paid = true;
        for (int at = 0; at < COLUMNS; at++)
            account->bucket[at] = sqlite3_column_int64(buckets, at);
    }
    require(sqlite3_reset(buckets));
    with_text(OPEN_SESSIONS, 1, debit->account);
    run(OPEN_SESSIONS);
    return is_there && !account->barred && is_paid;
}

static void put_account(const struct account *account, const struct debit *debit) {
    with_text(PUT_HEAD, 1, debit->account);
    bind(PUT_HEAD, 2, account->barred);
    bind(PUT_HEAD, 3, debit->moment);
    bind(PUT_HEAD, 4, account->next_bucket);
    bind(PUT_HEAD, 5, account->next_charge + 1);
    run(PUT_HEAD);
    with_text(PUT_BUCKET, 1, debit->account);
    for (int at = 0; at < COLUMNS; at++)
        bind(PUT_BUCKET, at + 2, account->bucket[at]);
    bind(PUT_BUCKET, AVAILABLE + 2, account->bucket[AVAILABLE] - PRICE);
    bind(PUT_BUCKET, CHARGED + 2, account->bucket[CHARGED] + PRICE);
    require(sqlite3_bind_null(statements[PUT_BUCKET], SCOPE + 2));
    run(PUT_BUCKET);
    enum statement counter = account->blocks ? PUT_COUNTER : ADD_COUNTER;
    with_text(counter, 1, debit->account);
    bind(counter, 2, GROUP);
    bind(counter, 3, 0);
    bind(counter, 4, account->blocks + 1);
    run(counter);
}

static void add_rows(const struct account *account, const struct debit *debit) {
    for (enum statement which = ADD_SESSION; which <= ADD_ANSWER; which++)
        with_text(which, 1, debit->account);
    with_text(ADD_SESSION, 2, debit->session);
    bind(ADD_SESSION, 3, debit->moment);
    run(ADD_SESSION);
    with_text(ADD_GROUP, 2, debit->session);
    run(ADD_GROUP);
    bind(ADD_CHARGE, 2, account->next_charge);
    bind(ADD_CHARGE, 3, debit->moment);
    with_text(ADD_CHARGE, 4, debit->session);
    run(ADD_CHARGE);
    with_text(ADD_ANSWER, 2, debit->session);
    with_text(ADD_ANSWER, 3, debit->request);
    with_text(ADD_ANSWER, 4, debit->answer);
    run(ADD_ANSWER);
}

static bool is_new(const struct debit *debit) {
    with_text(ANSWER, 1, debit->account);
    with_text(ANSWER, 2, debit->session);
    with_text(SESSION, 1, debit->account);
    with_text(SESSION, 2, debit->session);
    return run(ANSWER) == 0 && run(SESSION) == 0;
}

static bool debit_within(const struct debit *debit) {
    struct account account = {0};
    if (!is_new(debit) || !read_account(&account, debit))
        return false;
    run(BEGIN);
    if (debit->moment != last_moment) {
        bind(PUT_MOMENT, 1, debit->moment);
        run(PUT_MOMENT);
        last_moment = debit->moment;
    }
    put_account(&account, debit);
    add_rows(&account, debit);
    run(COMMIT);
    return true;
}

static bool sqlite_debit(void *connection, const struct debit *debit) {
    (void)connection;
    pthread_mutex_lock(&turn);
    bool is_accepted = debit_within(debit);
    pthread_mutex_unlock(&turn);
    return is_accepted;
}

const struct peer sqlite_full_peer = {"sqlite-full", full_connect, sqlite_debit, sqlite_disconnect};
const struct peer sqlite_normal_peer = {"sqlite-normal", normal_connect, sqlite_debit,
                                        sqlite_disconnect};
