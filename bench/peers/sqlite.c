/* The loads on SQLite in memory. The way is `one`, a connection that all threads share under a lock, which one of them holds for a whole
 * transaction, or `each`, a connection for each thread on a database in memory that they share. */
#include "load.h"

#include <sched.h>
#include <sqlite3.h>

enum { BEGIN, BEGIN_TO_WRITE, COMMIT, ROLL_BACK, GET, RANGE, PUT, ADD_ROW, SUM, STATEMENTS };
static const char *const TEXTS[STATEMENTS] = {
    "BEGIN",
    "BEGIN IMMEDIATE",
    "COMMIT",
    "ROLLBACK",
    "SELECT number FROM rows WHERE key = ?1",
    "SELECT number FROM rows WHERE key >= ?1 AND key < ?2",
    "UPDATE rows SET number = ?2 WHERE key = ?1",
    "INSERT INTO rows VALUES (?1, ?2)",
    "SELECT sum(number) FROM rows",
};

struct connection {
    sqlite3 *base;
    sqlite3_stmt *statements[STATEMENTS];
    pthread_mutex_t *lock; /* none where each thread has a connection of its own */
};

static pthread_mutex_t one_lock = PTHREAD_MUTEX_INITIALIZER;

/* Where another connection is in the way, it is tried again as soon as others have run. */
static int patient(void *unused, int times) {
    (void)unused, (void)times;
    sched_yield();
    return 1;
}

static struct connection *connected(const char *way, int thread) {
    static struct connection *shared;
    int one = !strcmp(way, "one"), flags = SQLITE_OPEN_READWRITE | SQLITE_OPEN_CREATE | SQLITE_OPEN_URI | SQLITE_OPEN_NOMUTEX;
    if (one && shared) return shared;
    struct connection *store = calloc(1, sizeof *store);
    const char *name = one ? ":memory:" : "file:/peers?vfs=memdb";
    if (!store || sqlite3_open_v2(name, &store->base, flags, NULL) != SQLITE_OK) return NULL;
    sqlite3_busy_handler(store->base, patient, NULL);
    if (!thread && sqlite3_exec(store->base, "CREATE TABLE rows (key INTEGER PRIMARY KEY, number INTEGER)", NULL, NULL, NULL)) return NULL;
    for (int at = 0; at < STATEMENTS; at++)
        if (sqlite3_prepare_v2(store->base, TEXTS[at], -1, &store->statements[at], NULL) != SQLITE_OK) return NULL;
    store->lock = one ? &one_lock : NULL;
    return shared = store;
}

/* Runs a statement on two numbers to its end. The number of its first row comes back, and all others are read. */
static enum ended run(struct connection *store, int at, int64_t first, int64_t second, int64_t *number) {
    sqlite3_stmt *statement = store->statements[at];
    int state, places = sqlite3_bind_parameter_count(statement);
    if (places > 0) sqlite3_bind_int64(statement, 1, first);
    if (places > 1) sqlite3_bind_int64(statement, 2, second);
    for (int row = 0; (state = sqlite3_step(statement)) == SQLITE_ROW; row++) {
        volatile int64_t read = sqlite3_column_int64(statement, 0);
        if (!row && number) *number = read;
    }
    sqlite3_reset(statement);
    return state == SQLITE_DONE ? DONE : (state & 0xff) == SQLITE_BUSY || (state & 0xff) == SQLITE_LOCKED ? AGAIN : FAULT;
}

static enum ended begun(struct connection *store, int writes) {
    if (store->lock) pthread_mutex_lock(store->lock);
    return run(store, writes ? BEGIN_TO_WRITE : BEGIN, 0, 0, NULL);
}

static enum ended got(struct connection *store, uint64_t key, int64_t *number) {
    return run(store, GET, (int64_t)key, 0, number);
}

static enum ended ranged(struct connection *store, uint64_t first, uint64_t behind, int64_t *number) {
    return run(store, RANGE, (int64_t)first, (int64_t)behind, number);
}

static enum ended put(struct connection *store, uint64_t key, int64_t number) { return run(store, PUT, (int64_t)key, number, NULL); }

static enum ended committed(struct connection *store) {
    enum ended ended = run(store, COMMIT, 0, 0, NULL);
    if (ended == DONE && store->lock) pthread_mutex_unlock(store->lock);
    return ended;
}

static void given_up(struct connection *store) {
    if (!sqlite3_get_autocommit(store->base)) run(store, ROLL_BACK, 0, 0, NULL);
    if (store->lock) pthread_mutex_unlock(store->lock);
}

static enum ended filled(struct connection *store, uint64_t rows) {
    enum ended ended = run(store, BEGIN_TO_WRITE, 0, 0, NULL);
    for (uint64_t key = 0; ended == DONE && key < rows; key++) ended = run(store, ADD_ROW, (int64_t)key, 0, NULL);
    return ended == DONE ? run(store, COMMIT, 0, 0, NULL) : ended;
}

static enum ended summed(struct connection *store, uint64_t rows, int64_t *sum) {
    (void)rows;
    return run(store, SUM, 0, 0, sum);
}
