/* The loads on the library for C. The way is `events`, where each event is done by itself, or `lease`, where a thread keeps the store for a
 * transaction. */
#include "load.h"

#include <occ.h>

enum { FOLDED_AFTER = 10000, FILLED = 250, MOST_ROWS = 1024 };

struct connection {
    occ_worker *worker;
    int leases;
    uint64_t since;
};

static occ_store *store_of_all;

static enum ended ended_by(int code) {
    return code == OCC_OK ? DONE : code == OCC_CONFLICT || code == OCC_TOO_OLD ? AGAIN : FAULT;
}

static struct connection *connected(const char *way, int thread) {
    static const char tables[] = "occ 2\nsessions 64\nqueue 1\nkeep 4096\ntable rows num int\nsteps\n";
    struct connection *store = calloc(1, sizeof *store);
    if (!store || (!thread && occ_open(tables, sizeof tables - 1, &store_of_all, NULL))) return NULL;
    if (occ_worker_open(store_of_all, &store->worker)) return NULL;
    store->leases = !strcmp(way, "lease");
    return store;
}

static enum ended begun(struct connection *store, int writes) {
    (void)writes;
    if (store->leases && occ_lease(store->worker)) return FAULT;
    return ended_by(occ_begin(store->worker));
}

static enum ended got(struct connection *store, uint64_t key, int64_t *number) {
    return ended_by(occ_get_int(store->worker, 0, key, number));
}

static enum ended ranged(struct connection *store, uint64_t first, uint64_t behind, int64_t *number) {
    static _Thread_local struct { uint64_t key; int64_t number; } rows[MOST_ROWS];
    size_t count, size;
    int code = occ_scan(store->worker, 0, &first, sizeof first, &behind, sizeof behind, &count);
    if (!code) code = occ_fetch(store->worker, rows, sizeof rows, &size, &count);
    if (!code && count) *number = rows[0].number;
    return ended_by(code);
}

static enum ended put(struct connection *store, uint64_t key, int64_t number) {
    return ended_by(occ_put_int(store->worker, 0, key, number));
}

static enum ended committed(struct connection *store) {
    int code = occ_commit(store->worker, NULL);
    if (!code && ++store->since % FOLDED_AFTER == 0) code = occ_checkpoint(store->worker, NULL);
    if (!code && store->leases) code = occ_release(store->worker);
    return ended_by(code);
}

static void given_up(struct connection *store) {
    occ_abandon(store->worker);
    occ_release(store->worker);
}

static enum ended filled(struct connection *store, uint64_t rows) {
    int code = OCC_OK;
    for (uint64_t from = 0; !code && from < rows; from += FILLED) {
        code = occ_begin(store->worker);
        for (uint64_t key = from; !code && key < rows && key < from + FILLED; key++) code = occ_put_int(store->worker, 0, key, 0);
        if (!code) code = occ_commit(store->worker, NULL);
    }
    if (!code) code = occ_checkpoint(store->worker, NULL);
    return ended_by(code);
}

static enum ended summed(struct connection *store, uint64_t rows, int64_t *sum) {
    int code = occ_begin(store->worker);
    *sum = 0;
    for (uint64_t key = 0; !code && key < rows; key++) {
        int64_t number;
        if (key && key % FILLED == 0 && !(code = occ_commit(store->worker, NULL))) code = occ_begin(store->worker);
        if (!code && !(code = occ_get_int(store->worker, 0, key, &number))) *sum += number;
    }
    return ended_by(code ? code : occ_commit(store->worker, NULL));
}
