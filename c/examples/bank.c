/* A bank in threads: each moves money, one pays interest by a range, and a phantom in that range is caught. The sum is right at the end,
 * and the book holds. */
#include <inttypes.h>
#include <occ.h>
#include <pthread.h>
#include <stdio.h>
#include <stdlib.h>

enum { ACCOUNTS = 100, EACH = 1000, THREADS = 4, TRANSFERS = 2000 };

static occ_store *store;
static size_t accounts;

static uint64_t drawn(uint64_t *seed) {
    *seed ^= *seed << 13;
    *seed ^= *seed >> 7;
    *seed ^= *seed << 17;
    return *seed;
}

static void expect(int code, const char *what) {
    if (code) {
        fprintf(stderr, "%s: %s\n", what, occ_strerror(code));
        exit(1);
    }
}

static int fill(occ_worker *w, void *context) {
    uint64_t from = *(uint64_t *)context;
    int code = OCC_OK;
    for (uint64_t key = from; key < from + 50 && !code; key++)
        code = occ_put_int(w, accounts, key, EACH);
    return code;
}

/* Events one by one: others come between, and it is tried again where they were in the way. */
static int move(occ_worker *w, uint64_t from, uint64_t to, int64_t amount) {
    int64_t here, there;
    int code;
    if ((code = occ_begin(w)))
        return code;
    if ((code = occ_get_int(w, accounts, from, &here)) || (code = occ_get_int(w, accounts, to, &there)) ||
        (code = occ_put_int(w, accounts, from, here - amount)) || (code = occ_put_int(w, accounts, to, there + amount))) {
        occ_abandon(w);
        return code;
    }
    return occ_commit(w, NULL);
}

static void *run(void *context) {
    uint64_t seed = 88172645463325252u + (uintptr_t)context;
    occ_worker *w = NULL;
    expect(occ_worker_open(store, &w), "a worker");
    for (int turn = 0; turn < TRANSFERS; turn++) {
        uint64_t from = drawn(&seed) % ACCOUNTS, to = (from + 1 + drawn(&seed) % (ACCOUNTS - 1)) % ACCOUNTS;
        int code;
        while ((code = move(w, from, to, (int64_t)(drawn(&seed) % 10))) == OCC_CONFLICT || code == OCC_TOO_OLD)
            ;
        expect(code, "a transfer");
        if (turn % 1000 == 999)
            expect(occ_checkpoint(w, NULL), "a checkpoint");
    }
    expect(occ_worker_close(&w), "closing a worker");
    return NULL;
}

/* One reads a range, another puts a row into it, and the first is backed up. */
static void phantom(void) {
    occ_worker *reader = NULL, *writer = NULL;
    uint64_t lower = 1000, upper = 2000;
    size_t count;
    expect(occ_worker_open(store, &reader), "a worker");
    expect(occ_worker_open(store, &writer), "a worker");
    expect(occ_begin(reader), "begin");
    expect(occ_scan(reader, accounts, &lower, sizeof lower, &upper, sizeof upper, &count), "scan");
    expect(occ_put_int(reader, accounts, 1, (int64_t)count), "put");
    expect(occ_begin(writer), "begin");
    expect(occ_put_int(writer, accounts, 1500, 0), "put");
    expect(occ_commit(writer, NULL), "commit");
    printf("the phantom: %s\n", occ_strerror(occ_commit(reader, NULL)));
    expect(occ_worker_close(&reader), "close");
    expect(occ_worker_close(&writer), "close");
}

int main(void) {
    static const char tables[] = "occ 2\nsessions 8\nqueue 1\nkeep 1024\ntable accounts num int\nsteps\n";
    pthread_t threads[THREADS];
    struct { uint64_t key; int64_t balance; } rows[ACCOUNTS + 1];
    occ_worker *w = NULL;
    size_t count = 0, size = 0;
    int64_t sum = 0;
    expect(occ_open(tables, sizeof tables - 1, &store, NULL), "a store");
    expect(occ_table(store, "accounts", &accounts), "a table");
    expect(occ_worker_open(store, &w), "a worker");
    for (uint64_t from = 0; from < ACCOUNTS; from += 50)
        expect(occ_transact(w, 1, fill, &from, NULL), "filling");
    for (size_t each = 0; each < THREADS; each++)
        if (pthread_create(&threads[each], NULL, run, (void *)(uintptr_t)(each * 977)))
            return 1;
    for (size_t each = 0; each < THREADS; each++)
        pthread_join(threads[each], NULL);
    expect(occ_begin(w), "begin");
    expect(occ_scan(w, accounts, NULL, 0, NULL, 0, &count), "scan");
    expect(occ_fetch(w, rows, sizeof rows, &size, &count), "fetch");
    for (size_t each = 0; each < count; each++)
        sum += rows[each].balance;
    expect(occ_commit(w, NULL), "commit");
    printf("%zu accounts, sum %" PRId64 "\n", count, sum);
    phantom();
    char *book = NULL;
    int holds = 0;
    expect(occ_book(w, &book, &size), "a book");
    expect(occ_audit(book, size, &holds, NULL), "an audit");
    printf("audit %s\n", holds ? "yes" : "no");
    free(book);
    expect(occ_close(&store), "close");
    expect(occ_worker_close(&w), "close");
    return !holds || sum != (int64_t)ACCOUNTS * EACH;
}
