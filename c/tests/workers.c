/* Workers in the hands of several threads: a call that finds its worker in another one is refused with a code of its own, and nothing breaks;
 * a lease is released by its own thread alone; a store is closed while threads are at work. */
#include <occ.h>
#include <pthread.h>
#include <sched.h>
#include <stdatomic.h>
#include <stdbool.h>
#include <stdio.h>
#include <stdlib.h>

#define THREADS 6
#define TURNS 2000

static const char TABLES[] = "occ 2\nsessions 16\nqueue 1\nkeep 8\ntable t num int\nsteps\n";
static atomic_int failures;
static occ_worker *shared;
static atomic_bool closed;

static void is(int code, int wanted, const char *what) {
    if (code == wanted)
        return;
    failures++;
    printf("%s: %d (%s), wanted %d\n", what, code, occ_strerror(code), wanted);
}

#define IS(call, wanted) is(call, wanted, #call)

/* ---- one worker in many calls */

static int puts_one(occ_worker *w, void *context) {
    (void)context;
    return occ_put_int(w, 0, 1, 1);
}

/* One of all the calls of a worker. */
static int some_call(occ_worker *w, unsigned turn) {
    uint64_t key = turn % 7, number;
    int64_t cell = 5;
    size_t count, size;
    char rows[64], *book;
    switch (turn % 17) {
    case 0: return occ_begin(w);
    case 1: return occ_put_int(w, 0, key, 2);
    case 2: return occ_get_int(w, 0, key, &cell);
    case 3: return occ_delete_int(w, 0, key);
    case 4: return occ_scan(w, 0, NULL, 0, NULL, 0, &count);
    case 5: return occ_fetch(w, rows, sizeof rows, &size, &count);
    case 6: return occ_commit(w, &number);
    case 7: return occ_abandon(w);
    case 8: return occ_add(w, OCC_ADD, 0, &key, sizeof key, &cell, sizeof cell);
    case 9: return occ_add(w, OCC_SCAN, 0, NULL, 0, NULL, 0);
    case 10: return occ_run(w, &number, &count);
    case 11: return occ_answer(w, 0, NULL, 0, &size);
    case 12: return occ_clear(w);
    case 13: return occ_checkpoint(w, &count);
    case 14: return occ_count(w, &number, &count);
    case 15: return occ_transact(w, 2, puts_one, NULL, &number);
    }
    int code = turn % 16 ? OCC_OK : occ_book(w, &book, &size);
    if (turn % 16 == 0 && code == OCC_OK)
        free(book);
    return code;
}

static void *calls(void *seed) {
    unsigned turn = (unsigned)(size_t)seed;
    for (int i = 0; i < TURNS; i++) {
        turn = turn * 1103515245u + 12345u;
        some_call(shared, turn >> 8);
        if (i % 64 == 0 && occ_lease(shared) == OCC_OK)
            while (occ_release(shared) == OCC_WORKER_BUSY)
                sched_yield();
    }
    return NULL;
}

static void all_at_once(void *(*what)(void *)) {
    pthread_t threads[THREADS];
    for (size_t i = 0; i < THREADS; i++)
        pthread_create(&threads[i], NULL, what, (void *)(i * 97));
    for (size_t i = 0; i < THREADS; i++)
        pthread_join(threads[i], NULL);
}

/* ---- a worker that waits in one call, and is asked for another */

static void *waits(void *worker) {
    int code;
    while ((code = occ_begin(worker)) == OCC_WORKER_BUSY)
        sched_yield();
    IS(code, OCC_OK);
    return NULL;
}

static void busy(occ_worker *one, occ_worker *two) {
    pthread_t thread;
    int64_t cell = 0;
    int code;
    occ_worker *same = two;
    IS(occ_lease(one), OCC_OK);
    pthread_create(&thread, NULL, waits, two);
    while ((code = occ_count(two, NULL, NULL)) == OCC_LEASED)
        sched_yield();
    IS(code, OCC_WORKER_BUSY);
    IS(occ_put_int(two, 0, 1, 1), OCC_WORKER_BUSY);
    IS(occ_get_int(two, 0, 1, &cell), OCC_WORKER_BUSY);
    IS(occ_transact(two, 1, puts_one, NULL, NULL), OCC_WORKER_BUSY);
    IS(occ_clear(two), OCC_WORKER_BUSY);
    IS(occ_worker_close(&same), OCC_WORKER_BUSY);
    IS(same == two, 1);
    IS(occ_release(one), OCC_OK);
    pthread_join(thread, NULL);
    IS(occ_abandon(two), OCC_OK);
}

/* ---- a lease and another thread */

static void *meddles(void *worker) {
    occ_worker *same = worker;
    IS(occ_release(worker), OCC_WORKER_BUSY);
    IS(occ_lease(worker), OCC_WORKER_BUSY);
    IS(occ_worker_close(&same), OCC_WORKER_BUSY);
    return NULL;
}

static int lets_meddle(occ_worker *w, void *context) {
    pthread_t thread;
    (void)context;
    pthread_create(&thread, NULL, meddles, w);
    pthread_join(thread, NULL);
    return occ_put_int(w, 0, 2, 2);
}

/* ---- a store that is closed while threads are at work */

static void *works(void *worker) {
    int code = OCC_OK;
    while (code == OCC_OK) {
        code = occ_transact(worker, 100, puts_one, NULL, NULL);
        if (code == OCC_OK)
            code = occ_checkpoint(worker, NULL);
        sched_yield();
    }
    IS(code, OCC_CLOSED);
    IS(atomic_load(&closed), 1);
    IS(occ_put_int(worker, 0, 1, 1), OCC_CLOSED);
    occ_worker *mine = worker;
    IS(occ_worker_close(&mine), OCC_OK);
    return NULL;
}

static void closing(occ_store *store) {
    pthread_t threads[THREADS];
    for (size_t i = 0; i < THREADS; i++) {
        occ_worker *worker = NULL;
        IS(occ_worker_open(store, &worker), OCC_OK);
        pthread_create(&threads[i], NULL, works, worker);
    }
    for (int i = 0; i < 1000; i++)
        sched_yield();
    atomic_store(&closed, true);
    IS(occ_close(&store), OCC_OK);
    for (size_t i = 0; i < THREADS; i++)
        pthread_join(threads[i], NULL);
}

int main(void) {
    occ_store *store = NULL;
    occ_worker *one = NULL, *two = NULL;
    uint64_t commits = 0;
    IS(occ_open(TABLES, sizeof TABLES - 1, &store, NULL), OCC_OK);
    IS(occ_worker_open(store, &shared), OCC_OK);
    IS(occ_worker_open(store, &one), OCC_OK);
    IS(occ_worker_open(store, &two), OCC_OK);
    all_at_once(calls);
    occ_abandon(shared);
    IS(occ_clear(shared), OCC_OK);
    IS(occ_transact(shared, 100, puts_one, NULL, NULL), OCC_OK);
    busy(one, two);
    IS(occ_transact(one, 1, lets_meddle, NULL, NULL), OCC_OK);
    IS(occ_count(one, &commits, NULL), OCC_OK);
    IS(commits > 1, 1);
    IS(occ_worker_close(&shared), OCC_OK);
    IS(occ_worker_close(&one), OCC_OK);
    IS(occ_worker_close(&two), OCC_OK);
    closing(store);
    printf(failures ? "%d failed\n" : "workers: all as they must be\n", failures);
    return failures != 0;
}
