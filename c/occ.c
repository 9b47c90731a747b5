/* The half of the library for C that is C: it makes threads wait for one another, gives a worker to one call at a time, counts who has a
 * store, and looks for null pointers. What the store does is in the proved half, crates/occ_c, whose exports are declared here. */
#define _POSIX_C_SOURCE 200809L /* for a lock that knows its own thread */
#include "occ.h"

#include <pthread.h>
#include <sched.h>
#include <stdatomic.h>
#include <stdbool.h>
#include <stdlib.h>

/* A desk of the proved half: its address, as its exports take it. */
typedef struct {
    void *at;
} desk;

typedef const uint8_t bytes;

int32_t occ_rt_open(bytes *header, size_t header_size, void **out, uint64_t *line);
int32_t occ_rt_desk(desk *d, void **out);
void occ_rt_free(desk d);
int32_t occ_rt_table(desk *d, bytes *name, size_t name_size, size_t *table);
int32_t occ_rt_join(desk *d);
int32_t occ_rt_leave(desk *d);
int32_t occ_rt_end(desk *d);
int32_t occ_rt_begin(desk *d);
int32_t occ_rt_get(desk *d, size_t table, bytes *key, size_t key_size, uint8_t *room, size_t room_size, size_t *size);
int32_t occ_rt_put(desk *d, size_t table, bytes *key, size_t key_size, bytes *row, size_t row_size);
int32_t occ_rt_delete(desk *d, size_t table, bytes *key, size_t key_size);
int32_t occ_rt_scan(desk *d, size_t table, bytes *lower, size_t lower_size, bytes *upper, size_t upper_size, size_t *count);
int32_t occ_rt_fetch(desk *d, uint8_t *room, size_t room_size, size_t *size, size_t *count);
int32_t occ_rt_commit(desk *d, uint64_t *number);
int32_t occ_rt_abandon(desk *d);
int32_t occ_rt_lease(desk *d);
int32_t occ_rt_release(desk *d);
int32_t occ_rt_add(desk *d, uint32_t kind, size_t table, bytes *first, size_t first_size, bytes *second, size_t second_size);
int32_t occ_rt_clear(desk *d);
int32_t occ_rt_run(desk *d, uint64_t *number, size_t *answers);
int32_t occ_rt_answer(desk *d, size_t place, uint8_t *room, size_t room_size, size_t *size);
int32_t occ_rt_checkpoint(desk *d, size_t *folded);
int32_t occ_rt_counts(desk *d, uint64_t *commits, size_t *rows);
int32_t occ_rt_book(desk *d, size_t *size);
int32_t occ_rt_book_part(desk *d, size_t from, uint8_t *room, size_t room_size, size_t *size);
int32_t occ_rt_audit(bytes *text, size_t text_size, int32_t *verdict, uint64_t *line);
int32_t occ_rt_replay(bytes *text, size_t text_size, bool quiet, uint8_t *room, size_t room_size, size_t *size, uint64_t *line);

struct occ_store {
    pthread_mutex_t lock; /* who has it may use the core, and any desk that asks for it */
    atomic_bool closed;
    size_t owners; /* the store's own handle and its workers, under the lock */
    desk desk;     /* it has no session, and opens the others */
};

struct occ_worker {
    occ_store *store;
    desk desk;
    atomic_bool busy; /* a call has it, and may use what stands here */
    atomic_bool bound;
    pthread_t owner;  /* the thread that may call then */
    bool leased;      /* it has the lock */
    pthread_t leaser; /* the thread that took the lock then */
    size_t ended;     /* how many of its transactions have ended */
    size_t bodies;    /* how many functions of occ_transact are at work */
};

/* A slice of no bytes still has an address. */
static uint8_t nothing[1];
#define BYTES(p) ((p) ? (bytes *)(p) : nothing)
#define GIVEN(p, size) ((p) || !(size))

/* Refused where the thread has the lock already, by a lease. */
static int wait_for(occ_store *store) { return pthread_mutex_lock(&store->lock) ? OCC_LEASED : OCC_OK; }
static void let_go(occ_store *store) { pthread_mutex_unlock(&store->lock); }

static int seize(occ_worker *w) { return atomic_exchange_explicit(&w->busy, true, memory_order_acquire) ? OCC_WORKER_BUSY : OCC_OK; }
static void give_back(occ_worker *w) { atomic_store_explicit(&w->busy, false, memory_order_release); }

static bool is_bound_elsewhere(occ_worker *w) {
    return atomic_load_explicit(&w->bound, memory_order_acquire) && !pthread_equal(w->owner, pthread_self());
}

/* A call takes its worker first, and gives it back at its end. One of a wrong thread leaves it alone, so that the right one finds it free. */
static int take(occ_worker *w) { return is_bound_elsewhere(w) ? OCC_WORKER_BUSY : seize(w); }

/* The lock, for a call that uses the core and has the worker if this code is 0. */
static int reach(occ_worker *w, int code) {
    if (code != OCC_OK || w->leased)
        return code;
    code = wait_for(w->store);
    if (code != OCC_OK)
        give_back(w);
    return code;
}

static int enter(occ_worker *w) { return reach(w, take(w)); }

static void leave(occ_worker *w) {
    if (!w->leased)
        let_go(w->store);
    give_back(w);
}

/* One event of a worker, and a call of one that asks for no core. */
#define EVENT(w, call)         \
    do {                       \
        int code_ = enter(w);  \
        if (code_ != OCC_OK)   \
            return code_;      \
        code_ = (call);        \
        leave(w);              \
        return code_;          \
    } while (0)

#define ALONE(w, call)         \
    do {                       \
        int code_ = take(w);   \
        if (code_ != OCC_OK)   \
            return code_;      \
        code_ = (call);        \
        give_back(w);          \
        return code_;          \
    } while (0)

static bool is_closed(const occ_worker *w) { return atomic_load_explicit(&w->store->closed, memory_order_acquire); }

/* Gives up a share of a store, whose lock is held; the last one frees it. */
static void drop_share(occ_store *store) {
    bool last = --store->owners == 0;
    let_go(store);
    if (!last)
        return;
    occ_rt_free(store->desk);
    pthread_mutex_destroy(&store->lock);
    free(store);
}

static int make_lock(pthread_mutex_t *lock) {
    pthread_mutexattr_t kind;
    if (pthread_mutexattr_init(&kind))
        return OCC_MEMORY;
    int failed = pthread_mutexattr_settype(&kind, PTHREAD_MUTEX_ERRORCHECK) || pthread_mutex_init(lock, &kind);
    pthread_mutexattr_destroy(&kind);
    return failed ? OCC_MEMORY : OCC_OK;
}

int occ_open(const char *text, size_t size, occ_store **store, uint64_t *line) {
    uint64_t unread;
    if (!text || !store)
        return OCC_NULL;
    occ_store *made = malloc(sizeof *made);
    if (!made)
        return OCC_MEMORY;
    int code = occ_rt_open((bytes *)text, size, &made->desk.at, line ? line : &unread);
    if (code == OCC_OK && (code = make_lock(&made->lock)) != OCC_OK)
        occ_rt_free(made->desk);
    if (code != OCC_OK) {
        free(made);
        return code;
    }
    atomic_init(&made->closed, false);
    made->owners = 1;
    *store = made;
    return OCC_OK;
}

int occ_table(occ_store *store, const char *name, size_t *table) {
    if (!store || !name || !table)
        return OCC_NULL;
    int code = wait_for(store);
    if (code != OCC_OK)
        return code;
    code = occ_rt_table(&store->desk, (bytes *)name, strlen(name), table);
    let_go(store);
    return code;
}

int occ_close(occ_store **store) {
    if (!store || !*store)
        return OCC_NULL;
    occ_store *closed = *store;
    int code = wait_for(closed);
    if (code != OCC_OK)
        return code;
    code = occ_rt_end(&closed->desk);
    if (code != OCC_OK) {
        let_go(closed);
        return code;
    }
    atomic_store(&closed->closed, true);
    *store = NULL;
    drop_share(closed);
    return OCC_OK;
}

/* A desk with a session, of a store whose lock is held. */
static int seat(occ_store *store, desk *made) {
    int code = occ_rt_desk(&store->desk, &made->at);
    if (code == OCC_OK && (code = occ_rt_join(made)) != OCC_OK)
        occ_rt_free(*made);
    if (code == OCC_OK)
        store->owners++;
    return code;
}

int occ_worker_open(occ_store *store, occ_worker **worker) {
    if (!store || !worker)
        return OCC_NULL;
    occ_worker *made = malloc(sizeof *made);
    if (!made)
        return OCC_MEMORY;
    made->store = store;
    made->leased = false;
    made->ended = made->bodies = 0;
    atomic_init(&made->busy, false);
    atomic_init(&made->bound, false);
    int code = wait_for(store);
    if (code == OCC_OK) {
        code = seat(store, &made->desk);
        let_go(store);
    }
    if (code != OCC_OK) {
        free(made);
        return code;
    }
    *worker = made;
    return OCC_OK;
}

static bool is_leased_elsewhere(const occ_worker *w) { return w->leased && !pthread_equal(w->leaser, pthread_self()); }

static bool is_backed_up(int code) { return code == OCC_CONFLICT || code == OCC_TOO_OLD; }

static int commit(occ_worker *w, uint64_t *number) {
    int code = occ_rt_commit(&w->desk, number);
    if (code == OCC_OK || is_backed_up(code))
        w->ended++;
    return code;
}

static int abandon(occ_worker *w) {
    int code = occ_rt_abandon(&w->desk);
    if (code == OCC_OK)
        w->ended++;
    return code;
}

/* Gives the session back, of a worker that a call has, and all that it has open. */
static int unseat(occ_worker *w) {
    if (w->bodies || is_leased_elsewhere(w))
        return OCC_WORKER_BUSY;
    if (is_closed(w))
        return OCC_OK;
    abandon(w);
    int code = occ_rt_leave(&w->desk);
    if (code == OCC_OK && w->leased)
        occ_rt_release(&w->desk);
    return code;
}

int occ_worker_close(occ_worker **worker) {
    if (!worker || !*worker)
        return OCC_NULL;
    occ_worker *closed = *worker;
    int code = reach(closed, seize(closed));
    if (code != OCC_OK)
        return code;
    code = unseat(closed);
    if (code != OCC_OK) {
        leave(closed);
        return code;
    }
    occ_rt_free(closed->desk);
    drop_share(closed->store);
    free(closed);
    *worker = NULL;
    return OCC_OK;
}

static int bind(occ_worker *w) {
    if (atomic_load(&w->bound))
        return OCC_OK;
    w->owner = pthread_self();
    atomic_store_explicit(&w->bound, true, memory_order_release);
    return OCC_OK;
}

int occ_worker_bind(occ_worker *w) {
    if (!w)
        return OCC_NULL;
    ALONE(w, bind(w));
}

int occ_begin(occ_worker *w) {
    if (!w)
        return OCC_NULL;
    EVENT(w, occ_rt_begin(&w->desk));
}

int occ_get(occ_worker *w, size_t table, const void *key, size_t key_size, void *row, size_t room, size_t *size) {
    if (!w || !size || !GIVEN(key, key_size) || !GIVEN(row, room))
        return OCC_NULL;
    EVENT(w, occ_rt_get(&w->desk, table, BYTES(key), key_size, row ? row : nothing, room, size));
}

int occ_put(occ_worker *w, size_t table, const void *key, size_t key_size, const void *row, size_t row_size) {
    if (!w || !GIVEN(key, key_size) || !GIVEN(row, row_size))
        return OCC_NULL;
    ALONE(w, is_closed(w) ? OCC_CLOSED : occ_rt_put(&w->desk, table, BYTES(key), key_size, BYTES(row), row_size));
}

int occ_delete(occ_worker *w, size_t table, const void *key, size_t key_size) {
    if (!w || !GIVEN(key, key_size))
        return OCC_NULL;
    ALONE(w, is_closed(w) ? OCC_CLOSED : occ_rt_delete(&w->desk, table, BYTES(key), key_size));
}

int occ_call_get_int(occ_worker *w, size_t table, uint64_t key, int64_t *cell) { return occ_get_int(w, table, key, cell); }
int occ_call_put_int(occ_worker *w, size_t table, uint64_t key, int64_t cell) { return occ_put_int(w, table, key, cell); }

int occ_scan(occ_worker *w, size_t table, const void *lower, size_t lower_size, const void *upper, size_t upper_size, size_t *count) {
    if (!w || !count || !GIVEN(lower, lower_size) || !GIVEN(upper, upper_size))
        return OCC_NULL;
    EVENT(w, occ_rt_scan(&w->desk, table, BYTES(lower), lower_size, BYTES(upper), upper_size, count));
}

/* The rows are shared with the store, and so is the count of who has them. */
int occ_fetch(occ_worker *w, void *rows, size_t room, size_t *size, size_t *count) {
    if (!w || !size || !count || !GIVEN(rows, room))
        return OCC_NULL;
    ALONE(w, occ_rt_fetch(&w->desk, rows ? rows : nothing, room, size, count));
}

int occ_commit(occ_worker *w, uint64_t *number) {
    uint64_t unread;
    if (!w)
        return OCC_NULL;
    EVENT(w, commit(w, number ? number : &unread));
}

int occ_abandon(occ_worker *w) {
    if (!w)
        return OCC_NULL;
    EVENT(w, abandon(w));
}

/* These two are for a call that has the worker. */
static int take_lease(occ_worker *w) {
    if (w->leased)
        return is_leased_elsewhere(w) ? OCC_WORKER_BUSY : OCC_OK;
    int code = wait_for(w->store);
    if (code != OCC_OK)
        return code;
    code = occ_rt_lease(&w->desk);
    if (code != OCC_OK) {
        let_go(w->store);
        return code;
    }
    w->leased = true;
    w->leaser = pthread_self();
    return OCC_OK;
}

static int drop_lease(occ_worker *w) {
    if (!w->leased)
        return OCC_OK;
    if (w->bodies || is_leased_elsewhere(w))
        return OCC_WORKER_BUSY;
    int code = occ_rt_release(&w->desk);
    w->leased = false;
    let_go(w->store);
    return code;
}

int occ_lease(occ_worker *w) {
    if (!w)
        return OCC_NULL;
    ALONE(w, take_lease(w));
}

int occ_release(occ_worker *w) {
    if (!w)
        return OCC_NULL;
    ALONE(w, drop_lease(w));
}

/* Calls a function with the worker given back, since the calls in it are its own. A call of another thread is waited for. */
static int call_body(occ_worker *w, occ_body *body, void *context) {
    w->bodies++;
    give_back(w);
    int code = body(w, context);
    while (seize(w) != OCC_OK)
        sched_yield();
    w->bodies--;
    return code;
}

/* One try in a lease, and whether it was backed up. */
static int try_once(occ_worker *w, occ_body *body, void *context, uint64_t *number, bool *again) {
    *again = false;
    int code = occ_rt_begin(&w->desk);
    if (code != OCC_OK)
        return code;
    size_t ended = w->ended;
    code = call_body(w, body, context);
    if (code == OCC_OK && w->ended != ended)
        code = OCC_ENDED;
    if (code == OCC_OK) {
        code = commit(w, number);
        *again = is_backed_up(code);
    }
    if (code != OCC_OK && !*again)
        abandon(w);
    return code;
}

/* The tries of a call that has the worker. */
static int transact(occ_worker *w, size_t tries, occ_body *body, void *context, uint64_t *number) {
    bool leased = w->leased, again = false;
    int code = OCC_OK;
    do {
        if ((code = take_lease(w)) != OCC_OK)
            return code;
        code = try_once(w, body, context, number, &again);
        if (!leased)
            drop_lease(w);
    } while (again && tries-- > 1);
    return code;
}

int occ_transact(occ_worker *w, size_t tries, occ_body *body, void *context, uint64_t *number) {
    uint64_t unread;
    if (!w || !body)
        return OCC_NULL;
    ALONE(w, transact(w, tries, body, context, number ? number : &unread));
}

int occ_add(occ_worker *w, int kind, size_t table, const void *first, size_t first_size, const void *second, size_t second_size) {
    if (!w || !GIVEN(first, first_size) || !GIVEN(second, second_size))
        return OCC_NULL;
    ALONE(w, is_closed(w) ? OCC_CLOSED : occ_rt_add(&w->desk, (uint32_t)kind, table, BYTES(first), first_size, BYTES(second), second_size));
}

int occ_clear(occ_worker *w) {
    if (!w)
        return OCC_NULL;
    ALONE(w, occ_rt_clear(&w->desk));
}

int occ_run(occ_worker *w, uint64_t *number, size_t *answers) {
    uint64_t unread;
    size_t uncounted;
    if (!w)
        return OCC_NULL;
    EVENT(w, occ_rt_run(&w->desk, number ? number : &unread, answers ? answers : &uncounted));
}

int occ_answer(occ_worker *w, size_t place, void *row, size_t room, size_t *size) {
    if (!w || !size || !GIVEN(row, room))
        return OCC_NULL;
    EVENT(w, occ_rt_answer(&w->desk, place, row ? row : nothing, room, size));
}

int occ_checkpoint(occ_worker *w, size_t *folded) {
    size_t uncounted;
    if (!w)
        return OCC_NULL;
    EVENT(w, occ_rt_checkpoint(&w->desk, folded ? folded : &uncounted));
}

int occ_count(occ_worker *w, uint64_t *commits, size_t *rows) {
    uint64_t unread;
    size_t uncounted;
    if (!w)
        return OCC_NULL;
    EVENT(w, occ_rt_counts(&w->desk, commits ? commits : &unread, rows ? rows : &uncounted));
}

/* The book that the worker keeps, of so many bytes, as a text. */
static int copy_book(occ_worker *w, size_t whole, char **text, size_t *size) {
    size_t at = 0, part = 0;
    uint8_t *made = malloc(whole + 1);
    if (!made)
        return OCC_MEMORY;
    while (at < whole && occ_rt_book_part(&w->desk, at, made + at, whole - at, &part) == OCC_OK && part > 0)
        at += part;
    made[at] = 0;
    *text = (char *)made;
    *size = at;
    return OCC_OK;
}

int occ_book(occ_worker *w, char **text, size_t *size) {
    size_t whole = 0;
    if (!w || !text || !size)
        return OCC_NULL;
    int code = enter(w);
    if (code != OCC_OK)
        return code;
    code = occ_rt_book(&w->desk, &whole);
    if (!w->leased)
        let_go(w->store);
    if (code == OCC_OK)
        code = copy_book(w, whole, text, size);
    give_back(w);
    return code;
}

int occ_audit(const char *text, size_t size, int *holds, uint64_t *line) {
    uint64_t unread;
    int32_t verdict = 0;
    if (!text || !holds)
        return OCC_NULL;
    int code = occ_rt_audit((bytes *)text, size, &verdict, line ? line : &unread);
    if (code == OCC_OK)
        *holds = verdict;
    return code;
}

int occ_replay(const char *text, size_t size, int quiet, char **answer, size_t *answer_size, uint64_t *line) {
    uint64_t unread;
    size_t room = 4096, whole = 0;
    if (!text || !answer || !answer_size)
        return OCC_NULL;
    for (;;) {
        uint8_t *made = malloc(room + 1);
        if (!made)
            return OCC_MEMORY;
        int code = occ_rt_replay((bytes *)text, size, quiet != 0, made, room, &whole, line ? line : &unread);
        if (whole <= room && code == OCC_OK) {
            made[whole] = 0;
            *answer = (char *)made;
            *answer_size = whole;
            return OCC_OK;
        }
        free(made);
        if (code != OCC_OK)
            return code;
        room = whole;
    }
}

const char *occ_strerror(int code) {
    static const char *const faults[] = {
        "done",
        "there is no such table",
        "a key or a cell is of another kind than its table's",
        "a row has another number of cells than its table has columns",
        "a text key or a text cell is over its limit",
        "the lower end of a range is not below its upper end",
        "a schema has too many or too few tables or columns, a bad name, or one name twice",
        "a set has all the keys, questions or operations that it may have",
        "a request for memory was refused",
        "the queue of the session is full",
        "the client has closed the session",
        "only the number of the closing mark is left",
        "there is no such session, or none is left",
        "the closing mark of the session has entered",
        "the number is not the one that is due, or not one that may have a read phase",
        "the session's earlier row is neither finished nor backed up",
        "the start lies above the transaction counter",
        "the read phase of this number has another start",
        "the session has no row between its entry and its finish or back-up",
        "the row is not decided yet",
        "the row was decided before, or the other way",
        "single writes of the row are left",
        "the log has as many rows as it may have",
        "the transaction counter has no room for the rows that are under way and one more",
        "the answer of a range has more rows than an answer may have",
        "a row is under way",
        "the verdict is for another row's case",
        "a transaction of this session is open, or the number has a read phase",
        "no transaction of this session is open",
    };
    static const char *const told[] = {
        "backed up: another transaction wrote what this one read or writes",
        "backed up: it began too long ago to be tested",
        "there is no row under the key",
        "the room is too short",
        "malformed",
        "the store is closed",
        "a pointer is null",
        "another worker has the store",
        "a text is not UTF-8",
        "there is no such answer",
        "the worker is in another call or in a function of occ_transact, or another thread has its lease or is bound to it",
        "the function ended its transaction itself",
        "a worker of this thread has a lease, for which the call would wait for ever",
    };
    if (code >= 0 && code <= 28)
        return faults[code];
    if (code >= 100 && code <= 112)
        return told[code - 100];
    return "no code of this library";
}

const char *occ_version(void) { return "0.1"; }
