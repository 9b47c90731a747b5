/* occ: a proved table store in memory, for C. docs/C.md has its use in short.
 *
 * A store is shared by all threads of a process. Each thread opens a worker of its own, and gives it to one call at a time: a second one
 * meanwhile is refused. Every call answers a code: 0 where it did what it is for. A refused call leaves everything as it was.
 *
 * Keys and rows are bytes by the tables of the store. A number is its 8 bytes as in memory (a key's without a sign, a cell's with one), a
 * text is its length as such a number and then its bytes, which are UTF-8. A key is its one or two parts in order, and a row its cells. So a
 * row of `int int` is a struct of two int64_t. */
#ifndef OCC_H
#define OCC_H

#include <stddef.h>
#include <stdint.h>
#include <string.h>

#ifdef __cplusplus
extern "C" {
#endif

/* Codes. Faults of the store are 1 to 28, as its texts number them. */
enum {
    OCC_OK = 0,
    OCC_NO_TABLE = 1,
    OCC_WRONG_KIND = 2,
    OCC_WRONG_COLUMNS = 3,
    OCC_TOO_LONG = 4,
    OCC_EMPTY_RANGE = 5,
    OCC_BAD_SCHEMA = 6,
    OCC_SET_FULL = 7,
    OCC_MEMORY = 8,
    OCC_NUMBERS_EXHAUSTED = 11,
    OCC_NO_SESSION = 12,
    OCC_SESSION_BUSY = 15,
    OCC_LOG_FULL = 22,
    OCC_COUNTER_EXHAUSTED = 23,
    OCC_RANGE_TOO_LARGE = 24,
    OCC_STORE_BUSY = 25,
    OCC_READ_OPEN = 27,
    OCC_NO_READ_OPEN = 28,
    OCC_CONFLICT = 100,  /* backed up: another transaction wrote what this one read or writes; try it again */
    OCC_TOO_OLD = 101,   /* backed up: it began too long ago to be tested; try it again */
    OCC_NO_ROW = 102,    /* there is no row under the key */
    OCC_ROOM = 103,      /* the room is too short: the size that is needed is told */
    OCC_MALFORMED = 104, /* bytes that are no key or row of the table, or a text that is none of the grammar */
    OCC_CLOSED = 105,    /* the store is closed */
    OCC_NULL = 106,      /* a pointer is null */
    OCC_NOT_UTF8 = 108,  /* a text is not UTF-8 */
    OCC_NO_ANSWER = 109, /* there is no such answer */
    OCC_WORKER_BUSY = 110, /* the worker is in another call or in a function of occ_transact, or another thread has its lease or is bound to it */
    OCC_ENDED = 111,     /* the function of occ_transact ended its transaction itself */
    OCC_LEASED = 112,    /* another worker of this thread has a lease, for which the call would wait for ever */
    OCC_FREE = 200       /* from here on codes are free for functions of occ_transact */
};

/* Bytes that a key has at most, and a row: a room of so many is never too short. */
#define OCC_KEY_MAX 144
#define OCC_ROW_MAX 2112

typedef struct occ_store occ_store;
typedef struct occ_worker occ_worker;

/* Opens a store as a text says: `occ 2`, `sessions N` (1 to 64: how many workers at a time), `queue 1`, `keep N` (1 to 4096: of how many
 * finished transactions the write sets are kept for testing), a line `table NAME KEYKIND KIND ..` for each table, and `steps`, each with a
 * line feed, and nothing behind. Where the text is malformed, *line is the number of the line; line may be null. */
int occ_open(const char *text, size_t size, occ_store **store, uint64_t *line);

/* The place of the table with this name, by which all other calls name it. */
int occ_table(occ_store *store, const char *name, size_t *table);

/* Closes the store, frees what it has, and sets *store to null. Workers may be closed before or after it, and their calls answer OCC_CLOSED
 * from then on. No other call may have this pointer to the store meanwhile. */
int occ_close(occ_store **store);

/* A worker with a session of its own; OCC_NO_SESSION where all sessions have one. */
int occ_worker_open(occ_store *store, occ_worker **worker);

/* Closes a worker, gives up what it has open, and sets *worker to null. Its session is free for another. No call may have the worker from
 * then on. */
int occ_worker_close(occ_worker **worker);

/* Binds a worker to this thread: from then on calls of other threads answer OCC_WORKER_BUSY, but occ_worker_close doesn't. */
int occ_worker_bind(occ_worker *worker);

/* Begins a transaction. Its reads see what is committed, and its own writes over it. They are of no snapshot: each sees what is committed
 * by then. So of two rows whose sum is always 100 it may read 50 and 100, where another transaction commits between the reads. Its end
 * says OCC_CONFLICT then, and only its end does. So trust what was read once it committed. A transaction that only reads has to commit
 * too, and is OCC_TOO_OLD where more than `keep` others committed since it began. */
int occ_begin(occ_worker *worker);

/* The row under a key, into a room of so many bytes, and its size. OCC_ROOM tells the size too; the read is noted then. */
int occ_get(occ_worker *worker, size_t table, const void *key, size_t key_size, void *row, size_t room, size_t *size);

/* Writes a row under a key, and deletes one, when the transaction commits. */
int occ_put(occ_worker *worker, size_t table, const void *key, size_t key_size, const void *row, size_t row_size);
int occ_delete(occ_worker *worker, size_t table, const void *key, size_t key_size);

/* Reads the rows from a key on and below another, in the order of their keys; an end of size 0 is none. *count is how many there are, at
 * most 1024. They are fetched then. */
int occ_scan(occ_worker *worker, size_t table, const void *lower, size_t lower_size, const void *upper, size_t upper_size, size_t *count);

/* The next rows of the last range, each its key and then its row, as many as have room whole: how many bytes, and how many rows; 0 rows
 * at the end. OCC_ROOM where not even the next one has room: *size is what it needs. */
int occ_fetch(occ_worker *worker, void *rows, size_t room, size_t *size, size_t *count);

/* Ends the transaction: 0 with its number where it committed, or OCC_CONFLICT or OCC_TOO_OLD where it was backed up. number may be null. */
int occ_commit(occ_worker *worker, uint64_t *number);

/* Gives the transaction up. */
int occ_abandon(occ_worker *worker);

/* Keeps the store for the calls of this worker from now on, until it is released by the same thread: all other workers wait, and those of
 * this thread answer OCC_LEASED. Keep it for a transaction or some, and never while you wait for something else. */
int occ_lease(occ_worker *worker);
int occ_release(occ_worker *worker);

/* Begins a transaction, lets body read and write, and commits it, all in a lease. Where it is backed up it begins anew, at most so many
 * times in all. Any code other than 0 of body gives the transaction up, and is answered as it is. Those from OCC_FREE on are free for it.
 * Where body commits or abandons the transaction itself, and answers 0, OCC_ENDED is answered, and one that it then began is given up.
 * Body neither closes nor releases the worker, and returns: nothing is thrown out of it. number may be null. */
typedef int occ_body(occ_worker *worker, void *context);
int occ_transact(occ_worker *worker, size_t tries, occ_body *body, void *context, uint64_t *number);

/* A transaction of operations in one step, which is never backed up. Each is added first to a list; OCC_ADD adds a number of 8 bytes to a
 * row of one int; OCC_SCAN has two ends, and OCC_GET and OCC_DELETE no second. A refused occ_add leaves those that were added before;
 * occ_clear empties the list. occ_run empties it too, also where it is refused. No transaction may be open then. */
enum { OCC_GET = 0, OCC_PUT = 1, OCC_DELETE = 2, OCC_ADD = 3, OCC_SCAN = 4 };
int occ_add(occ_worker *worker, int kind, size_t table, const void *first, size_t first_size, const void *second, size_t second_size);
int occ_clear(occ_worker *worker);
int occ_run(occ_worker *worker, uint64_t *number, size_t *answers);

/* An answer of the last run, in the order of its reads: the row as occ_get; or of a range *size is how many rows, which are fetched then. */
int occ_answer(occ_worker *worker, size_t place, void *row, size_t room, size_t *size);

/* Folds the log as far as it can be, and tells how many rows that were. The log has room for 1048576 rows, one for each transaction that
 * committed or was backed up: call it each 10,000 of these. */
int occ_checkpoint(occ_worker *worker, size_t *folded);

/* How many transactions committed, and how many rows stand in the log. */
int occ_count(occ_worker *worker, uint64_t *commits, size_t *rows);

/* The book of the store, as a text that the caller frees: its log with all that was read and written, its tables and its counter. */
int occ_book(occ_worker *worker, char **text, size_t *size);

/* Whether a book holds: its log explains its tables. *line as in occ_open. */
int occ_audit(const char *text, size_t size, int *holds, uint64_t *line);

/* What a schedule answers, as `occ replay` prints it, as a text that the caller frees. */
int occ_replay(const char *text, size_t size, int quiet, char **answer, size_t *answer_size, uint64_t *line);

/* A sentence for a code, and the version of the library. */
const char *occ_strerror(int code);
const char *occ_version(void);

/* ---- keys of one number and rows of one int */

static inline int occ_get_int(occ_worker *worker, size_t table, uint64_t key, int64_t *cell) {
    size_t size = 0;
    return occ_get(worker, table, &key, sizeof key, cell, sizeof *cell, &size);
}

static inline int occ_put_int(occ_worker *worker, size_t table, uint64_t key, int64_t cell) {
    return occ_put(worker, table, &key, sizeof key, &cell, sizeof cell);
}

static inline int occ_delete_int(occ_worker *worker, size_t table, uint64_t key) {
    return occ_delete(worker, table, &key, sizeof key);
}

/* The first two as functions of the library, for languages that call it without this header. */
int occ_call_get_int(occ_worker *worker, size_t table, uint64_t key, int64_t *cell);
int occ_call_put_int(occ_worker *worker, size_t table, uint64_t key, int64_t cell);

/* ---- texts: each helper writes at *at, moves it behind what it wrote, and answers OCC_ROOM where there is no room up to end */

static inline int occ_put_number(unsigned char **at, unsigned char *end, int64_t number) {
    if ((size_t)(end - *at) < sizeof number)
        return OCC_ROOM;
    memcpy(*at, &number, sizeof number);
    *at += sizeof number;
    return OCC_OK;
}

static inline int occ_put_text(unsigned char **at, unsigned char *end, const char *text) {
    uint64_t length = strlen(text);
    if ((size_t)(end - *at) < sizeof length || (size_t)(end - *at) - sizeof length < length)
        return OCC_ROOM;
    memcpy(*at, &length, sizeof length);
    memcpy(*at + sizeof length, text, length);
    *at += sizeof length + length;
    return OCC_OK;
}

/* These read at *at, and answer OCC_MALFORMED where nothing of the kind stands there. A text isn't ended by a zero. */
static inline int occ_take_number(const unsigned char **at, const unsigned char *end, int64_t *number) {
    if ((size_t)(end - *at) < sizeof *number)
        return OCC_MALFORMED;
    memcpy(number, *at, sizeof *number);
    *at += sizeof *number;
    return OCC_OK;
}

static inline int occ_take_text(const unsigned char **at, const unsigned char *end, const char **text, size_t *size) {
    uint64_t length;
    if ((size_t)(end - *at) < sizeof length)
        return OCC_MALFORMED;
    memcpy(&length, *at, sizeof length);
    if ((size_t)(end - *at) - sizeof length < length)
        return OCC_MALFORMED;
    *text = (const char *)(*at + sizeof length);
    *size = (size_t)length;
    *at += sizeof length + length;
    return OCC_OK;
}

#ifdef __cplusplus
}
#endif
#endif
