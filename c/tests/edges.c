/* Calls at the edges: each null pointer, short room, second close, worker of a closed store, text that is no UTF-8, session too many has a
 * code that says so, and changes nothing. */
#include <inttypes.h>
#include <occ.h>
#include <stdio.h>
#include <stdlib.h>

static int failures;

static void is(int code, int wanted, const char *what) {
    if (code == wanted)
        return;
    failures++;
    printf("%s: %d (%s), wanted %d\n", what, code, occ_strerror(code), wanted);
}

#define IS(call, wanted) is(call, wanted, #call)

static const char TABLES[] = "occ 2\nsessions 2\nqueue 1\nkeep 8\ntable ints num int\ntable texts text int text\ntable pairs num+text text\nsteps\n";
static size_t ints, texts, pairs;

/* What stands behind the line `steps` of a text is malformed, whatever it is. */
static void behind(const char *rest, int number) {
    char text[512];
    occ_store *store = NULL;
    uint64_t line = 0;
    int size = snprintf(text, sizeof text, "%s%s", TABLES, rest);
    IS(occ_open(text, (size_t)size, &store, &line), OCC_MALFORMED);
    IS((int)line, number);
    IS(store == NULL, 1);
}

static void opening(void) {
    occ_store *store = NULL;
    uint64_t line = 0;
    IS(occ_open(NULL, 0, &store, &line), OCC_NULL);
    IS(occ_open(TABLES, sizeof TABLES - 1, NULL, &line), OCC_NULL);
    IS(occ_open("occ 2\nsessions 65\n", 18, &store, &line), OCC_MALFORMED);
    IS((int)line, 2);
    IS(occ_open("", 0, &store, NULL), OCC_MALFORMED);
    behind("\n", 9);
    behind("begin 1\n", 9);
    behind("begin 1", 9);
    behind(TABLES, 9);
    IS(store == NULL, 1);
    IS(occ_table(NULL, "ints", &ints), OCC_NULL);
    IS(occ_close(NULL), OCC_NULL);
    IS(occ_close(&store), OCC_NULL);
    IS(occ_worker_close(NULL), OCC_NULL);
}

static void keys_and_rows(occ_worker *w) {
    unsigned char key[OCC_KEY_MAX], row[OCC_ROW_MAX], *at = key, *cell = row;
    const char *text = NULL;
    size_t size = 0, length = 0;
    int64_t number = 5;
    uint64_t seven = 7;
    IS(occ_get_int(w, ints, 7, &number), OCC_NO_READ_OPEN);
    IS(occ_put_int(w, ints, 7, 1), OCC_NO_READ_OPEN);
    IS(occ_commit(w, NULL), OCC_NO_READ_OPEN);
    IS(occ_abandon(w), OCC_NO_READ_OPEN);
    IS(occ_begin(w), OCC_OK);
    IS(occ_begin(w), OCC_READ_OPEN);
    IS(occ_get_int(w, ints, 7, &number), OCC_NO_ROW);
    IS(occ_get_int(w, 3, 7, &number), OCC_NO_TABLE);
    IS((int)number, 5);
    IS(occ_get(w, ints, NULL, 8, row, sizeof row, &size), OCC_NULL);
    IS(occ_get(w, ints, &seven, 8, NULL, 8, &size), OCC_NULL);
    IS(occ_get(w, ints, &seven, 8, row, sizeof row, NULL), OCC_NULL);
    IS(occ_get(NULL, ints, &seven, 8, row, sizeof row, &size), OCC_NULL);
    IS(occ_get(w, ints, &seven, 7, row, sizeof row, &size), OCC_MALFORMED);
    IS(occ_put(w, ints, &seven, 8, row, 7), OCC_MALFORMED);
    IS(occ_put(w, ints, &seven, 8, row, 16), OCC_MALFORMED);
    IS(occ_put(w, ints, NULL, 0, NULL, 0), OCC_MALFORMED);
    IS(occ_put_text(&at, key + sizeof key, "ann"), OCC_OK);
    IS(occ_put_number(&cell, row + sizeof row, -3), OCC_OK);
    IS(occ_put_text(&cell, row + sizeof row, "Ann \xc3\xa9"), OCC_OK);
    IS(occ_put(w, texts, key, (size_t)(at - key), row, (size_t)(cell - row)), OCC_OK);
    IS(occ_get(w, texts, key, (size_t)(at - key), row, 8, &size), OCC_ROOM);
    IS((int)size, 22);
    IS(occ_get(w, texts, key, (size_t)(at - key), NULL, 0, &size), OCC_ROOM);
    IS(occ_get(w, texts, key, (size_t)(at - key), row, sizeof row, &size), OCC_OK);
    const unsigned char *from = row;
    IS(occ_take_number(&from, row + size, &number), OCC_OK);
    IS(occ_take_text(&from, row + size, &text, &length), OCC_OK);
    IS(number == -3 && length == 6 && !memcmp(text, "Ann \xc3\xa9", 6), 1);
    row[20] = 0xff;
    IS(occ_put(w, texts, key, (size_t)(at - key), row, size), OCC_NOT_UTF8);
    key[8] = 0xff;
    IS(occ_put(w, texts, key, (size_t)(at - key), row, size), OCC_NOT_UTF8);
    key[0] = 200;
    IS(occ_delete(w, texts, key, (size_t)(at - key)), OCC_MALFORMED);
    at = key, cell = row;
    IS(occ_put_number(&at, key + sizeof key, 9), OCC_OK);
    IS(occ_put_text(&at, key + sizeof key, "x"), OCC_OK);
    IS(occ_put_text(&cell, row + sizeof row, ""), OCC_OK);
    IS(occ_put(w, pairs, key, (size_t)(at - key), row, (size_t)(cell - row)), OCC_OK);
    IS(occ_put_int(w, ints, 7, INT64_MIN), OCC_OK);
    IS(occ_put_int(w, ints, UINT64_MAX, INT64_MAX), OCC_OK);
    IS(occ_commit(w, NULL), OCC_OK);
}

static void ranges(occ_worker *w) {
    struct { uint64_t key; int64_t cell; } row;
    uint64_t lower = 8, upper = 8;
    size_t count = 9, size = 9;
    IS(occ_begin(w), OCC_OK);
    IS(occ_scan(w, ints, &lower, 8, &upper, 8, &count), OCC_EMPTY_RANGE);
    IS((int)count, 9);
    IS(occ_scan(w, ints, NULL, 8, &upper, 8, &count), OCC_NULL);
    IS(occ_scan(w, ints, NULL, 0, NULL, 0, &count), OCC_OK);
    IS((int)count, 2);
    IS(occ_fetch(w, &row, 8, &size, &count), OCC_ROOM);
    IS((int)size, 16);
    IS(occ_fetch(w, &row, sizeof row, &size, &count), OCC_OK);
    IS(count == 1 && size == 16 && row.key == 7 && row.cell == INT64_MIN, 1);
    IS(occ_fetch(w, &row, sizeof row, &size, &count), OCC_OK);
    IS(count == 1 && row.key == UINT64_MAX && row.cell == INT64_MAX, 1);
    IS(occ_fetch(w, &row, sizeof row, &size, &count), OCC_OK);
    IS(count == 0 && size == 0, 1);
    IS(occ_fetch(w, NULL, 8, &size, &count), OCC_NULL);
    IS(occ_abandon(w), OCC_OK);
}

static int asks_for_seven(occ_worker *w, void *context) {
    (void)context;
    return occ_put_int(w, ints, 7, 70);
}

static int gives_up(occ_worker *w, void *context) {
    (void)context;
    int code = occ_put_int(w, ints, 7, 0);
    return code ? code : 1234;
}

static void whole(occ_worker *w) {
    uint64_t seven = 7, number = 0, commits = 0;
    int64_t cell = 0, five = 5;
    size_t answers = 0, size = 0, rows = 0;
    IS(occ_transact(w, 3, NULL, NULL, NULL), OCC_NULL);
    IS(occ_transact(w, 3, asks_for_seven, NULL, &number), OCC_OK);
    IS(occ_transact(w, 3, gives_up, NULL, &number), 1234);
    IS(occ_add(w, OCC_ADD, ints, &seven, 8, &five, 8), OCC_OK);
    IS(occ_add(w, OCC_GET, ints, &seven, 8, NULL, 0), OCC_OK);
    IS(occ_add(w, OCC_SCAN, ints, NULL, 0, NULL, 0), OCC_OK);
    IS(occ_add(w, 9, ints, NULL, 0, NULL, 0), OCC_MALFORMED);
    IS(occ_run(w, &number, &answers), OCC_OK);
    IS((int)answers, 2);
    IS(occ_answer(w, 0, &cell, 4, &size), OCC_ROOM);
    IS(occ_answer(w, 0, &cell, 8, &size), OCC_OK);
    IS((int)cell, 75);
    IS(occ_answer(w, 1, NULL, 0, &size), OCC_OK);
    IS((int)size, 2);
    IS(occ_answer(w, 2, &cell, 8, &size), OCC_NO_ANSWER);
    IS(occ_add(w, OCC_ADD, texts, &seven, 8, &five, 8), OCC_MALFORMED);
    IS(occ_run(w, NULL, NULL), OCC_OK);
    IS(occ_count(w, &commits, &rows), OCC_OK);
    IS((int)commits, 4);
    IS(occ_checkpoint(w, NULL), OCC_OK);
    IS(occ_lease(w), OCC_OK);
    IS(occ_lease(w), OCC_OK);
    IS(occ_transact(w, 1, asks_for_seven, NULL, NULL), OCC_OK);
    IS(occ_release(w), OCC_OK);
    IS(occ_release(w), OCC_OK);
}

/* ---- functions of occ_transact that end it in their own ways, and how often they were called */

static int calls;

static int answers(occ_worker *w, void *context) {
    calls++;
    int code = occ_put_int(w, ints, 90, 1);
    return code ? code : *(int *)context;
}

static int commits_itself(occ_worker *w, void *context) {
    (void)context;
    calls++;
    return occ_commit(w, NULL);
}

static int abandons_itself(occ_worker *w, void *context) {
    int code = occ_abandon(w);
    return code ? code : *(int *)context;
}

static int begins_another(occ_worker *w, void *context) {
    int code = occ_commit(w, NULL);
    if (code == OCC_OK && (code = occ_begin(w)) == OCC_OK)
        code = occ_put_int(w, ints, 90, 2);
    return code ? code : *(int *)context;
}

static int keeps_its_worker(occ_worker *w, void *context) {
    (void)context;
    occ_worker *same = w;
    IS(occ_worker_close(&same), OCC_WORKER_BUSY);
    IS(occ_lease(w), OCC_OK);
    IS(occ_release(w), OCC_WORKER_BUSY);
    IS(occ_transact(w, 1, asks_for_seven, NULL, NULL), OCC_READ_OPEN);
    return occ_put_int(w, ints, 7, 71);
}

/* No transaction is open, and none put a row under 90. */
static void nothing_is_left(occ_worker *w) {
    int64_t cell = 0;
    IS(occ_abandon(w), OCC_NO_READ_OPEN);
    IS(occ_begin(w), OCC_OK);
    IS(occ_get_int(w, ints, 90, &cell), OCC_NO_ROW);
    IS(occ_commit(w, NULL), OCC_OK);
}

static void functions(occ_worker *w) {
    static const int codes[] = {OCC_CONFLICT, OCC_TOO_OLD, OCC_READ_OPEN, OCC_NO_READ_OPEN, OCC_MEMORY, OCC_ENDED, OCC_FREE, 1234, -1};
    int zero = 0, free = OCC_FREE;
    for (size_t i = 0; i < sizeof codes / sizeof *codes; i++) {
        int code = codes[i];
        calls = 0;
        IS(occ_transact(w, 3, answers, &code, NULL), codes[i]);
        IS(calls, 1);
        nothing_is_left(w);
    }
    calls = 0;
    IS(occ_transact(w, 3, commits_itself, NULL, NULL), OCC_ENDED);
    IS(calls, 1);
    nothing_is_left(w);
    IS(occ_transact(w, 3, abandons_itself, &zero, NULL), OCC_ENDED);
    IS(occ_transact(w, 3, abandons_itself, &free, NULL), OCC_FREE);
    IS(occ_transact(w, 3, begins_another, &zero, NULL), OCC_ENDED);
    nothing_is_left(w);
    IS(occ_transact(w, 3, begins_another, &free, NULL), OCC_FREE);
    nothing_is_left(w);
    IS(occ_transact(w, 1, keeps_its_worker, NULL, NULL), OCC_OK);
}

/* A refused operation leaves those before it, and occ_clear takes them away. */
static void operations(occ_worker *w) {
    uint64_t key = 91;
    int64_t cell = 111;
    size_t answers = 9;
    IS(occ_clear(NULL), OCC_NULL);
    IS(occ_add(w, OCC_PUT, ints, &key, 8, &cell, 8), OCC_OK);
    IS(occ_add(w, OCC_PUT, ints, &key, 7, &cell, 8), OCC_MALFORMED);
    IS(occ_clear(w), OCC_OK);
    IS(occ_clear(w), OCC_OK);
    IS(occ_add(w, OCC_GET, ints, &key, 8, NULL, 0), OCC_OK);
    IS(occ_add(w, OCC_PUT, ints, &key, 8, &cell, 7), OCC_MALFORMED);
    IS(occ_run(w, NULL, &answers), OCC_OK);
    IS((int)answers, 1);
    IS(occ_answer(w, 0, &cell, 8, &answers), OCC_NO_ROW);
}

/* What a lease of another worker of the thread keeps waiting is refused, where it would wait for ever. */
static void leases(occ_store *store, occ_worker *w, occ_worker *other) {
    occ_store *same = store;
    occ_worker *made = NULL;
    IS(occ_lease(w), OCC_OK);
    IS(occ_begin(other), OCC_LEASED);
    IS(occ_lease(other), OCC_LEASED);
    IS(occ_transact(other, 1, asks_for_seven, NULL, NULL), OCC_LEASED);
    IS(occ_worker_close(&other), OCC_LEASED);
    IS(other != NULL, 1);
    IS(occ_table(store, "ints", &ints), OCC_LEASED);
    IS(occ_worker_open(store, &made), OCC_LEASED);
    IS(occ_close(&same), OCC_LEASED);
    IS(same == store && made == NULL, 1);
    IS(occ_release(w), OCC_OK);
    IS(occ_begin(other), OCC_OK);
    IS(occ_abandon(other), OCC_OK);
}

static void told(occ_worker *w) {
    char *book = NULL, *answer = NULL;
    size_t size = 0;
    uint64_t line = 0;
    int holds = 0;
    IS(occ_book(w, &book, &size), OCC_OK);
    IS(occ_audit(book, size, &holds, &line), OCC_OK);
    IS(holds, 1);
    IS(occ_audit("occ 2\n", 6, &holds, &line), OCC_MALFORMED);
    IS((int)line, 2);
    IS(occ_audit(NULL, 0, &holds, &line), OCC_NULL);
    free(book);
    static const char schedule[] = "occ 1\nsessions 1\nqueue 1\nkeep 1\ntable t num int\nsteps\nbegin 1\n";
    IS(occ_replay(schedule, sizeof schedule - 1, 1, &answer, &size, NULL), OCC_OK);
    free(answer);
    IS(occ_replay("x", 1, 1, &answer, &size, &line), OCC_MALFORMED);
}

int main(void) {
    occ_store *store = NULL;
    occ_worker *one = NULL, *two = NULL, *three = NULL;
    int64_t cell;
    opening();
    IS(occ_open(TABLES, sizeof TABLES - 1, &store, NULL), OCC_OK);
    IS(occ_table(store, "ints", &ints) | occ_table(store, "texts", &texts) | occ_table(store, "pairs", &pairs), OCC_OK);
    IS(occ_table(store, "none", &ints), OCC_NO_TABLE);
    IS(occ_worker_open(store, NULL), OCC_NULL);
    IS(occ_worker_open(store, &one), OCC_OK);
    IS(occ_worker_open(store, &two), OCC_OK);
    IS(occ_worker_open(store, &three), OCC_NO_SESSION);
    IS(three == NULL, 1);
    keys_and_rows(one);
    ranges(one);
    whole(one);
    functions(one);
    operations(one);
    leases(store, one, two);
    told(one);
    IS(occ_begin(two), OCC_OK);
    IS(occ_worker_close(&two), OCC_OK);
    IS(occ_worker_close(&two), OCC_NULL);
    IS(occ_worker_open(store, &two), OCC_OK);
    IS(occ_begin(two), OCC_OK);
    IS(occ_close(&store), OCC_OK);
    IS(occ_close(&store), OCC_NULL);
    IS(occ_get_int(two, ints, 7, &cell), OCC_CLOSED);
    IS(occ_put_int(two, ints, 7, 1), OCC_CLOSED);
    IS(occ_commit(two, NULL), OCC_CLOSED);
    IS(occ_begin(one), OCC_CLOSED);
    IS(occ_lease(one), OCC_CLOSED);
    IS(occ_checkpoint(one, NULL), OCC_CLOSED);
    IS(occ_worker_close(&one), OCC_OK);
    IS(occ_worker_close(&two), OCC_OK);
    printf(failures ? "%d failed\n" : "edges: all as they must be\n", failures);
    return failures != 0;
}
