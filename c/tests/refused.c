/* Refuses each request for memory in turn: the call that wanted it answers OCC_MEMORY, and after all calls were made again as if nothing had
 * been, the book is that of a run in which none was refused. It is linked with --wrap=malloc and --wrap=realloc. */
#include <occ.h>
#include <stdio.h>
#include <stdlib.h>

void *__real_malloc(size_t size);
void *__real_realloc(void *at, size_t size);

static long left = -1; /* how many requests are granted before one is refused; none is where it is below 0 */

static int granted(void) { return left < 0 || left-- > 0; }

void *__wrap_malloc(size_t size) { return granted() ? __real_malloc(size) : NULL; }
void *__wrap_realloc(void *at, size_t size) { return granted() ? __real_realloc(at, size) : NULL; }

static const char TABLES[] = "occ 2\nsessions 2\nqueue 1\nkeep 8\ntable ints num int\ntable texts text int text\nsteps\n";
static int refusals;

/* Makes a call again where memory was refused, which is once at most. */
#define AGAIN(call)                                                  \
    do {                                                             \
        int code_ = (call);                                          \
        if (code_ == OCC_MEMORY) {                                   \
            refusals++;                                              \
            code_ = (call);                                          \
        }                                                            \
        if (code_ != OCC_OK && code_ != OCC_CONFLICT) {              \
            printf("%s: %s\n", #call, occ_strerror(code_));          \
            exit(1);                                                 \
        }                                                            \
    } while (0)

/* OCC_OK of a call that is to find its bytes malformed and does, and a want of memory as it is. */
static int malformed(int code) {
    return code == OCC_MALFORMED ? OCC_OK : code == OCC_MEMORY ? code : OCC_NULL;
}

static char *run(long refused, size_t *size) {
    static const unsigned char ann[] = {3, 0, 0, 0, 0, 0, 0, 0, 'a', 'n', 'n'};
    unsigned char row[64], *at = row;
    int64_t cell, one = 1;
    uint64_t key = 3;
    size_t count, bytes;
    occ_store *store = NULL;
    occ_worker *a = NULL, *b = NULL;
    char *book = NULL;
    left = refused;
    AGAIN(occ_open(TABLES, sizeof TABLES - 1, &store, NULL));
    AGAIN(occ_worker_open(store, &a));
    AGAIN(occ_worker_open(store, &b));
    occ_put_number(&at, row + sizeof row, 5);
    occ_put_text(&at, row + sizeof row, "a text");
    AGAIN(occ_begin(a));
    AGAIN(occ_put_int(a, 0, 3, 30));
    AGAIN(occ_put_int(a, 0, 4, 40));
    AGAIN(occ_put(a, 1, ann, sizeof ann, row, (size_t)(at - row)));
    AGAIN(occ_commit(a, NULL));
    AGAIN(occ_begin(a));
    AGAIN(occ_begin(b));
    AGAIN(occ_get(a, 1, ann, sizeof ann, row, sizeof row, &bytes));
    AGAIN(occ_get_int(a, 0, 3, &cell));
    AGAIN(occ_scan(b, 0, NULL, 0, NULL, 0, &count));
    AGAIN(occ_put_int(a, 0, 3, cell + 1));
    AGAIN(occ_delete_int(b, 0, 4));
    AGAIN(occ_scan(b, 0, &key, sizeof key, NULL, 0, &count));
    AGAIN(occ_fetch(b, row, sizeof row, &bytes, &count));
    AGAIN(occ_commit(a, NULL));
    AGAIN(occ_commit(b, NULL));
    AGAIN(occ_add(a, OCC_ADD, 0, &key, sizeof key, &one, sizeof one));
    AGAIN(occ_add(a, OCC_SCAN, 0, NULL, 0, NULL, 0));
    int code = occ_run(a, NULL, &count);
    if (code == OCC_MEMORY) {
        refusals++;
        AGAIN(occ_add(a, OCC_ADD, 0, &key, sizeof key, &one, sizeof one));
        AGAIN(occ_add(a, OCC_SCAN, 0, NULL, 0, NULL, 0));
        AGAIN(occ_run(a, NULL, &count));
    }
    AGAIN(occ_answer(a, 0, NULL, 0, &count));
    AGAIN(occ_begin(b));
    AGAIN(malformed(occ_put(b, 1, ann, sizeof ann, row, 0)));
    AGAIN(occ_abandon(b));
    AGAIN(occ_checkpoint(b, NULL));
    AGAIN(occ_book(a, &book, size));
    long unused = left;
    left = -1;
    AGAIN(occ_worker_close(&a));
    AGAIN(occ_close(&store));
    AGAIN(occ_worker_close(&b));
    if (refused >= 0 && unused >= 0 && unused != 0 && refusals == 0)
        left = unused;
    return book;
}

int main(void) {
    size_t size = 0, again = 0;
    char *wanted = run(-1, &size);
    long turn = 0;
    for (;; turn++) {
        refusals = 0;
        char *book = run(turn, &again);
        left = -1;
        if (refusals == 0) {
            free(book);
            break;
        }
        if (again != size || memcmp(book, wanted, size)) {
            printf("request %ld: the book is another\n%.*s", turn, (int)again, book);
            return 1;
        }
        free(book);
    }
    free(wanted);
    printf("%ld requests refused, each left all as it was\n", turn);
    return 0;
}
