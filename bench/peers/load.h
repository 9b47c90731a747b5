/* What the programs in C and C++ share: the transactions of a load, the threads that make them, and the line that is printed.
 *
 * PROGRAM ROWS READS SPAN WRITES THREADS COUNT WAY: transactions on a table of so many rows of one number, which are 0 at first. Each reads
 * so many rows one by one, and so many as a range, and writes the first of them. The keys are those of crates/bench_loads. */
#include <pthread.h>
#include <stdint.h>
#include <stdio.h>
#include <stdlib.h>
#include <string.h>
#include <time.h>

#define BATCH UINT64_C(16)
enum { MOST_THREADS = 64 };

struct shape {
    uint64_t rows, reads, span, writes;
};

/* A store as one thread sees it. Each program defines it and what stands here; a call answers how it ended. */
struct connection;
enum ended { DONE, AGAIN, FAULT };
static struct connection *connected(const char *way, int thread);
static enum ended filled(struct connection *store, uint64_t rows);
static enum ended begun(struct connection *store, int writes);
static enum ended got(struct connection *store, uint64_t key, int64_t *number);
static enum ended ranged(struct connection *store, uint64_t first, uint64_t behind, int64_t *number);
static enum ended put(struct connection *store, uint64_t key, int64_t number);
static enum ended committed(struct connection *store);
static void given_up(struct connection *store);
static enum ended summed(struct connection *store, uint64_t rows, int64_t *sum);

/* One thread's part in a load. */
struct part {
    struct connection *store;
    const struct shape *shape;
    uint64_t dice, committed, tries;
    int failed;
};

static uint64_t given, count;

static int64_t amount(uint64_t place) { return place % 2 ? 1 : -1; }

/* A number below this one, by the factor and the summand of Knuth's MMIX. */
static uint64_t below(uint64_t *dice, uint64_t limit) {
    *dice = *dice * 6364136223846793005u + 1442695040888963407u;
    return limit ? (*dice >> 33) % limit : 0;
}

static enum ended tried(struct connection *store, const struct shape *shape, uint64_t first) {
    uint64_t most = shape->reads > shape->writes ? shape->reads : shape->writes;
    int64_t number = 0;
    enum ended ended = begun(store, shape->writes > 0);
    if (ended == DONE && shape->span) ended = ranged(store, first, first + shape->span, &number);
    for (uint64_t place = 0; ended == DONE && place < most; place++) {
        uint64_t key = (first + place * (shape->span ? 1 : 7919)) % shape->rows;
        if (place < shape->reads) ended = got(store, key, &number);
        if (ended == DONE && place < shape->writes) ended = put(store, key, number + amount(place));
    }
    if (ended == DONE) ended = committed(store);
    if (ended != DONE) given_up(store);
    return ended;
}

/* Makes transactions, 16 at a time, until as many as there are to be are made by all. */
static void *worked(void *told) {
    struct part *part = (struct part *)told;
    uint64_t taken;
    while ((taken = __atomic_fetch_add(&given, BATCH, __ATOMIC_SEQ_CST)) < count) {
        uint64_t many = count - taken < BATCH ? count - taken : BATCH;
        for (; many; many--) {
            uint64_t first = below(&part->dice, part->shape->rows - part->shape->span);
            enum ended ended;
            do {
                part->tries++;
                ended = tried(part->store, part->shape, first);
            } while (ended == AGAIN);
            if (ended == FAULT) {
                part->failed = 1;
                return NULL;
            }
            part->committed++;
        }
    }
    return NULL;
}

static int64_t micros(void) {
    struct timespec now;
    clock_gettime(CLOCK_MONOTONIC, &now);
    return (int64_t)now.tv_sec * 1000000 + now.tv_nsec / 1000;
}

/* Does the load by so many threads, each with a connection of its own, and prints what became of it. */
static int played(const struct shape *shape, int threads, const char *way) {
    static struct part parts[MOST_THREADS];
    static pthread_t running[MOST_THREADS];
    uint64_t all = 0, tries = 0, least = UINT64_MAX;
    int64_t sum = 0, wanted = 0;
    int failed = 0;
    for (int thread = 0; thread < threads; thread++) {
        parts[thread].store = connected(way, thread);
        parts[thread].shape = shape;
        parts[thread].dice = ((uint64_t)thread * 0x9E3779B97F4A7C15u) | 1;
        if (!parts[thread].store) return 1;
    }
    if (filled(parts[0].store, shape->rows) != DONE) return 1;
    int64_t begun_at = micros();
    for (int thread = 0; thread < threads; thread++)
        if (pthread_create(&running[thread], NULL, worked, &parts[thread])) return 1;
    for (int thread = 0; thread < threads; thread++) pthread_join(running[thread], NULL);
    int64_t taken = micros() - begun_at;
    for (int thread = 0; thread < threads; thread++) {
        all += parts[thread].committed;
        tries += parts[thread].tries;
        failed |= parts[thread].failed;
        if (parts[thread].committed < least) least = parts[thread].committed;
    }
    for (uint64_t place = 0; place < shape->writes; place++) wanted += amount(place);
    if (failed || summed(parts[0].store, shape->rows, &sum) != DONE) return 1;
    int right = all == count && sum == wanted * (int64_t)all;
    printf("%llu committed, %llu backed up, %lld us, at least %llu by a thread, %s\n", (unsigned long long)all,
           (unsigned long long)(tries - all), (long long)taken, (unsigned long long)least, right ? "as it must be" : "and something is wrong");
    return !right;
}

int main(int words, char **told) {
    struct shape shape;
    if (words != 8 || atoi(told[5]) < 1 || atoi(told[5]) > MOST_THREADS) {
        fprintf(stderr, "%s ROWS READS SPAN WRITES THREADS COUNT WAY\n", told[0]);
        return 2;
    }
    shape.rows = strtoull(told[1], NULL, 10);
    shape.reads = strtoull(told[2], NULL, 10);
    shape.span = strtoull(told[3], NULL, 10);
    shape.writes = strtoull(told[4], NULL, 10);
    count = strtoull(told[6], NULL, 10);
    return played(&shape, atoi(told[5]), told[7]);
}
