/* The loads on RocksDB's optimistic transactions, with all files in memory and no log ahead of writes. Keys that are read one by one are
 * tested at the commit; a range is read at the transaction's snapshot, and nothing tests it. The way is `keys`. */
#include "load.h"

#include <memory>
#include <string>

#include <rocksdb/env.h>
#include <rocksdb/utilities/optimistic_transaction_db.h>
#include <rocksdb/utilities/transaction.h>

struct connection {
    rocksdb::OptimisticTransactionDB *base;
    rocksdb::Transaction *open; /* kept, so that the next one needs no new one */
    rocksdb::ReadOptions reads;
};

/* Numbers as eight bytes, the highest first, so that keys stand in the order of their numbers. */
static std::string bytes_of(uint64_t number) {
    std::string bytes(8, 0);
    for (int place = 7; place >= 0; place--, number >>= 8) bytes[place] = (char)(number & 0xff);
    return bytes;
}

static int64_t number_in(const rocksdb::Slice &bytes) {
    uint64_t number = 0;
    for (size_t place = 0; place < bytes.size(); place++) number = number << 8 | (unsigned char)bytes[place];
    return (int64_t)number;
}

static enum ended ended_by(const rocksdb::Status &status) {
    return status.ok() ? DONE : status.IsBusy() || status.IsTryAgain() ? AGAIN : FAULT;
}

static rocksdb::WriteOptions unlogged(void) {
    rocksdb::WriteOptions options;
    options.disableWAL = true;
    return options;
}

static struct connection *connected(const char *way, int thread) {
    static rocksdb::OptimisticTransactionDB *base;
    (void)way;
    if (!thread) {
        rocksdb::Options options;
        options.create_if_missing = true;
        options.env = rocksdb::NewMemEnv(rocksdb::Env::Default());
        if (!rocksdb::OptimisticTransactionDB::Open(options, "/peers", &base).ok()) return nullptr;
    }
    return new connection{base, nullptr, rocksdb::ReadOptions()};
}

static enum ended begun(struct connection *store, int writes) {
    rocksdb::OptimisticTransactionOptions options;
    (void)writes;
    options.set_snapshot = true;
    store->open = store->base->BeginTransaction(unlogged(), options, store->open);
    store->reads.snapshot = store->open->GetSnapshot();
    return DONE;
}

static enum ended got(struct connection *store, uint64_t key, int64_t *number) {
    std::string row;
    rocksdb::Status status = store->open->GetForUpdate(store->reads, bytes_of(key), &row);
    *number = number_in(row);
    return ended_by(status);
}

static enum ended ranged(struct connection *store, uint64_t first, uint64_t behind, int64_t *number) {
    std::unique_ptr<rocksdb::Iterator> at(store->open->GetIterator(store->reads));
    std::string end = bytes_of(behind);
    int row = 0;
    for (at->Seek(bytes_of(first)); at->Valid() && at->key().compare(end) < 0; at->Next()) {
        volatile int64_t read = number_in(at->value());
        if (!row++) *number = read;
    }
    return ended_by(at->status());
}

static enum ended put(struct connection *store, uint64_t key, int64_t number) {
    return ended_by(store->open->Put(bytes_of(key), bytes_of((uint64_t)number)));
}

static enum ended committed(struct connection *store) { return ended_by(store->open->Commit()); }

static void given_up(struct connection *store) { store->open->Rollback(); }

static enum ended filled(struct connection *store, uint64_t rows) {
    enum ended ended = DONE;
    for (uint64_t key = 0; ended == DONE && key < rows; key++) ended = ended_by(store->base->Put(unlogged(), bytes_of(key), bytes_of(0)));
    return ended;
}

static enum ended summed(struct connection *store, uint64_t rows, int64_t *sum) {
    std::unique_ptr<rocksdb::Iterator> at(store->base->NewIterator(rocksdb::ReadOptions()));
    (void)rows;
    for (at->SeekToFirst(); at->Valid(); at->Next()) *sum += number_in(at->value());
    return ended_by(at->status());
}
