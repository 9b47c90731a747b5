/* A transfer between two accounts, which is refused where the first has too little. */
#include <inttypes.h>
#include <occ.h>
#include <stdio.h>

enum { INSUFFICIENT = 1000 };

struct transfer {
    size_t accounts;
    uint64_t from, to;
    int64_t amount;
};

static int transfer(occ_worker *bank, void *context) {
    const struct transfer *it = context;
    int64_t from, to;
    int code;
    if ((code = occ_get_int(bank, it->accounts, it->from, &from)) || (code = occ_get_int(bank, it->accounts, it->to, &to)))
        return code;
    if (from < it->amount)
        return INSUFFICIENT;
    if ((code = occ_put_int(bank, it->accounts, it->from, from - it->amount)))
        return code;
    return occ_put_int(bank, it->accounts, it->to, to + it->amount);
}

static int fill(occ_worker *bank, void *context) {
    size_t accounts = *(size_t *)context;
    int code = occ_put_int(bank, accounts, 7, 100);
    return code ? code : occ_put_int(bank, accounts, 8, 0);
}

int main(void) {
    static const char tables[] = "occ 2\nsessions 4\nqueue 1\nkeep 64\ntable accounts num int\nsteps\n";
    occ_store *store = NULL;
    occ_worker *bank = NULL;
    struct transfer it = {0, 7, 8, 30};
    uint64_t number = 0;
    int code;
    if ((code = occ_open(tables, sizeof tables - 1, &store, NULL)) || (code = occ_table(store, "accounts", &it.accounts)) ||
        (code = occ_worker_open(store, &bank)) || (code = occ_transact(bank, 1, fill, &it.accounts, NULL)))
        goto end;
    for (int turn = 0; turn < 4; turn++) {
        code = occ_transact(bank, 100, transfer, &it, &number);
        if (code == OCC_OK)
            printf("transferred, transaction %" PRIu64 "\n", number);
        else if (code == INSUFFICIENT)
            printf("insufficient funds\n");
        else
            goto end;
    }
    code = OCC_OK;
end:
    if (code)
        fprintf(stderr, "%s\n", occ_strerror(code));
    occ_worker_close(&bank);
    occ_close(&store);
    return code != OCC_OK;
}
