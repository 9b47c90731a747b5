"""A bank in threads: each moves money, a phantom in a range is caught, and the book holds."""
import random
import threading

import occ

ACCOUNTS, EACH, THREADS, TRANSFERS = 50, 1000, 4, 500


def move(tx, source, target, amount):
    tx.accounts[source] -= amount
    tx.accounts[target] += amount


def work(store, seed):
    chance = random.Random(seed)
    for _ in range(TRANSFERS):
        source, target = chance.sample(range(ACCOUNTS), 2)
        store.transact(lambda tx: move(tx, source, target, chance.randrange(10)), tries=10_000)


def phantom(store):
    """One thread reads a range, another puts a row into it, and the first is backed up."""

    def put():
        with store.begin() as tx:
            tx.accounts[1500] = 0

    try:
        with store.begin() as tx:
            tx.accounts[0] = len(tx.accounts[1000:2000])
            other = threading.Thread(target=put)
            other.start()
            other.join()
    except occ.Conflict as conflict:
        print("the phantom:", conflict)


def main():
    store = occ.Store({"accounts": ("num", "int")}, sessions=8)
    with store.begin() as tx:
        for account in range(ACCOUNTS):
            tx.accounts[account] = EACH
    threads = [threading.Thread(target=work, args=(store, seed)) for seed in range(THREADS)]
    for thread in threads:
        thread.start()
    for thread in threads:
        thread.join()
    with store.begin() as tx:
        rows = tx.accounts.items()
    print(len(rows), "accounts, sum", sum(balance for _, balance in rows))
    phantom(store)
    print("audit", "yes" if occ.audit(store.book()) else "no")
    store.close()


if __name__ == "__main__":
    main()
