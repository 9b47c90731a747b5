"""A transfer between two accounts, which is refused where the first has too little."""
import occ


class Insufficient(Exception):
    pass


def transfer(tx, source, target, amount):
    if tx.accounts[source] < amount:
        raise Insufficient
    tx.accounts[source] -= amount
    tx.accounts[target] += amount
    return tx.accounts[target]


def main():
    store = occ.Store({"accounts": ("num", "int")})
    with store.begin() as tx:
        tx.accounts[7], tx.accounts[8] = 100, 0
    for _ in range(4):
        try:
            print("transferred, the second has", store.transact(lambda tx: transfer(tx, 7, 8, 30)))
        except Insufficient:
            print("insufficient funds")
    store.close()


if __name__ == "__main__":
    main()
