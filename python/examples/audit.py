"""Writes a book, changes one number in it, and has both judged."""
import occ


def main():
    with occ.Store({"accounts": ("num", "int")}) as store:
        with store.begin() as tx:
            tx.accounts[7] = 30
        book = store.book()
    print("audit", "yes" if occ.audit(book) else "no")
    print("audit", "yes" if occ.audit(book.replace("at accounts 7 30", "at accounts 7 31")) else "no")


if __name__ == "__main__":
    main()
