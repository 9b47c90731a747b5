"""What the package does with stores, tables and faults."""
import gc
import os
import subprocess
import sys
import threading
import unittest

import occ
from occ import native

TABLES = {"accounts": ("num", "int"), "owners": ("text", "int", "text"), "notes": ("num+text", "text")}


class Stores(unittest.TestCase):
    def setUp(self):
        self.store = occ.Store(TABLES, sessions=2, keep=4)
        self.addCleanup(self.store.close)

    def test_rows_are_read_back(self):
        with self.store.begin() as tx:
            tx.accounts[7] = -5
            tx.owners["ann"] = (7, "Ann é")
            tx.notes[7, "x"] = ""
        with self.store.begin() as tx:
            self.assertEqual(tx.accounts[7], -5)
            self.assertEqual(tx.owners["ann"], (7, "Ann é"))
            self.assertEqual(tx.notes.items(), [((7, "x"), "")])
            self.assertIn(7, tx.accounts)
            self.assertNotIn(8, tx.accounts)
            self.assertEqual(tx.accounts.get(8, 0), 0)
            self.assertEqual(tx.accounts[1:8], [(7, -5)])
            self.assertEqual(tx.accounts[8:], [])
            self.assertEqual(list(tx.accounts), [7])
            self.assertEqual(len(tx.owners), 1)
            del tx.accounts[7]
            with self.assertRaises(KeyError):
                tx.accounts[7]
            with self.assertRaises(AttributeError):
                tx.nothing

    def test_an_exception_gives_up(self):
        with self.assertRaises(ZeroDivisionError):
            with self.store.begin() as tx:
                tx.accounts[1] = 1 // 0
        with self.store.begin() as tx:
            self.assertNotIn(1, tx.accounts)
        self.assertEqual(self.store.commits(), 1)

    def test_a_conflict_is_raised_and_tried_again(self):
        def put(value):
            def other():
                with self.store.begin() as tx:
                    tx.accounts[1] = value
                self.store.leave()
            thread = threading.Thread(target=other)
            thread.start()
            thread.join()

        with self.assertRaises(occ.Conflict):
            with self.store.begin() as tx:
                tx.accounts[2] = tx.accounts.get(1, 0)
                put(5)
        tries = []

        def fn(tx):
            tries.append(tx.accounts.get(1))
            if len(tries) == 1:
                put(6)
            tx.accounts[2] = 0
            return "done"

        self.assertEqual(self.store.transact(fn), "done")
        self.assertEqual(tries, [5, 6])

    def test_a_conflict_of_another_store_is_not_tried_again(self):
        tries = []

        def fn(tx):
            tries.append(tx.accounts.get(1))
            tx.accounts[1] = 1
            raise occ.Conflict("of another store", 100)

        with self.assertRaises(occ.Conflict):
            self.store.transact(fn)
        self.assertEqual(tries, [None])
        self.assertEqual(self.store.run([occ.Operation.get("accounts", 1)]), [None])

        def commits(tx):
            tx.accounts[1] = 2
            return tx.commit()

        self.assertEqual(self.store.transact(commits), 2)
        self.assertEqual(self.store.run([occ.Operation.get("accounts", 1)]), [2])

    def test_faults_have_their_exceptions(self):
        with self.store.begin() as tx:
            for call, fault in [
                (lambda: tx.accounts.get("a"), occ.WrongKind), (lambda: tx.accounts.get(-1), occ.WrongKind), (lambda: tx.accounts.get(2**64), occ.WrongKind),
                (lambda: tx.accounts.__setitem__(1, 2**63), occ.WrongKind), (lambda: tx.accounts.__setitem__(1, (1, 2)), occ.WrongColumns),
                (lambda: tx.owners.__setitem__("a", 1), occ.WrongColumns), (lambda: tx.owners.get("a" * 65), occ.TooLong),
                (lambda: tx.accounts.scan(2, 2), occ.EmptyRange), (lambda: tx.notes.get(1), occ.WrongKind), (lambda: self.store.begin(), occ.ReadOpen),
            ]:
                with self.assertRaises(fault):
                    call()
        with self.assertRaises(occ.NoReadOpen):
            tx.accounts.get(1)
        with self.assertRaises(occ.Malformed) as caught:
            occ.audit("occ 2\n")
        self.assertEqual(caught.exception.line, 2)
        with self.assertRaises(occ.Malformed):
            occ.Store({"Bad name": ("num", "int")})

    def test_sessions_are_counted_and_come_back(self):
        failed = []
        ready, done = threading.Barrier(3), threading.Event()

        def hold():
            try:
                self.store.begin().abandon()
            except occ.NoSession as fault:
                failed.append(fault)
            ready.wait()
            done.wait()

        threads = [threading.Thread(target=hold) for _ in range(2)]
        self.store.begin().abandon()
        for thread in threads:
            thread.start()
        ready.wait()
        done.set()
        for thread in threads:
            thread.join()
        self.assertEqual(len(failed), 1)
        again = threading.Thread(target=lambda: self.store.begin().abandon())
        again.start()
        again.join()

    def test_operations_run_alone(self):
        put, add, get, scan, delete = occ.Operation.put, occ.Operation.add, occ.Operation.get, occ.Operation.scan, occ.Operation.delete
        answers = self.store.run([put("accounts", 1, 5), add("accounts", 1, 2), add("accounts", 2, -1), get("accounts", 1), delete("accounts", 2), scan("accounts"), get("accounts", 2)])
        self.assertEqual(answers, [7, [(1, 7)], None])
        with self.assertRaises(occ.NoTable):
            self.store.run([get("nothing", 1)])

    def test_a_refused_run_leaves_nothing_for_the_next(self):
        put, get = occ.Operation.put, occ.Operation.get
        tables = [("accounts", "x", occ.WrongKind), ("accounts", "\ud800", occ.WrongKind), ("owners", "\ud800", occ.Malformed), ("nothing", 1, occ.NoTable)]
        for table, key, fault in tables:
            with self.assertRaises(fault):
                self.store.run([put("accounts", 1, 111), get(table, key)])
            self.assertEqual(self.store.run([get("accounts", 1)]), [None])

        def some():
            yield put("accounts", 1, 111)
            raise ZeroDivisionError

        with self.assertRaises(ZeroDivisionError):
            self.store.run(some())
        with self.assertRaises(occ.TooLong):
            self.store.run([put("accounts", 1, 111), get("owners", "a" * 65)])
        with self.assertRaises(occ.SetFull):
            self.store.run([put("accounts", 1, 111)] * 257)
        with self.store.begin():
            with self.assertRaises(occ.ReadOpen):
                self.store.run([put("accounts", 1, 111)])
        self.assertEqual(self.store.run([get("accounts", 1)]), [None])

    def test_a_run_that_memory_refuses_amid_its_words_leaves_nothing(self):
        put, get, add = occ.Operation.put, occ.Operation.get, native.Worker.add
        added = []

        def refused(worker, *words):
            added.append(words)
            if len(added) == 2:
                raise MemoryError
            add(worker, *words)

        self.addCleanup(setattr, native.Worker, "add", add)
        native.Worker.add = refused
        with self.assertRaises(MemoryError):
            self.store.run([put("accounts", 1, 111), put("accounts", 2, 222)])
        native.Worker.add = add
        self.assertEqual(self.store.run([get("accounts", 1)]), [None])

    def test_ended_is_ended(self):
        for end in (occ.Transaction.commit, occ.Transaction.abandon):
            first = self.store.begin()
            kept = first.accounts, first.owners
            end(first)
            second = self.store.begin()
            for call in [
                lambda: first.accounts.__setitem__(1, 7), lambda: kept[0].__setitem__(1, 7), lambda: kept[0].get(1), lambda: kept[0][1], lambda: kept[0][1:2],
                lambda: kept[0].__delitem__(1), lambda: 1 in kept[0], lambda: kept[1].__setitem__("a", (1, "b")), lambda: kept[1]["a"], lambda: list(kept[1]),
                lambda: first.table("owners").items(), first.commit, first.abandon,
            ]:
                with self.assertRaises(occ.NoReadOpen):
                    call()
            second.accounts[2] = 5
            second.commit()
            with self.store.begin() as third:
                self.assertEqual(third.accounts.items(), [(2, 5)])
                self.assertEqual(third.owners.items(), [])

    def test_what_nobody_has_is_given_up(self):
        tx = self.store.begin()
        tx.accounts[1] = 1
        del tx
        gc.collect()
        self.store.begin().accounts[1] = 2
        table = self.store.begin().accounts
        table[1] = 3
        self.assertEqual(table[1], 3)
        with self.assertRaises(occ.ReadOpen):
            self.store.begin()
        del table
        tx = self.store.begin()
        with self.assertRaises(occ.ReadOpen):
            self.store.begin()
        self.assertEqual(tx.accounts.items(), [])
        tx.abandon()
        self.assertEqual(self.store.run([occ.Operation.scan("accounts")]), [[]])

    def test_the_log_is_folded_by_its_rows(self):
        store = occ.Store({"t": ("num", "int")}, sessions=4, keep=1)
        store._log.each = store._log.due = 20
        rows = lambda: store._worker().count()[1]  # noqa: E731

        def one_more(most):
            with store.begin() as tx:
                tx.t[1] = most
            self.assertLessEqual(rows(), 25)

        def in_a_thread(fn, *given):
            thread = threading.Thread(target=fn, args=given)
            thread.start()
            thread.join()

        for each in range(60):
            one_more(each)
        for each in range(20):  # threads one after another
            in_a_thread(lambda: [one_more(each) for _ in range(9)])
        for each in range(60):  # each is backed up
            with self.assertRaises(occ.Conflict):
                with store.begin() as tx:
                    tx.t[2] = tx.t[1]
                    in_a_thread(one_more, each)
            self.assertLessEqual(rows(), 25)
        for _ in range(60):
            store.run([occ.Operation.get("t", 1)])
            self.assertLessEqual(rows(), 25)
        self.assertEqual(store.commits(), 60 + 180 + 60 + 60)
        store.close()

    def test_bools_and_halves_of_pairs_are_refused(self):
        with self.store.begin() as tx:
            for call in [
                lambda: tx.accounts[True], lambda: tx.accounts.get(False), lambda: tx.accounts.scan(True, 5), lambda: tx.accounts[False:True],
                lambda: tx.accounts.__setitem__(True, 1), lambda: tx.accounts.__setitem__(1, True), lambda: tx.accounts.__setitem__(1, (True,)),
                lambda: tx.accounts.__delitem__(True), lambda: True in tx.accounts, lambda: tx.notes[True, "x"], lambda: tx.owners.__setitem__("a", (True, "")),
            ]:
                with self.assertRaises(occ.WrongKind):
                    call()
            for call in [
                lambda: tx.owners["\ud800"], lambda: tx.owners.__setitem__("a", (1, "\ud800")), lambda: tx.notes[1, "\udfff"], lambda: tx.owners["\ud800":],
                lambda: occ.audit("occ 2\n\ud800"), lambda: occ.replay("\ud800"), lambda: occ.Store({"\ud800": ("num", "int")}), lambda: native.table(self.store._at, "\ud800"),
            ]:
                with self.assertRaises(occ.Malformed):
                    call()
            self.assertEqual(tx.accounts.items() + tx.owners.items(), [])

    def test_a_store_says_what_is_wrong_with_its_words(self):
        for words, said in [
            (dict(tables={"my_table": ("num", "int")}), "my_table"), (dict(tables={"a" * 17: ("num", "int")}), "letters"), (dict(tables={"": ("num", "int")}), "''"),
            (dict(tables={7: ("num", "int")}), "7"), (dict(tables={"t": ("num", "float")}), "'float'"), (dict(tables={"t": ("int", "int")}), "'int' is no kind of keys"),
            (dict(tables={"t": ("num",)}), "0 columns"), (dict(tables={"t": ("num",) + ("int",) * 9}), "9 columns"), (dict(tables={"t": ()}), "no kind of keys"),
            (dict(tables={"t": "num int"}), "'num int'"), (dict(tables={"t": None}), "None"), (dict(tables={}), "0 tables"),
            (dict(tables={"t" + chr(97 + n // 26) + chr(97 + n % 26): ("num", "int") for n in range(33)}), "33 tables"),
            (dict(tables=TABLES, sessions=100), "sessions is 100"), (dict(tables=TABLES, sessions=0), "sessions is 0"), (dict(tables=TABLES, sessions="2"), "sessions is '2'"),
            (dict(tables=TABLES, keep=4097), "keep is 4097"), (dict(tables=TABLES, keep=True), "keep is True"),
        ]:
            with self.assertRaises(occ.Malformed) as caught:
                occ.Store(**words)
            self.assertIn(said, str(caught.exception))
        kinds = [f"{first}+{second}" for first in ("num", "text") for second in ("num", "text")]
        occ.Store({"t" + "abcd"[at]: [kind] + ["text"] * 8 for at, kind in enumerate(kinds)}, sessions=64, keep=4096).close()

    def test_an_import_says_which_library_it_lacks(self):
        for path, said in [("/nowhere/libocc.so", "OCC_LIBRARY"), ("libc.so.6", "occ_open")]:
            done = subprocess.run([sys.executable, "-c", "import occ"], env={**os.environ, "OCC_LIBRARY": path, "LD_PRELOAD": ""}, stderr=subprocess.PIPE, text=True)
            self.assertEqual(done.returncode, 1)
            self.assertIn("ImportError", done.stderr)
            self.assertIn(said, done.stderr)

    def test_a_closed_store_says_so(self):
        store = occ.Store(TABLES)
        store.begin().abandon()
        tx = store.begin()
        tx.accounts[1] = 1
        store.close()
        store.close()
        for call in (store.begin, store.book, store.checkpoint, lambda: store.run([]), lambda: tx.accounts[1], lambda: tx.accounts.__setitem__(1, 2), tx.commit):
            with self.assertRaises(occ.Closed) as caught:
                call()
            self.assertIn("closed", str(caught.exception))

    def test_a_store_that_nobody_has_is_closed(self):
        store = occ.Store(TABLES)
        tx = store.begin()
        at = store._at
        del store
        tx.accounts[1] = 1
        tx.commit()
        self.assertTrue(at)
        del tx

    def test_books_are_judged(self):
        with self.store.begin() as tx:
            tx.accounts[1] = 1
        book = self.store.book()
        self.assertTrue(occ.audit(book))
        self.assertFalse(occ.audit(book.replace("at accounts 1 1", "at accounts 1 2")))
        self.assertEqual(self.store.checkpoint(), 0)


if __name__ == "__main__":
    unittest.main()
