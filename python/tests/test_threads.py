"""What the package does where threads share what is one thread's own. These run under the sanitizers too."""
import threading
import unittest
from concurrent.futures import ThreadPoolExecutor

import occ
from occ import native

TABLES = {"t": ("num", "int"), "s": ("num", "text")}


def in_a_thread(fn, *given):
    """What a function answers, or raises, in a thread of its own."""
    with ThreadPoolExecutor(1) as pool:
        return pool.submit(fn, *given).result()


class Threads(unittest.TestCase):
    def setUp(self):
        self.store = occ.Store(TABLES, sessions=12, keep=64)
        self.addCleanup(self.store.close)
        with self.store.begin() as tx:
            for key in range(120):
                tx.t[key] = key

    def refused(self, call, *given):
        """A call that is refused in another thread."""
        with self.assertRaises(occ.WrongThread):
            in_a_thread(call, *given)

    def test_a_transaction_is_for_its_own_thread(self):
        with self.store.begin() as tx:
            table, other = tx.t, tx.s
            calls = [
                lambda k: tx.t[k], lambda k: table[k], table.get, lambda k: table.__setitem__(k, 9), lambda k: table[k:], lambda k: k in table,
                lambda k: table.__delitem__(k), lambda k: other[k], lambda k: other.__setitem__(k, "x"), lambda k: len(other), lambda k: tx.commit(), lambda k: tx.abandon(),
            ]
            with ThreadPoolExecutor(8) as pool:
                asked = [pool.submit(call, k) for k in range(60) for call in calls]
                rows = [tx.t[k] for k in range(120)]
                for key in range(120, 180):
                    tx.t[key] = key
                for each in asked:
                    self.assertIsInstance(each.exception(), occ.WrongThread)
            self.assertEqual(rows, list(range(120)))
        with self.store.begin() as tx:
            self.assertEqual(tx.t.items(), [(key, key) for key in range(180)])
            self.assertEqual(tx.s.items(), [])

    def test_a_worker_is_for_its_own_thread(self):
        at = native.open_store(b"occ 2\nsessions 2\nqueue 1\nkeep 1\ntable t num int\nsteps\n")
        worker = native.Worker(at)
        worker.begin()
        key = bytes(8)
        for name, given in [
            ("get", (0, key)), ("put", (0, key, key)), ("delete", (0, key)), ("scan", (0, b"", b"")), ("commit", ()), ("abandon", ()), ("add", (0, 0, key, b"")), ("clear", ()),
            ("run", ()), ("answer", (0, False)), ("checkpoint", ()), ("count", ()), ("book", ()),
        ]:
            self.refused(getattr(worker, name), *given)
        worker.commit()
        worker.close()
        native.close_store(at)

    def test_what_another_thread_lets_go_of_is_given_up(self):
        for turn in range(3):
            box = [self.store.begin()]
            box[0].t[1] = 99
            in_a_thread(box.clear)
            if turn == 0:
                self.assertEqual(self.store.run([occ.Operation.get("t", 1)]), [1])
            with self.store.begin() as tx:
                self.assertEqual(tx.t[1], 1)

    def test_a_thread_that_ends_leaves_its_transaction_to_nobody(self):
        box = []
        in_a_thread(lambda: box.append(self.store.begin()))
        self.refused(box[0].commit)
        with self.assertRaises(occ.WrongThread):
            box[0].t[1] = 5
        box.clear()
        for _ in range(40):
            in_a_thread(lambda: self.store.begin().abandon())
        with self.store.begin() as tx:
            self.assertEqual(tx.t[1], 1)

    def test_a_store_is_closed_while_threads_are_at_work(self):
        store = occ.Store(TABLES, sessions=8, keep=64)
        begun = threading.Barrier(7)

        def add(tx):
            tx.t[1] = tx.t.get(1, 0) + 1

        def work():
            begun.wait()
            try:
                while True:
                    store.transact(add, tries=1000)
            except occ.Closed:
                return "closed"

        with ThreadPoolExecutor(6) as pool:
            working = [pool.submit(work) for _ in range(6)]
            begun.wait()
            store.close()
            self.assertEqual([each.result() for each in working], ["closed"] * 6)

    def test_threads_count_the_rows_of_the_log_together(self):
        store = occ.Store(TABLES, sessions=8, keep=1)
        store._log.each = store._log.due = 50

        def add(tx):
            tx.t[1] = tx.t.get(1, 0) + 1

        def work(_):
            for _ in range(60):
                store.transact(add, tries=100_000)

        with ThreadPoolExecutor(6) as pool:
            list(pool.map(work, range(6)))
        with store.begin() as tx:
            self.assertEqual(tx.t[1], 360)
        self.assertLess(store._worker().count()[1], 150)
        self.assertTrue(occ.audit(store.book()))
        store.close()


if __name__ == "__main__":
    unittest.main()
