"""Stores, transactions and their tables."""
from __future__ import annotations

import itertools
import threading
from typing import Callable, Dict, Iterable, Iterator, List, NamedTuple, Optional, Sequence, Tuple, Type, TypeVar, Union

from . import native
from .errors import Conflict, Error, NoTable, ReadOpen, TooOld, utf8
from .headers import header
from .native import ENDED, Ended
from .spelling import Form, Key, Row

Answer = TypeVar("Answer")
FOLD_EACH = 10_000
GET, PUT, DELETE, ADD, SCAN = range(5)


class Operation(NamedTuple):
    """One operation of `Store.run`; made by `get`, `put`, `delete`, `add` and `scan`."""

    kind: int
    table: str
    first: Optional[Key]
    second: object = None

    @classmethod
    def get(cls, table: str, key: Key) -> "Operation":
        return cls(GET, table, key)

    @classmethod
    def put(cls, table: str, key: Key, row: Row) -> "Operation":
        return cls(PUT, table, key, row)

    @classmethod
    def delete(cls, table: str, key: Key) -> "Operation":
        return cls(DELETE, table, key)

    @classmethod
    def add(cls, table: str, key: Key, amount: int) -> "Operation":
        """Adds to a row of one number, where an absent one is 0."""
        return cls(ADD, table, key, amount)

    @classmethod
    def scan(cls, table: str, lower: Optional[Key] = None, upper: Optional[Key] = None) -> "Operation":
        return cls(SCAN, table, lower, upper)


class Table:
    """A table within a transaction: a mapping of keys to rows, and of slices to lists of both, as in `tx.accounts[1:10]`. Each table of a
    store has a kind of its own, which knows its place and its form."""

    __slots__ = ("_tx",)
    _place: int
    _form: Form

    def __init__(self, tx: "Transaction") -> None:
        self._tx = tx

    def get(self, key: Key, default: Optional[Row] = None) -> Optional[Row]:
        """The row under a key, or `default` where there is none."""
        row = self._tx._worker.get(self._place, self._form.key(key))
        return default if row is None else self._form.read_row(row)[0]

    def __getitem__(self, key: Union[Key, slice]) -> Union[Row, List[Tuple[Key, Row]]]:
        if type(key) is slice:
            if key.step is not None:
                raise ValueError("a range of keys has no step")
            return self.scan(key.start, key.stop)
        row = self._tx._worker.get(self._place, self._form.key(key))
        if row is None:
            raise KeyError(key)
        return self._form.read_row(row)[0]

    def __setitem__(self, key: Key, row: Row) -> None:
        self._tx._worker.put(self._place, self._form.key(key), self._form.row(row))

    def __delitem__(self, key: Key) -> None:
        """Deletes the row under a key; it is a write also where there is none."""
        self._tx._worker.delete(self._place, self._form.key(key))

    def __contains__(self, key: Key) -> bool:
        return self._tx._worker.get(self._place, self._form.key(key)) is not None

    def scan(self, lower: Optional[Key] = None, upper: Optional[Key] = None) -> List[Tuple[Key, Row]]:
        """The keys and rows from `lower` on and below `upper`, in the order of the keys, at most 1,024; without an end all keys on that
        side."""
        return self._form.read_rows(self._tx._worker.scan(self._place, self._form.end(lower), self._form.end(upper)))

    def __iter__(self) -> Iterator[Key]:
        return iter([key for key, _ in self.scan()])

    def items(self) -> List[Tuple[Key, Row]]:
        """All keys and rows."""
        return self.scan()

    def __len__(self) -> int:
        return len(self.scan())


class IntTable(native.IntWays, Table):
    """A table of numbers under numbers, with a short way for each."""

    __slots__ = ()


class Log:
    """How many rows the log of a store got: one for each transaction that committed or was backed up. All threads count here, so it has only
    what one step of the interpreter does whole."""

    def __init__(self) -> None:
        self.rows = itertools.count(1)
        self.each = self.due = FOLD_EACH

    def grew(self, worker: native.Worker) -> None:
        """It got a row."""
        row = next(self.rows)
        if row >= self.due:
            self.fold(worker, row)

    def fold(self, worker: native.Worker, row: int) -> None:
        """Folds the log, at the row where that is due. What refuses it leaves the log as it was, for the next time."""
        self.due = row + self.each
        try:
            worker.checkpoint()
        except (Error, MemoryError):
            pass


class Seat:
    """What a thread alone has of a store, so that its worker is of no thread where it ends; another may get its number then."""

    __slots__ = ("worker",)

    def __init__(self, worker: native.Worker) -> None:
        self.worker = worker

    def __del__(self) -> None:
        self.worker.disown()


class Transaction:
    """An open transaction, whose tables are its attributes. `with store.begin() as tx:` commits it at the end of the block, and gives it up
    at an exception; `number` is its number then. It is for the thread that began it alone. Where nobody has it any more it is given up."""

    __slots__ = ("_store", "_worker", "number")
    _kinds: Dict[str, Type[Table]] = {}

    def __init__(self, store: "Store", worker: native.Worker) -> None:
        self._store = store
        self._worker: Union[native.Worker, Ended] = worker
        self.number: Optional[int] = None

    def __getattr__(self, name: str) -> Table:
        if name not in self._kinds:
            raise AttributeError(f"there is no table {name!r}")
        return self.table(name)

    def table(self, name: str) -> Table:
        """A table by its name, also where that is one of Python's words."""
        try:
            return self._kinds[name](self)
        except KeyError:
            raise NoTable(f"there is no table {name!r}", 1) from None

    def commit(self) -> int:
        """Ends it, and answers its number. Raises `Conflict` or `TooOld` where it is backed up."""
        worker, log = self._worker, self._store._log
        try:
            self.number = worker.commit()
        except (Conflict, TooOld):
            self._worker = ENDED
            log.grew(worker)
            raise
        self._worker = ENDED
        row = next(log.rows)
        if row >= log.due:
            log.fold(worker, row)
        return self.number

    def abandon(self) -> None:
        """Gives it up."""
        self._worker.abandon()
        self._worker = ENDED

    def __del__(self) -> None:
        if self._worker is not ENDED:
            self._let_go()

    def _let_go(self) -> None:
        if not self._worker.is_here():
            self._worker.lost = True
            return
        try:
            self.abandon()
        except Exception:  # the store may be closed, or the interpreter at its end
            pass

    def __enter__(self) -> "Transaction":
        return self

    def __exit__(self, kind: object, value: object, trace: object) -> None:
        if self._worker is ENDED:
            return
        if kind is None:
            try:
                self.commit()
            finally:
                if self._worker is not ENDED:
                    self.abandon()
        else:
            self.abandon()


def _kind(name: str, place: int, form: Form) -> Type[Table]:
    """The kind of a table."""
    return type(name, (IntTable if form.is_int else Table,), {"__slots__": (), "_place": place, "_form": form})


class Store:
    """A store with these tables, as `{"accounts": ("num", "int", "text")}`: of each its kind of keys, `num`, `text` or two of these with a
    `+`, and the kinds of its columns, `int` or `text`. At most `sessions` threads use it at a time, 1 to 64, and the write sets of the
    last `keep` transactions are kept for testing, 1 to 4,096. Each thread gets a worker by itself."""

    def __init__(self, tables: Dict[str, Sequence[str]], sessions: int = 64, keep: int = 1024) -> None:
        self._at = native.open_store(header(tables, sessions, keep))
        self._forms = {name: (native.table(self._at, name), Form(kinds[0], tuple(kinds[1:]))) for name, kinds in tables.items()}
        kinds = {name: _kind(name, place, form) for name, (place, form) in self._forms.items()}
        # A kind of its own finds its tables as any attribute is found.
        named = {name: property(kind) for name, kind in kinds.items() if not hasattr(Transaction, name)}
        self._transaction = type("Transaction", (Transaction,), {"__slots__": (), "_kinds": kinds, **named})
        self._log, self._seats = Log(), threading.local()
        self._door = threading.RLock()  # no worker is opened while the store is closed

    def _worker(self) -> native.Worker:
        """This thread's worker."""
        try:
            return self._seats.seat.worker
        except AttributeError:
            with self._door:
                self._seats.seat = Seat(native.Worker(self._at))
            return self._seats.seat.worker

    def begin(self) -> Transaction:
        """Begins a transaction of this thread; it has one at a time."""
        try:
            worker = self._seats.seat.worker
        except AttributeError:
            worker = self._worker()
        try:
            worker.begin()
        except ReadOpen:
            if not worker.give_up_lost():
                raise
            worker.begin()
        return self._transaction(self, worker)

    def transact(self, fn: Callable[[Transaction], Answer], tries: int = 100) -> Answer:
        """Calls `fn` with a transaction, commits it, and answers what `fn` answered. After a back-up it begins anew, at most `tries` times
        in all; the last one's `Conflict` or `TooOld` is raised. Any exception of `fn` gives the transaction up, and is raised."""
        for left in range(tries - 1, -1, -1):
            tx = self.begin()
            try:
                answer = fn(tx)
                if tx._worker is not ENDED:
                    tx.commit()
                return answer
            except (Conflict, TooOld):
                # where this one is open, the exception is of another one, or of `fn` itself
                if left <= 0 or tx._worker is not ENDED:
                    raise
            finally:
                if tx._worker is not ENDED:
                    tx.abandon()
        raise ValueError("a transaction is tried once at least")

    def run(self, operations: Iterable[Operation]) -> List[object]:
        """Runs operations as one transaction, which is never backed up. Answers of each `get` its row or None, and of each `scan` its keys
        and rows."""
        spelled = [self._spelled(operation) for operation in operations]
        worker = self._worker()
        worker.give_up_lost()
        try:
            for words, _ in spelled:
                worker.add(*words)
            worker.run()
        except BaseException:
            worker.clear()
            raise
        self._log.grew(worker)
        asked = [(form, words[0] == SCAN) for words, form in spelled if words[0] in (GET, SCAN)]
        return [self._answered(worker, place, form, ranged) for place, (form, ranged) in enumerate(asked)]

    def _spelled(self, operation: Operation) -> Tuple[Tuple[int, int, bytes, bytes], Form]:
        """What the library gets of an operation, and how its table is spelled."""
        try:
            place, form = self._forms[operation.table]
        except KeyError:
            raise NoTable(f"there is no table {operation.table!r}", 1) from None
        first = form.end(operation.first) if operation.kind == SCAN else form.key(operation.first)
        second = b""
        if operation.kind in (PUT, ADD):
            second = form.row(operation.second)
        elif operation.kind == SCAN:
            second = form.end(operation.second)
        return (operation.kind, place, first, second), form

    @staticmethod
    def _answered(worker: native.Worker, place: int, form: Form, ranged: bool) -> object:
        """An answer of the last run."""
        told = worker.answer(place, ranged)
        if ranged:
            return form.read_rows(told or b"")
        return None if told is None else form.read_row(told)[0]

    def checkpoint(self) -> int:
        """Folds the log as far as it can be, and answers how many rows that were. A store does so by itself each 10,000 rows."""
        return self._worker().checkpoint()

    def commits(self) -> int:
        """How many transactions committed."""
        return self._worker().count()[0]

    def book(self) -> str:
        """The book: the log with all that was read and written, the tables and the counter, as a text that `audit` judges."""
        return self._worker().book().decode("ascii")

    def leave(self) -> None:
        """Closes this thread's worker, whose session is free for another thread then. A thread that ends does so by itself."""
        seat = self._seats.__dict__.pop("seat", None)
        if seat is not None:
            seat.worker.close()

    def close(self) -> None:
        """Closes the store and this thread's worker. Calls of other threads say `Closed` from then on."""
        with self._door:
            native.close_store(self._at)
        self.leave()

    def __enter__(self) -> "Store":
        return self

    def __exit__(self, *ended: object) -> None:
        self.close()


def audit(text: str) -> bool:
    """Whether a book holds: its log explains its tables. Raises `Malformed` for what is no book."""
    return native.audit(utf8(text))


def replay(text: str, quiet: bool = False) -> str:
    """What a schedule answers, as `occ replay` prints it."""
    return native.replay(utf8(text), quiet).decode("ascii")


__all__ = ["Operation", "Store", "Table", "Transaction", "audit", "replay", "Error"]
