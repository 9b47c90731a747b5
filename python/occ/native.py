"""The library by ctypes, or by cffi where the package was built with it: the one file that knows either.

Each function takes and answers plain Python values, raises what a code says, and is given bytes for keys and rows.
"""
from __future__ import annotations

import ctypes
import os
import sys
from ctypes import byref, c_char_p, c_int, c_int64, c_size_t, c_uint64, c_void_p
from threading import get_ident
from typing import Optional

from .errors import NO_READ_OPEN, NULL, WORKER_BUSY, NoReadOpen, refused, utf8

ROW_MAX = 2112
NO_ROW = 102
ROOM = 103


def _found() -> str:
    """Where the library is: as OCC_LIBRARY says, beside this file, or where the system looks."""
    name = "libocc.dylib" if sys.platform == "darwin" else "libocc.so"
    beside = os.path.join(os.path.dirname(os.path.abspath(__file__)), name)
    return os.environ.get("OCC_LIBRARY") or (beside if os.path.exists(beside) else name)


def _loaded(path: str) -> ctypes.CDLL:
    try:
        return ctypes.CDLL(path)
    except OSError as fault:
        raise ImportError(f"there is no library {path} that can be loaded ({fault}): build libocc by tools/build_c.py, and name it by OCC_LIBRARY") from fault


_path = _found()
_lib = _loaded(_path)


def _declared(name: str, *kinds: object, answers: object = c_int):
    try:
        function = getattr(_lib, name)
    except AttributeError:
        raise ImportError(f"the library {_path} has no {name}: it is of another version than this package; OCC_LIBRARY names the right one") from None
    function.argtypes = list(kinds)
    function.restype = answers
    return function


_sizes, _numbers, _place = ctypes.POINTER(c_size_t), ctypes.POINTER(c_uint64), ctypes.POINTER(c_void_p)
_open = _declared("occ_open", c_char_p, c_size_t, _place, _numbers)
_close = _declared("occ_close", _place)
_table = _declared("occ_table", c_void_p, c_char_p, _sizes)
_worker_open = _declared("occ_worker_open", c_void_p, _place)
_worker_close = _declared("occ_worker_close", _place)
_worker_bind = _declared("occ_worker_bind", c_void_p)
_begin = _declared("occ_begin", c_void_p)
_get = _declared("occ_get", c_void_p, c_size_t, c_void_p, c_size_t, c_void_p, c_size_t, _sizes)
_put = _declared("occ_put", c_void_p, c_size_t, c_void_p, c_size_t, c_void_p, c_size_t)
_get_int = _declared("occ_call_get_int", c_void_p, c_size_t, c_uint64, ctypes.POINTER(c_int64))
_put_int = _declared("occ_call_put_int", c_void_p, c_size_t, c_uint64, c_int64)
_delete = _declared("occ_delete", c_void_p, c_size_t, c_char_p, c_size_t)
_scan = _declared("occ_scan", c_void_p, c_size_t, c_char_p, c_size_t, c_char_p, c_size_t, _sizes)
_fetch = _declared("occ_fetch", c_void_p, c_void_p, c_size_t, _sizes, _sizes)
_commit = _declared("occ_commit", c_void_p, _numbers)
_abandon = _declared("occ_abandon", c_void_p)
_add = _declared("occ_add", c_void_p, c_int, c_size_t, c_char_p, c_size_t, c_char_p, c_size_t)
_clear = _declared("occ_clear", c_void_p)
_run = _declared("occ_run", c_void_p, _numbers, _sizes)
_answer = _declared("occ_answer", c_void_p, c_size_t, c_void_p, c_size_t, _sizes)
_checkpoint = _declared("occ_checkpoint", c_void_p, _sizes)
_count = _declared("occ_count", c_void_p, _numbers, _sizes)
_book = _declared("occ_book", c_void_p, _place, _sizes)
_audit = _declared("occ_audit", c_char_p, c_size_t, ctypes.POINTER(c_int), _numbers)
_replay = _declared("occ_replay", c_char_p, c_size_t, c_int, _place, _sizes, _numbers)
_strerror = _declared("occ_strerror", c_int, answers=c_char_p)
_version = _declared("occ_version", answers=c_char_p)
_free = ctypes.CDLL(None).free
_free.argtypes = [c_void_p]
_free.restype = None


def version() -> str:
    return _version().decode()


def _check(code: int, line: int = 0) -> None:
    if code:
        raise refused(code, _strerror(code).decode() + (f" (line {line})" if line else ""), line)


class Opened(c_void_p):
    """A store, which is closed where nobody has it any more."""

    def __del__(self) -> None:
        try:
            close_store(self)
        except Exception:  # the interpreter may be at its end
            pass


def open_store(text: bytes) -> Opened:
    store, line = Opened(), c_uint64()
    _check(_open(text, len(text), byref(store), byref(line)), line.value)
    return store


def close_store(store: c_void_p) -> None:
    if store:
        _check(_close(byref(store)))


def table(store: c_void_p, name: str) -> int:
    place = c_size_t()
    _check(_table(store, utf8(name), byref(place)))
    return place.value


def audit(text: bytes) -> bool:
    holds, line = c_int(), c_uint64()
    _check(_audit(text, len(text), byref(holds), byref(line)), line.value)
    return bool(holds.value)


def _taken(text: c_void_p, size: c_size_t) -> bytes:
    try:
        return ctypes.string_at(text, size.value)
    finally:
        _free(text)


def replay(text: bytes, quiet: bool) -> bytes:
    answer, size, line = c_void_p(), c_size_t(), c_uint64()
    _check(_replay(text, len(text), quiet, byref(answer), byref(size), byref(line)), line.value)
    return _taken(answer, size)


class Worker:
    """A worker of a store, for the thread that opens it: the library refuses calls of others, before they touch what is shared here."""

    def __init__(self, store: c_void_p) -> None:
        self._held, self._store, self.lost = c_void_p(), store, False
        self.at = self._held
        self.thread: Optional[int] = get_ident()
        self._check(_worker_open(store, byref(self._held)))
        self._check(_worker_bind(self._held))
        self._room = ctypes.create_string_buffer(ROW_MAX)
        self._rows: Optional[ctypes.Array] = None
        self._size, self._number = c_size_t(), c_uint64()
        self._size_at, self._number_at = byref(self._size), byref(self._number)
        self.cell = c_int64()
        self.cell_at = byref(self.cell)

    def give_up_lost(self) -> bool:
        """Gives up the open transaction, where another thread let go of it."""
        lost, self.lost = self.lost, False
        if lost:
            self.abandon()
        return lost

    def is_here(self) -> bool:
        """Whether this thread opened it."""
        return get_ident() == self.thread

    def disown(self) -> None:
        """It is of no thread from now on, since its own has ended, whose number another may get."""
        if self._held:
            self.at, self.thread = c_void_p(), None

    def close(self) -> None:
        if self._held:
            self._check(_worker_close(byref(self._held)))

    def failed(self, code: int) -> None:
        raise refused(WORKER_BUSY if code == NULL and self.thread is None else code, _strerror(code).decode())

    def _check(self, code: int) -> None:
        if code:
            self.failed(code)

    def __del__(self) -> None:
        try:
            self.close()
        except Exception:  # the interpreter may be at its end
            pass

    def begin(self) -> None:
        code = _begin(self.at)
        if code:
            self.failed(code)

    def get(self, table: int, key: bytes) -> Optional[bytes]:
        code = _get(self.at, table, key, len(key), self._room, ROW_MAX, self._size_at)
        if code == NO_ROW:
            return None
        if code:
            self.failed(code)
        return self._room.raw[:self._size.value] if self._size.value != 8 else self._room[:8]

    def put(self, table: int, key: bytes, row: bytes) -> None:
        code = _put(self.at, table, key, len(key), row, len(row))
        if code:
            self.failed(code)

    def delete(self, table: int, key: bytes) -> None:
        self._check(_delete(self.at, table, key, len(key)))

    def scan(self, table: int, lower: bytes, upper: bytes) -> bytes:
        """The rows of a range, each its key and then its row."""
        self._check(_scan(self.at, table, lower, len(lower), upper, len(upper), self._size_at))
        return self._fetched(self._size.value)

    def _fetched(self, left: int) -> bytes:
        if self._rows is None:
            self._rows = ctypes.create_string_buffer(65536)
        parts, count = [], c_size_t()
        while left > 0:
            self._check(_fetch(self.at, self._rows, len(self._rows), self._size_at, byref(count)))
            parts.append(ctypes.string_at(self._rows, self._size.value))
            left -= count.value
        return b"".join(parts)

    def commit(self) -> int:
        code = _commit(self.at, self._number_at)
        if code:
            self.failed(code)
        return self._number.value

    def abandon(self) -> None:
        self._check(_abandon(self.at))

    def add(self, kind: int, table: int, first: bytes, second: bytes) -> None:
        self._check(_add(self.at, kind, table, first, len(first), second, len(second)))

    def clear(self) -> None:
        """Empties the list of operations that were added."""
        self._check(_clear(self.at))

    def run(self) -> tuple[int, int]:
        """The transaction number, and how many answers there are."""
        self._check(_run(self.at, self._number_at, self._size_at))
        return self._number.value, self._size.value

    def answer(self, place: int, ranged: bool) -> Optional[bytes]:
        code = _answer(self.at, place, self._room, ROW_MAX, self._size_at)
        if code == NO_ROW:
            return None
        self._check(code)
        return self._fetched(self._size.value) if ranged else self._room.raw[:self._size.value]

    def checkpoint(self) -> int:
        self._check(_checkpoint(self.at, self._size_at))
        return self._size.value

    def count(self) -> tuple[int, int]:
        self._check(_count(self.at, self._number_at, self._size_at))
        return self._number.value, self._size.value

    def book(self) -> bytes:
        text = c_void_p()
        self._check(_book(self.at, byref(text), self._size_at))
        return _taken(text, self._size)


class Ended:
    """Stands where a transaction that is over had its worker. Each call says so, and the library refuses its null pointer."""

    at = to = cell_at = int = None

    def failed(self, *given: object) -> object:
        raise NoReadOpen("the transaction is over", NO_READ_OPEN)

    get = put = delete = scan = commit = abandon = failed


ENDED = Ended()


class IntWays:
    """The short ways of a table of numbers under numbers: each is one call of the library. What isn't such a number goes the long way, which
    says so."""

    __slots__ = ()

    def get(self, key, default=None):
        if type(key) is not int or key >> 64:
            return super().get(key, default)
        worker = self._tx._worker
        code = _get_int(worker.at, self._place, key, worker.cell_at)
        if code == 0:
            return worker.cell.value
        if code != NO_ROW:
            worker.failed(code)
        return default

    def __getitem__(self, key):
        if type(key) is not int or key >> 64:
            return super().__getitem__(key)
        worker = self._tx._worker
        code = _get_int(worker.at, self._place, key, worker.cell_at)
        if code == 0:
            return worker.cell.value
        if code != NO_ROW:
            worker.failed(code)
        raise KeyError(key)

    def __setitem__(self, key, row):
        if type(key) is not int or key >> 64 or type(row) is not int or not -1 << 63 <= row < 1 << 63:
            return super().__setitem__(key, row)
        worker = self._tx._worker
        code = _put_int(worker.at, self._place, key, row)
        if code:
            worker.failed(code)


try:
    from ._compiled import ffi as _ffi, lib as _fast
except ImportError:
    _ffi = _fast = None

if _fast is not None:
    _slow = Worker
    Ended.to = Ended.int = _ffi.NULL

    class Worker(_slow):  # type: ignore[no-redef]
        """The same with short ways by cffi, which take half the time."""

        def __init__(self, store: c_void_p) -> None:
            super().__init__(store)
            self.to = _ffi.cast("occ_worker *", self.at.value)
            self.int, self._sized, self._told = _ffi.new("int64_t *"), _ffi.new("size_t *"), _ffi.new("uint64_t *")
            self._bytes = _ffi.new(f"char[{ROW_MAX}]")

        def disown(self) -> None:
            super().disown()
            self.to = _ffi.NULL

        def close(self) -> None:
            super().close()
            self.to = _ffi.NULL

        def begin(self) -> None:
            code = _fast.occ_begin(self.to)
            if code:
                self.failed(code)

        def commit(self) -> int:
            code = _fast.occ_commit(self.to, self._told)
            if code:
                self.failed(code)
            return self._told[0]

        def get(self, table: int, key: bytes) -> Optional[bytes]:
            code = _fast.occ_get(self.to, table, key, len(key), self._bytes, ROW_MAX, self._sized)
            if code == NO_ROW:
                return None
            if code:
                self.failed(code)
            return _ffi.buffer(self._bytes, self._sized[0])[:]

        def put(self, table: int, key: bytes, row: bytes) -> None:
            code = _fast.occ_put(self.to, table, key, len(key), row, len(row))
            if code:
                self.failed(code)

    class IntWays:  # type: ignore[no-redef]
        """The same by cffi."""

        __slots__ = ()

        def get(self, key, default=None):
            if type(key) is not int or key >> 64:
                return super().get(key, default)
            worker = self._tx._worker
            code = _fast.occ_get_int(worker.to, self._place, key, worker.int)
            if code == 0:
                return worker.int[0]
            if code != NO_ROW:
                worker.failed(code)
            return default

        def __getitem__(self, key):
            if type(key) is not int or key >> 64:
                return super().__getitem__(key)
            worker = self._tx._worker
            code = _fast.occ_get_int(worker.to, self._place, key, worker.int)
            if code == 0:
                return worker.int[0]
            if code != NO_ROW:
                worker.failed(code)
            raise KeyError(key)

        def __setitem__(self, key, row):
            if type(key) is not int or key >> 64 or type(row) is not int or not -1 << 63 <= row < 1 << 63:
                return super().__setitem__(key, row)
            worker = self._tx._worker
            code = _fast.occ_put_int(worker.to, self._place, key, row)
            if code:
                worker.failed(code)
