"""Exceptions, one for each code that a program can do something about."""


class Error(Exception):
    """A call was refused, and everything is as it was."""

    code = 0

    def __init__(self, message: str, code: int = 0, line: int = 0) -> None:
        super().__init__(message)
        self.code = code
        self.line = line


class NoTable(Error, LookupError):
    """There is no such table."""


class WrongKind(Error, TypeError):
    """A key or a cell is of another kind than its table's."""


class WrongColumns(Error, ValueError):
    """A row has another number of cells than its table has columns."""


class TooLong(Error, ValueError):
    """A text of a key has over 64 bytes, or one of a cell over 256."""


class EmptyRange(Error, ValueError):
    """The lower end of a range is not below its upper end."""


class SetFull(Error):
    """A transaction writes over 256 keys, asks over 256 questions, or has over 256 operations."""


class NoSession(Error):
    """As many threads have a worker as the store has sessions."""


class LogFull(Error):
    """The log has 1,048,576 rows: `checkpoint` makes room."""


class CounterExhausted(Error):
    """The store has committed all transactions that it can."""


class RangeTooLarge(Error):
    """A range has over 1,024 rows."""


class ReadOpen(Error):
    """A transaction of this thread is open."""


class NoReadOpen(Error):
    """The transaction is over."""


class Conflict(Error):
    """Backed up: another transaction wrote what this one read or writes. Try it again."""


class TooOld(Error):
    """Backed up: it began too long ago to be tested. Try it again."""


class Malformed(Error, ValueError):
    """A text is none of the grammar, where `line` is the number of the first line that isn't; or a store can't be opened with these tables and
    numbers; or a string can't be written as UTF-8."""


class Closed(Error):
    """The store is closed."""


class WrongThread(Error, RuntimeError):
    """A transaction is used in another thread than the one that began it."""


KINDS = {
    1: NoTable, 2: WrongKind, 3: WrongColumns, 4: TooLong, 5: EmptyRange, 7: SetFull, 12: NoSession, 22: LogFull, 23: CounterExhausted,
    24: RangeTooLarge, 27: ReadOpen, 28: NoReadOpen, 100: Conflict, 101: TooOld, 104: Malformed, 105: Closed, 106: Closed, 108: Malformed, 110: WrongThread,
}
MEMORY, NO_READ_OPEN, MALFORMED, NULL, NOT_UTF8, WORKER_BUSY = 8, 28, 104, 106, 108, 110
SENTENCES = {NULL: "the store is closed, or this thread has left it", WORKER_BUSY: "a transaction is used in another thread than the one that began it"}


def refused(code: int, message: str, line: int = 0) -> Exception:
    """The exception for a code."""
    if code == MEMORY:
        return MemoryError(message)
    return KINDS.get(code, Error)(SENTENCES.get(code, message), code, line)


def utf8(text: str) -> bytes:
    """The bytes of a string; one with half a surrogate pair has none."""
    try:
        return text.encode()
    except UnicodeEncodeError:
        raise Malformed(f"{text!r} can't be written as UTF-8", NOT_UTF8) from None
