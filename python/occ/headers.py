"""The text that opens a store. What is wrong with its words is said here, by their names in Python."""
from __future__ import annotations

import re
from typing import Dict, Sequence

from .errors import MALFORMED, Malformed

NAME = re.compile("[a-z]{1,16}")
PARTS, CELLS = ("num", "text"), ("int", "text")
KEYS = PARTS + tuple(f"{first}+{second}" for first in PARTS for second in PARTS)
MAX_TABLES, MAX_COLUMNS, MAX_SESSIONS, MAX_KEEP = 32, 8, 64, 4096


def _wrong(message: str) -> Malformed:
    return Malformed(message, MALFORMED)


def _words(kinds: Sequence[str]) -> str:
    return ", ".join(repr(kind) for kind in kinds)


def _check_table(name: object, kinds: object) -> None:
    if not isinstance(name, str) or not NAME.fullmatch(name):
        raise _wrong(f"the table name {name!r} is not 1 to 16 of the letters a to z")
    if isinstance(kinds, str) or not isinstance(kinds, Sequence) or not all(isinstance(kind, str) for kind in kinds):
        raise _wrong(f"table {name}: {kinds!r} is not a sequence of kinds, as ('num', 'int')")
    if not kinds or kinds[0] not in KEYS:
        raise _wrong(f"table {name}: {(kinds or [''])[0]!r} is no kind of keys; these are {_words(KEYS)}")
    if not 1 <= len(kinds) - 1 <= MAX_COLUMNS:
        raise _wrong(f"table {name}: it has {len(kinds) - 1} columns, and may have 1 to {MAX_COLUMNS}")
    for kind in kinds[1:]:
        if kind not in CELLS:
            raise _wrong(f"table {name}: {kind!r} is no kind of a column; these are {_words(CELLS)}")


def _check_number(name: str, value: object, most: int) -> None:
    if type(value) is not int or not 1 <= value <= most:
        raise _wrong(f"{name} is {value!r}, and may be 1 to {most}")


def header(tables: Dict[str, Sequence[str]], sessions: int, keep: int) -> bytes:
    """The text of these tables and numbers."""
    _check_number("sessions", sessions, MAX_SESSIONS)
    _check_number("keep", keep, MAX_KEEP)
    if not 1 <= len(tables) <= MAX_TABLES:
        raise _wrong(f"there are {len(tables)} tables, and may be 1 to {MAX_TABLES}")
    for name, kinds in tables.items():
        _check_table(name, kinds)
    lines = ["occ 2", f"sessions {sessions}", "queue 1", f"keep {keep}"]
    lines += [f"table {name} {' '.join(kinds)}" for name, kinds in tables.items()] + ["steps", ""]
    return "\n".join(lines).encode()
