"""A proved table store in memory, shared by the threads of a process.

    store = occ.Store({"accounts": ("num", "int"), "owners": ("text", "int", "text")})

    with store.begin() as tx:
        tx.accounts[7] = tx.accounts.get(7, 0) + 30

A transaction reads what is committed by then and its own writes over it. It commits at the end of its block, and is given up at an exception,
or where nobody has it any more. Where another transaction wrote what it read or writes, it is backed up and nothing of it is done: the block
ends with `Conflict`, and only then is it known that what was read doesn't fit together. `transact` tries again by itself:

    def pay(tx):
        tx.accounts[7] -= 30
        tx.accounts[8] += 30

    store.transact(pay)

Keys are numbers from 0 to 2**64 - 1, strings, or pairs of these; a cell is a number of 64 bits with a sign, or a string. A row of one cell
is that cell, and a row of several is a tuple of them.
"""
from .errors import (
    Closed, Conflict, CounterExhausted, EmptyRange, Error, LogFull, Malformed, NoReadOpen, NoSession, NoTable, RangeTooLarge, ReadOpen, SetFull,
    TooLong, TooOld, WrongColumns, WrongKind, WrongThread,
)
from .store import Operation, Store, Table, Transaction, audit, replay
from .native import version

__version__ = version()
__all__ = [
    "Closed", "Conflict", "CounterExhausted", "EmptyRange", "Error", "LogFull", "Malformed", "NoReadOpen", "NoSession", "NoTable", "Operation",
    "RangeTooLarge", "ReadOpen", "SetFull", "Store", "Table", "TooLong", "TooOld", "Transaction", "WrongColumns", "WrongKind", "WrongThread",
    "audit", "replay",
]
