"""Keys and rows as the library has them: a number is 8 bytes, a text its length and its UTF-8."""
from __future__ import annotations

import struct
from typing import Callable, Optional, Tuple, Union

from .errors import WrongColumns, WrongKind, utf8

Part = Union[int, str]
Key = Union[int, str, Tuple[Part, Part]]
Cell = Union[int, str]
Row = Union[Cell, Tuple[Cell, ...]]

_unsigned, _signed = struct.Struct("=Q"), struct.Struct("=q")


def _number(value: object, packed: struct.Struct) -> bytes:
    if type(value) is not int:
        raise WrongKind(f"{value!r} is not a whole number", 2)
    try:
        return packed.pack(value)
    except struct.error:
        raise WrongKind(f"{value} is no number of 64 bits", 2) from None


def _text(value: object) -> bytes:
    if not isinstance(value, str):
        raise WrongKind(f"{value!r} is not a string", 2)
    spelled = utf8(value)
    return _unsigned.pack(len(spelled)) + spelled


def _read_text(data: bytes, at: int) -> tuple[str, int]:
    begin = at + 8
    end = begin + _unsigned.unpack_from(data, at)[0]
    return data[begin:end].decode(), end


def _read_number(data: bytes, at: int, packed: struct.Struct) -> tuple[int, int]:
    return packed.unpack_from(data, at)[0], at + 8


class Form:
    """How the keys and the rows of a table are spelled: the kind of its keys, `num`, `text` or two of these with a `+`, and those of its
    columns, `int` or `text`."""

    def __init__(self, key: str, columns: Tuple[str, ...]) -> None:
        self.parts, self.columns = key.split("+"), columns
        self.is_int = key == "num" and columns == ("int",)
        self.key: Callable[[object], bytes] = self._key
        if self.parts == ["num"]:
            self.key = self._only_number
        self.row: Callable[[object], bytes] = self._row
        if columns == ("int",):
            self.row, self.read_row = self._only_int, self._read_int
        else:
            self.read_row = self._read_row

    @staticmethod
    def _only_number(key: object) -> bytes:
        if type(key) is bool:
            return _number(key, _unsigned)
        try:
            return _unsigned.pack(key)
        except struct.error:
            return _number(key, _unsigned)

    @staticmethod
    def _only_int(row: object) -> bytes:
        if type(row) is tuple and len(row) == 1:
            row = row[0]
        if type(row) is bool:
            return _number(row, _signed)
        try:
            return _signed.pack(row)
        except struct.error:
            if type(row) is tuple:
                raise WrongColumns("a row has another number of cells than its table has columns", 3) from None
            return _number(row, _signed)

    @staticmethod
    def _read_int(data: bytes, at: int = 0) -> tuple[Row, int]:
        return _signed.unpack_from(data, at)[0], at + 8

    def _key(self, key: object) -> bytes:
        parts = key if len(self.parts) == 2 and type(key) is tuple else (key,)
        if len(parts) != len(self.parts):
            raise WrongKind(f"{key!r} is no key of the table", 2)
        return b"".join(_number(part, _unsigned) if kind == "num" else _text(part) for kind, part in zip(self.parts, parts))

    def _row(self, row: object) -> bytes:
        cells = row if type(row) is tuple else (row,)
        if len(cells) != len(self.columns):
            raise WrongColumns("a row has another number of cells than its table has columns", 3)
        return b"".join(_number(cell, _signed) if kind == "int" else _text(cell) for kind, cell in zip(self.columns, cells))

    def end(self, key: Optional[object]) -> bytes:
        return b"" if key is None else self.key(key)

    def read_key(self, data: bytes, at: int = 0) -> tuple[Key, int]:
        parts = []
        for kind in self.parts:
            part, at = _read_number(data, at, _unsigned) if kind == "num" else _read_text(data, at)
            parts.append(part)
        return (parts[0] if len(parts) == 1 else (parts[0], parts[1])), at

    def _read_row(self, data: bytes, at: int = 0) -> tuple[Row, int]:
        cells = []
        for kind in self.columns:
            cell, at = _read_number(data, at, _signed) if kind == "int" else _read_text(data, at)
            cells.append(cell)
        return (cells[0] if len(cells) == 1 else tuple(cells)), at

    def read_rows(self, data: bytes) -> list[tuple[Key, Row]]:
        rows, at = [], 0
        while at < len(data):
            key, at = self.read_key(data, at)
            row, at = self.read_row(data, at)
            rows.append((key, row))
        return rows
