"""The CSV that the command `zaqnuti` reads, as columns."""

import math
import os
import struct
from array import array
from collections.abc import Callable, Sequence
from typing import Any

from . import _columns
from ._columns import Data

LONGEST = 65_536

_KNOWN = frozenset(
    """week tow constellation svid band pseudorange carrier adr state x y z vx vy vz clock modelled ionosphere
    correction elevation rate rx ry rz dt dx dy dz north east down true_dx true_dy true_dz sigma_x sigma_y sigma_z
    pair line screen sigma_a sigma_b huber mask rounds used screened chi pdop refusal satellites odometer pulses file
    depot van day first_tow last_tow epochs refused carrier_mm odometer_mm greatest_mm reached set_aside standing_mm
    counted_mm pulses_counted pulses_all coverage distance_mm gap_s trips ml_per_km_carrier millilitres""".split()
)


def _float(field: str) -> float:
    if field.startswith("NaN:"):
        (value,) = struct.unpack(">d", bytes.fromhex(field[4:]))
        if not math.isnan(value):
            raise ValueError(field)
        return float(value)
    if "_" in field or not field.isascii():
        raise ValueError(field)
    return float(field)


def _whole(field: str) -> int:
    if "_" in field or not field.isascii():
        raise ValueError(field)
    return int(field)


def _natural(field: str) -> int:
    """Read a whole number without a minus sign, also of 0."""
    if field.startswith("-"):
        raise ValueError(field)
    return _whole(field)


class Table:
    """The fields of a CSV file by their columns."""

    def __init__(self, path: str | os.PathLike[str], ignore_unknown: bool) -> None:
        """Read a file whole."""
        self.name = os.fspath(path)
        with open(path, "rb") as file:
            data = file.read()
        try:
            text = data.decode("utf-8-sig")
        except UnicodeDecodeError as why:
            line = data.count(b"\n", 0, why.start) + 1
            raise ValueError(f"{self.name}:{line}: the line is not UTF-8 text") from None
        if not text:
            raise ValueError(f"{self.name}: is empty; expected a header line")
        lines = text.split("\n")
        self.names = [name.strip() for name in lines[0].split(",")]
        self._check_header(ignore_unknown)
        self._odd = "_" in text[len(lines[0]) :] or not text.isascii()
        filled = [i for i in range(1, len(lines)) if lines[i].strip()]
        self._lines = filled
        split = [lines[i].split(",") for i in filled]
        for fields, line in zip(split, filled):
            if len(fields) != len(self.names):
                raise ValueError(f"{self.name}:{line + 1}: {len(fields)} fields, the header has {len(self.names)}")
            if len(lines[line]) > LONGEST:
                raise ValueError(f"{self.name}:{line + 1}: the line is above {LONGEST} bytes")
        self.rows = len(split)
        columns = zip(*split) if split else ((),) * len(self.names)
        self._fields = {name: [field.strip() for field in fields] for name, fields in zip(self.names, columns)}

    def _check_header(self, ignore_unknown: bool) -> None:
        for i, name in enumerate(self.names):
            if name in self.names[:i]:
                raise ValueError(f"{self.name}:1: the column {name!r} appears twice")
            if name not in _KNOWN and not ignore_unknown:
                raise ValueError(f"{self.name}:1: the column {name!r} is unknown; ignore_unknown=True allows it")

    def _column(self, name: str) -> list[str]:
        if name not in self._fields:
            raise ValueError(f"{self.name}:1: {name}: the column is missing")
        return self._fields[name]

    def is_blank(self, name: str) -> bool:
        """Whether no line has a field in a column."""
        return not any(self._column(name))

    def bare(self, names: Sequence[str]) -> list[int]:
        """List the rows whose fields in some columns are all empty."""
        columns = [self._column(name) for name in names]
        return [i for i, field in enumerate(columns[0]) if not field and not any(column[i] for column in columns[1:])]

    def _read(self, name: str, code: str, bare: list[int], quick: Callable[[str], Any], slow: Callable[[str], Any]) -> Data:
        fields = _columns.without(self._column(name), bare)
        try:
            return _columns.column(name, array(code, map(slow if self._odd else quick, fields)), code)
        except (ValueError, OverflowError):
            return self._slowly(name, code, fields, bare, slow)

    def _slowly(self, name: str, code: str, fields: list[str], bare: list[int], slow: Callable[[str], Any]) -> Data:
        """Read a column field by field, and say where one is not as wanted."""
        out = array(code)
        rows = _columns.without(list(range(self.rows)), bare)
        for row, field in zip(rows, fields):
            try:
                out.append(slow(field))
            except (ValueError, OverflowError):
                what = "a number" if code == "d" else kind_of_one(code)
                why = f"empty; expected {what}" if not field else f'"{field[:40]}" is not {what}'
                raise ValueError(f"{self.name}:{self._lines[row] + 1}: {name}: {why}") from None
        return _columns.column(name, out, code)

    def floats(self, name: str, bare: list[int] | None = None) -> Data:
        """Read a column of floats, without the bare rows."""
        return self._read(name, "d", bare or [], float, _float)

    def wholes(self, name: str, code: str, bare: list[int] | None = None) -> Data:
        """Read a column of whole numbers, without the bare rows."""
        if code != "i" and "-" in "".join(self._column(name)):
            return self._slowly(name, code, _columns.without(self._column(name), bare or []), bare or [], _natural)
        return self._read(name, code, bare or [], int, _whole)

    def places(self, names: Sequence[str], rows: list[int]) -> "array[float]":
        """Read three floats of each of some rows."""
        columns = [(name, self._column(name)) for name in names]
        out = array("d")
        for row in rows:
            for name, fields in columns:
                try:
                    out.append(_float(fields[row]))
                except ValueError:
                    why = f'"{fields[row]}" is not a number' if fields[row] else "empty; expected a number"
                    raise ValueError(f"{self._lines[row] + 1}: {name}: {why}") from None
        return out


def kind_of_one(code: str) -> str:
    """Say what one field of a column wants.

    >>> kind_of_one("B")
    'a whole number from 0 to 255'
    """
    low, high = _columns.LIMITS[code]
    return f"a whole number from {low} to {high}"
