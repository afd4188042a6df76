"""A drive: the epochs of one recording, as columns."""

import math
import os
from array import array
from collections.abc import Callable, Mapping, Sequence
from typing import Any

from . import _columns
from ._columns import Data
from ._csv import Table

RECORDS = 64

# The columns of a carrier with their types; those of _LEFT_OUT may be.
_WHOLE = {"constellation": "B", "svid": "H", "band": "I", "state": "i"}
_LEFT_OUT = {"band": 0, "state": 1}
_FLOATS = ("adr", "x", "y", "z", "elevation", "rate")
_PHASE = ("carrier", "clock", "modelled", "ionosphere")
_PLACE = ("rx", "ry", "rz")
_COUNTS = {"odometer": "Q", "pulses": "H"}
_RANGE = ("pseudorange", "clock", "modelled", "correction")


class Drive:
    """The epochs of a drive. No call changes it, so threads may share it.

    >>> drive = Drive.from_csv("examples/month/halle-03-2026-11-03.csv")
    >>> len(drive)
    46
    >>> drive
    <zaqnuti.Drive of 46 epochs, 358 carriers>
    """

    starts: Data
    """Where each epoch's carriers begin, and one number more: where the last one's end."""
    carriers: dict[str, Data]
    """The columns with one element for each carrier."""
    week: Data | None
    """The week of each epoch, where it is known."""
    tow: Data
    """The time of week of each epoch, in seconds."""
    places: Data
    """Where the receiver is at each epoch: three floats, one epoch after the other."""
    odometer: Data | None
    """The running count of pulses at each epoch."""
    pulses: Data | None
    """The pulses of each epoch since the one before."""
    ranges: Data | None
    """The corrected pseudorange of each carrier, for `fix`."""
    unused: Data | None
    """1 for each pseudorange that lacks a correction, where the column has some."""
    no_ranges: str
    """Why `ranges` is None."""

    def __init__(self, columns: dict[str, Data], rows: int, bare: list[int], place: Callable[[list[int]], "array[float]"]) -> None:
        """Use from_csv or from_columns."""
        if rows == 0:
            raise ValueError("the drive is empty: it has no epochs")
        firsts = _firsts(columns.get("week"), columns["tow"], rows)
        self.starts = _starts(firsts, rows, bare)
        self.carriers = {name: columns[name] for name in (*_WHOLE, *_FLOATS)}
        week = columns.get("week")
        self.week = None if week is None else _picked(week, firsts, "I")
        self.tow = _picked(columns["tow"], firsts, "d")
        _check_sizes(self.starts, self.tow)
        self.places = _places(self.starts, firsts, bare, place)
        for name in _COUNTS:
            setattr(self, name, _count(name, columns.get(name), firsts, rows))
        self.ranges, self.unused, self.no_ranges = None, None, "pseudorange: the column is missing"

    def __len__(self) -> int:
        """Give the number of epochs."""
        return len(self.tow)

    def __repr__(self) -> str:
        return f"<zaqnuti.Drive of {len(self)} epochs, {self.starts[-1]} carriers>"

    @classmethod
    def from_csv(cls, path: str | os.PathLike[str], *, at: Sequence[float] | None = None, ignore_unknown: bool = False) -> "Drive":
        """Read a drive from a file as the command `zaqnuti trip` reads it (docs/SHELL.md, "CSV").

        `at` is where the receiver is, x, y, z in metres, in place of the columns rx, ry and rz.
        """
        table = Table(path, ignore_unknown)
        if "line" in table.names:
            raise ValueError(f"{table.name}:1: line: a drive is a series of epochs; lines S, P and C have no times")
        phase = "carrier" if "carrier" in table.names and "adr" not in table.names else "adr"
        needed = ("constellation", "svid", phase, "x", "y", "z", "elevation", "rate")
        bare = table.bare(needed)
        columns: dict[str, Data] = {"tow": table.floats("tow")}
        if "week" in table.names and not table.is_blank("week"):
            columns["week"] = table.wholes("week", "I")
        for name, code in _COUNTS.items():
            if name in table.names:
                columns[name] = table.wholes(name, code)
        for name, code in _WHOLE.items():
            if name in table.names or name not in _LEFT_OUT:
                columns[name] = table.wholes(name, code, bare)
        extra = _PHASE[1:] if phase == "carrier" else ()
        for name in (phase, *_FLOATS[1:], *(n for n in extra if n in table.names)):
            columns[name] = table.floats(name, bare)
        _complete(columns, table.rows - len(bare), phase)
        if at is None and "rx" not in table.names:
            raise ValueError(f"{table.name}: rx: has no columns rx, ry, rz; give at=(x, y, z)")
        given = None if at is None else _columns.vector("at", at)

        def place(rows: list[int]) -> "array[float]":
            return given * len(rows) if given is not None else table.places(_PLACE, rows)

        try:
            drive = cls(columns, table.rows, bare, place)
        except ValueError as why:
            raise ValueError(f"{table.name}: {why}") from None
        if "pseudorange" in table.names:
            drive._range_from_csv(table, bare)
        return drive

    def _range_from_csv(self, table: Table, bare: list[int]) -> None:
        """Read the pseudoranges; what is wrong with them matters to a fix alone."""
        names = [name for name in _RANGE if name in table.names]
        blank = table.bare(["correction"]) if "correction" in names else []
        gone = sorted({*bare, *blank})
        try:
            parts = {name: table.floats(name, gone) for name in names}
        except ValueError as why:
            self.no_ranges = str(why)
            return
        lost = set(bare)
        self._keep_ranges(parts, _places_within([row for row in blank if row not in lost], bare))

    @classmethod
    def from_columns(cls, columns: Any = None, /, *, at: Sequence[float] | None = None, **named: Any) -> "Drive":
        """Take a drive from arrays, lists or a pandas DataFrame, whose names are those of the CSV.

        Rows of one time that follow each other are an epoch. Contiguous arrays of the right type are
        not copied: constellation uint8, svid uint16, band uint32, state int32, week uint32, odometer
        uint64, pulses uint16, and float64. Others are converted where every value fits; otherwise
        ValueError names the column. A row whose satellite fields are all None or NaN is an epoch
        without satellites.

        >>> Drive.from_columns(tow=[0.0, 1.0], constellation=[1, 300], svid=[5, 5], adr=[0.0, 0.1],
        ...     x=[2e7, 2e7], y=[0.0, 0.0], z=[0.0, 0.0], elevation=[40.0, 40.0], rate=[0.0, 0.0], at=(6.4e6, 0, 0))
        Traceback (most recent call last):
        ValueError: constellation: 300 at place 1; expected whole numbers from 0 to 255
        """
        given = _named(columns, named)
        rows = _length("tow", given["tow"]) if "tow" in given else 0
        phase = "carrier" if "carrier" in given and "adr" not in given else "adr"
        needed = ("constellation", "svid", phase, *_FLOATS[1:])
        for name in ("tow", *needed):
            if name not in given:
                raise ValueError(f"{name}: the column is missing")
        for name, values in given.items():
            if _length(name, values) != rows:
                raise ValueError(f"{name}: has {_length(name, values)} elements, tow has {rows}")
        bare = _bare(given, needed)
        out: dict[str, Data] = {"tow": _columns.column("tow", given["tow"], "d")}
        for name, code in {"week": "I", **_COUNTS}.items():
            if name in given:
                out[name] = _columns.column(name, given[name], code)
        for name, code in _WHOLE.items():
            if name in given:
                out[name] = _columns.column(name, _columns.without(given[name], bare), code, bool(bare))
        extra = _PHASE[1:] if phase == "carrier" else ()
        for name in (phase, *_FLOATS[1:], *(n for n in extra if n in given)):
            out[name] = _columns.column(name, _columns.without(given[name], bare), "d")
        _complete(out, rows - len(bare), phase)
        fixed = None if at is None else _columns.vector("at", at)
        if fixed is None and any(name not in given for name in _PLACE):
            raise ValueError("rx: the columns rx, ry and rz are missing; or give at=(x, y, z)")

        def place(rows: list[int]) -> "array[float]":
            if fixed is not None:
                return fixed * len(rows)
            picked = [_columns.column(name, _rows(given[name], rows), "d") for name in _PLACE]
            return array("d", [float(column[i]) for i in range(len(rows)) for column in picked])

        drive = cls(out, rows, bare, place)
        if "pseudorange" in given:
            own = {name: _columns.without(given[name], bare) for name in _RANGE if name in given}
            blank = _columns.blanks("correction", own["correction"]) if "correction" in own else []
            parts = {name: _columns.column(name, _columns.without(values, blank), "d") for name, values in own.items()}
            drive._keep_ranges(parts, blank)
        return drive

    def _keep_ranges(self, parts: dict[str, Data], blank: list[int]) -> None:
        """Correct the pseudoranges as the command does; those at some places have no correction."""
        zeros = _columns.empty("d", int(self.starts[-1]) - len(blank))
        range_, clock, modelled, correction = (parts.get(name, zeros) for name in _RANGE)
        if _columns.numpy is not None:
            whole = _columns.numpy.asarray
            ranges = whole(range_) + whole(clock) - whole(modelled) - whole(correction)
        else:
            ranges = array("d", (p + c - m - b for p, c, m, b in zip(range_, clock, modelled, correction)))
        self.ranges, self.unused = ranges, None
        if blank:
            unused = array("B", bytes(int(self.starts[-1])))
            for place in blank:
                unused[place] = 1
            each = iter(ranges)
            spread = array("d", (math.nan if gone else float(next(each)) for gone in unused))
            self.ranges, self.unused = _columns.column("pseudorange", spread, "d"), _columns.column("correction", unused, "B")


def _places_within(rows: list[int], bare: list[int]) -> list[int]:
    """Say which carriers some rows are, among rows without the bare ones.

    >>> _places_within([2, 5], [1, 4])
    [1, 3]
    """
    return [row - sum(1 for gone in bare if gone < row) for row in rows]


def _named(columns: Any, named: dict[str, Any]) -> dict[str, Any]:
    """Gather columns by their names, from a mapping or a DataFrame and from keywords."""
    given: dict[str, Any] = {}
    if columns is not None:
        if not isinstance(columns, Mapping) and not hasattr(columns, "columns"):
            raise ValueError("columns: expected a mapping or a DataFrame")
        given = {str(name): columns[name] for name in columns}
    given.update(named)
    known = {"week", "tow", *_WHOLE, *_FLOATS, *_PHASE, *_PLACE, *_COUNTS, *_RANGE}
    if columns is None:
        for name in given:
            if name not in known:
                raise ValueError(f"{name}: no column has this name")
    return {name: values for name, values in given.items() if name in known}


def _length(name: str, values: Any) -> int:
    try:
        return len(values)
    except TypeError:
        raise ValueError(f"{name}: a column is an array or a list, not {type(values).__name__}") from None


def _rows(values: Any, rows: list[int]) -> Any:
    if _columns.is_numpy(values):
        return _columns.numpy.asarray(values)[rows]
    return [math.nan if values[i] is None else values[i] for i in rows]


def _bare(given: dict[str, Any], needed: tuple[str, ...]) -> list[int]:
    """List the rows whose satellite fields are all empty."""
    bare = _columns.blanks("constellation", given["constellation"])
    if not bare:
        return []
    for name in needed:
        empty = set(_columns.blanks(name, given[name]))
        for row in bare:
            if row not in empty:
                raise ValueError(f"constellation: empty at place {row}, where {name} is not")
    return bare


def _complete(columns: dict[str, Data], carriers: int, phase: str) -> None:
    """Fill in columns that were left out, and the accumulated delta range of a measured carrier."""
    for name, value in _LEFT_OUT.items():
        if name not in columns:
            columns[name] = _columns.column(name, array(_WHOLE[name], [value]) * carriers, _WHOLE[name])
    if phase == "carrier":
        zeros = array("d", bytes(8 * carriers))
        parts = [columns.pop(name, zeros) for name in _PHASE]
        phases = array("d", (c + clock - modelled + 2.0 * i for c, clock, modelled, i in zip(*parts)))
        columns["adr"] = _columns.column("adr", phases, "d")


def _firsts(week: Data | None, tow: Data, rows: int) -> list[int]:
    """List the rows at which epochs begin."""
    numpy = _columns.numpy
    if numpy is not None:
        times = numpy.asarray(tow)
        if not numpy.isfinite(times).all():
            raise ValueError("tow: is not finite")
        new = times[1:] != times[:-1]
        if week is not None:
            weeks = numpy.asarray(week)
            new = new | (weeks[1:] != weeks[:-1])
        return [0, *(int(i) + 1 for i in numpy.flatnonzero(new))]
    if not all(map(math.isfinite, tow)):
        raise ValueError("tow: is not finite")
    same = week if week is not None else tow
    return [0, *(i for i in range(1, rows) if tow[i] != tow[i - 1] or same[i] != same[i - 1])]


def _picked(data: Data, rows: list[int], code: str) -> Data:
    """Give the elements of some rows; of the two zeros of a float only one is a time."""
    picked = [data[i] for i in rows]
    return _columns.column("tow", array(code, [x + 0.0 for x in picked] if code == "d" else map(int, picked)), code)


def _starts(firsts: list[int], rows: int, bare: list[int]) -> "array[int]":
    """Say where each epoch's carriers begin, without the bare rows."""
    out, gone, i = array("Q"), 0, 0
    for row in (*firsts, rows):
        while i < len(bare) and bare[i] < row:
            i += 1
            gone += 1
        out.append(row - gone)
    return out


def _check_sizes(starts: "array[int]", tow: Data) -> None:
    for i in range(len(starts) - 1):
        count = starts[i + 1] - starts[i]
        if count > RECORDS:
            raise ValueError(f"constellation: {count} carriers in the epoch at {float(tow[i])!r} s; at most {RECORDS}")


def _places(starts: "array[int]", firsts: list[int], bare: list[int], place: Callable[[list[int]], "array[float]"]) -> Data:
    """Give where the receiver is at each epoch: as its first carrier says, else as before."""
    filled = [i for i in range(len(firsts)) if starts[i + 1] > starts[i]]
    gone, rows = set(bare), []
    for i in filled:
        row = firsts[i]
        while row in gone:
            row += 1
        rows.append(row)
    found = place(rows) if rows else array("d")
    out, last, k = array("d"), array("d", [0.0, 0.0, 0.0]), 0
    for i in range(len(firsts)):
        if k < len(filled) and filled[k] == i:
            last = found[3 * k : 3 * k + 3]
            k += 1
        out.extend(last)
    return _columns.column("rx", out, "d")


def _count(name: str, data: Data | None, firsts: list[int], rows: int) -> "array[int] | None":
    """Give the odometer's count of each epoch, which all of its rows have."""
    if data is None:
        return None
    numpy = _columns.numpy
    if numpy is not None:
        values = numpy.asarray(data)
        if (values == numpy.repeat(values[firsts], numpy.diff([*firsts, rows]))).all():
            return array(_COUNTS[name], values[firsts].tolist())
    for first, end in zip(firsts, (*firsts[1:], rows)):
        for row in range(first + 1, end):
            if data[row] != data[first]:
                raise ValueError(f"{name}: {data[row]} differs from {data[first]} in the first row of its epoch")
    return array(_COUNTS[name], [int(data[i]) for i in firsts])
