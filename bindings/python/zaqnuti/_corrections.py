"""Corrections from a base station."""

import ctypes
from array import array
from collections.abc import Mapping, Sequence
from typing import Any

from . import _columns
from ._columns import address
from ._library import LIBRARY
from ._refused import accepted

SAMPLES = 2048
_SIGNAL = {"constellation": "B", "svid": "H", "band": "I"}
_STATE = ("x", "y", "z", "vx", "vy", "vz", "clock", "modelled")


class Corrections:
    """A table of corrections of at most 2,048 samples.

    >>> table = Corrections(base=(6378137.0, 0.0, 0.0), rover=(6378137.0, 100.0, 0.0))
    >>> signals = {"constellation": [1, 1, 1], "svid": [5, 6, 7], "band": [1575, 1575, 1575]}
    >>> zeros = dict.fromkeys(("y", "z", "vx", "vy", "vz", "clock", "modelled"), [0.0, 0.0, 0.0])
    >>> table.add(10.0, {**signals, "pseudorange": [1.4e7, 1.4e7, 1.4e7 + 7.0]}, {**signals, "x": [2e7, 2e7, 2e7], **zeros})
    >>> len(table)
    3
    >>> round(table.query(1, 7, 1575, 10.0), 3)
    7.0
    >>> table.query(1, 8, 1575, 10.0)
    Traceback (most recent call last):
    zaqnuti.Refused: refused by 12: the table gives no correction for the signal and time
    >>> table.forget(20.0)
    """

    def __init__(
        self, base: Sequence[float], rover: Sequence[float], *, max_gap: float = 90.0, max_correction: float = 100.0,
        corrected: Sequence[int] = (1, 6),
    ) -> None:
        """Start an empty table for a base and a rover, x, y, z in metres; `corrected` are constellations."""
        self._base, self._rover = _columns.vector("base", base), _columns.vector("rover", rover)
        self._max_gap, self._max_correction = float(max_gap), float(max_correction)
        for number in corrected:
            if number not in range(8):
                raise ValueError(f"corrected: {number!r}; expected whole numbers from 0 to 7")
        self._corrected = array("B", (int(i in corrected) for i in range(8)))
        self._blocks = [array(code, bytes(SAMPLES * array(code).itemsize)) for code in "BHIQQ"]
        self._samples = [array("d", bytes(8 * SAMPLES)) for _ in range(2)]
        self._block_count, self._count = ctypes.c_uint64(0), ctypes.c_uint64(0)

    def __len__(self) -> int:
        """Give the number of samples."""
        return self._count.value

    def _table(self) -> tuple[list[int], list[int]]:
        return _given(self._blocks), _given(self._samples)

    def add(self, time: float, ranges: Mapping[str, Any], states: Mapping[str, Any] | None) -> None:
        """Add an epoch of the base at a time in seconds of the week; a refused one leaves the table as it was.

        `ranges` has the columns constellation, svid, band and pseudorange; `states` the same three with x, y,
        z, vx, vy, vz, clock and modelled, or is None where they are not known.
        """
        seen, known = _wanted(ranges, ("pseudorange",)), _wanted(states or {}, _STATE, states is None)
        count, state_count = len(seen[0]), len(known[0])
        floats = array("d", (float(column[i]) for i in range(state_count) for column in known[3:]))
        blocks, samples = self._table()
        accepted(LIBRARY.zaqnuti_add_epoch(
            *blocks, ctypes.byref(self._block_count), *samples, ctypes.byref(self._count), float(time), count,
            *_given(seen), states is not None, state_count, *_given([*known[:3], floats]),
            address(self._base), address(self._rover), self._max_gap, self._max_correction, address(self._corrected),
        ))

    def query(self, constellation: int, svid: int, band: int, time: float) -> float:
        """Give the correction of a signal at a time, in metres, to be subtracted from a pseudorange."""
        for (name, code), value in zip(_SIGNAL.items(), (constellation, svid, band)):
            _columns.column(name, [value], code)
        blocks, samples = self._table()
        metres = ctypes.c_double()
        accepted(LIBRARY.zaqnuti_query(
            *blocks, self._block_count.value, *samples, self._count.value, self._max_gap,
            constellation, svid, band, float(time), ctypes.byref(metres),
        ))
        return metres.value

    def forget(self, time: float) -> None:
        """Drop what came before a time; queries from then on answer as if nothing had been dropped."""
        blocks, samples = self._table()
        accepted(LIBRARY.zaqnuti_forget(*blocks, self._block_count.value, *samples, ctypes.byref(self._count), float(time)))


def _given(columns: list[Any]) -> list[int]:
    """Give columns as arguments: each by address and length."""
    return [part for column in columns for part in (address(column), len(column))]


def _wanted(given: Mapping[str, Any], floats: Sequence[str], absent: bool = False) -> list[Any]:
    """Give the columns of signals, and of floats, all of one length."""
    out: list[Any] = []
    for name in (*_SIGNAL, *floats):
        code = _SIGNAL.get(name, "d")
        if absent:
            out.append(array(code))
            continue
        if name not in given:
            raise ValueError(f"{name}: the column is missing")
        out.append(_columns.column(name, given[name], code))
        if len(out[-1]) != len(out[0]):
            raise ValueError(f"{name}: has {len(out[-1])} elements, constellation has {len(out[0])}")
    return out
