"""One loop over all epochs of a drive: in C where it was compiled, else in Python with the same answers."""

import ctypes
import glob
import math
import warnings
from array import array
from pathlib import Path
from typing import Any, NamedTuple

from . import _columns
from ._columns import Data, address
from ._drive import Drive
from ._library import LIBRARY
from ._library import address as call_address

_TOO_MANY = 2
_FLOATS = ("adr", "x", "y", "z", "elevation", "rate")


class _Calls(ctypes.Structure):
    _fields_ = [
        (name, ctypes.c_void_p)
        for name in (
            "time", "seconds_since", "displacement", "displacement_rated", "city_displacement", "city_displacement_rated",
            "trip_add", "mileage_add", "fix",
        )
    ]


class Form(NamedTuple):
    """How displacements are worked out: five floats, rounds, and the band of the city form or None."""

    settings: "array[float]"
    rounds: int
    city: int | None


class _Columns(ctypes.Structure):
    _fields_ = [
        ("epochs", ctypes.c_uint64),
        *((name, ctypes.c_void_p) for name in ("starts", "constellation", "svid", "band", "state")),
        ("floats", ctypes.c_void_p * 6),
        *((name, ctypes.c_void_p) for name in ("week", "tow", "places")),
    ]


def _compiled() -> ctypes.CDLL | None:
    """Load the loop in C, where it was compiled with the package."""
    for path in sorted(glob.glob(str(Path(__file__).parent / "_epochs*.so"))):
        try:
            loop = ctypes.CDLL(path)
        except OSError:
            continue
        pointer, size = ctypes.c_void_p, ctypes.c_uint64
        loop.zaqnuti_loop_displacements.argtypes = [pointer, pointer, size, size, pointer, size, *(4 * [pointer])]
        loop.zaqnuti_loop_displacements.restype = None
        loop.zaqnuti_loop_fixes.argtypes = [*(6 * [pointer]), size, pointer, pointer]
        loop.zaqnuti_loop_fixes.restype = None
        loop.zaqnuti_loop_add.argtypes = [pointer, size, *(7 * [pointer])]
        loop.zaqnuti_loop_add.restype = ctypes.c_uint8
        return loop
    warnings.warn("zaqnuti: the loop in C is not compiled; one in Python gives the same answers, slowly", RuntimeWarning, stacklevel=2)
    return None


LOOP = _compiled()
_CALLS = _Calls(*(call_address(name) for name, _ in _Calls._fields_))


def _columns_of(drive: Drive) -> _Columns:
    c = drive.carriers
    floats = (ctypes.c_void_p * 6)(*(address(c[name]) for name in _FLOATS))
    week = None if drive.week is None else address(drive.week)
    wholes = (address(c[name]) for name in ("constellation", "svid", "band", "state"))
    return _Columns(len(drive), address(drive.starts), *wholes, floats, week, address(drive.tow), address(drive.places))


def displaced(drive: Drive, forms: list[tuple[int, Form]], rated: bool) -> tuple[Data, Data | None, Data]:
    """Work out the displacement from each epoch to the next: floats, chi with pdop where rated, and numbers.

    Each form holds from the pair of its number up to that of the next.
    """
    pairs = len(drive) - 1
    delta, numbers = _columns.empty("d", 3 * pairs), _columns.empty("B", pairs)
    quality = _columns.empty("d", 2 * pairs) if rated else None
    ends = [*(first for first, _ in forms[1:]), pairs]
    columns, to = _columns_of(drive), None if quality is None else address(quality)
    for (first, form), end in zip(forms, ends):
        if LOOP is None:
            _displaced_slowly(drive, range(first, end), form, delta, quality, numbers)
            continue
        band = None if form.city is None else ctypes.byref(ctypes.c_uint32(form.city))
        LOOP.zaqnuti_loop_displacements(
            ctypes.byref(_CALLS), ctypes.byref(columns), first, end, address(form.settings), form.rounds, band,
            address(delta), to, address(numbers),
        )
    return delta, quality, numbers


def fixed(drive: Drive, guess: "array[float]", settings: "array[float]", rounds: int) -> tuple[Data, Data]:
    """Work out the fix of each epoch: x, y and z, and numbers."""
    epochs = len(drive)
    position, numbers = _columns.empty("d", 3 * epochs), _columns.empty("B", epochs)
    if LOOP is None:
        _fixed_slowly(drive, guess, settings, rounds, position, numbers)
    else:
        columns = _columns_of(drive)
        unused = None if drive.unused is None else address(drive.unused)
        LOOP.zaqnuti_loop_fixes(
            ctypes.byref(_CALLS), ctypes.byref(columns), address(drive.ranges), unused, address(guess), address(settings),
            rounds, address(position), address(numbers),
        )
    return position, numbers


def _fixed_slowly(drive: Drive, guess: "array[float]", settings: "array[float]", rounds: int, position: Data, numbers: Data) -> None:
    solution, used, c = (ctypes.c_double * 5)(), ctypes.c_uint64(), drive.carriers
    ranges: Data = drive.ranges
    for i in range(len(drive)):
        rows = [k for k in range(int(drive.starts[i]), int(drive.starts[i + 1])) if drive.unused is None or not drive.unused[k]]
        which = array("B", [int(c["constellation"][k]) for k in rows])
        floats = array("d")
        for k in rows:
            floats.extend((float(ranges[k]), *(float(c[name][k]) for name in ("x", "y", "z", "elevation"))))
        number = LIBRARY.zaqnuti_fix(
            address(which), len(rows), address(floats), 5 * len(rows), len(rows), address(guess), address(settings), rounds,
            solution, ctypes.byref(used),
        )
        numbers[i] = number
        for j in range(3):
            position[3 * i + j] = solution[j] if number == 0 else math.nan


def _interval(drive: Drive, i: int) -> tuple[int, float]:
    """Give 0 and the seconds from an epoch to the next, or the number of a refusal."""
    if drive.week is None:
        return 0, float(drive.tow[i + 1]) - float(drive.tow[i])
    times = (ctypes.c_uint64 * 2)()
    for k in (0, 1):
        at = ctypes.addressof(times) + 8 * k
        number = LIBRARY.zaqnuti_time(int(drive.week[i + k]), float(drive.tow[i + k]), at)
        if number != 0:
            return int(number), 0.0
    seconds = ctypes.c_double()
    number = LIBRARY.zaqnuti_seconds_since(times[1], times[0], ctypes.byref(seconds))
    return int(number), seconds.value


def _epoch(drive: Drive, i: int) -> tuple[list[Any], "array[float]"]:
    """Give an epoch's columns as arguments of the library, and its floats, which are to be kept."""
    start, end = int(drive.starts[i]), int(drive.starts[i + 1])
    count, c = end - start, drive.carriers
    floats = array("d", [float(c[name][k]) for k in range(start, end) for name in _FLOATS])
    out: list[Any] = []
    for name, size in (("constellation", 1), ("svid", 2), ("band", 4), ("state", 4)):
        out += [address(c[name]) + size * start, count]
    return [*out, address(floats), 6 * count, count], floats


def _displaced_slowly(drive: Drive, pairs: range, form: Form, delta: Data, quality: Data | None, numbers: Data) -> None:
    moved, counts, rating = (ctypes.c_double * 3)(), (ctypes.c_uint64 * 2)(), (ctypes.c_double * 2)()
    band = [] if form.city is None else [form.city]
    plain = LIBRARY.zaqnuti_displacement if form.city is None else LIBRARY.zaqnuti_city_displacement
    rated = LIBRARY.zaqnuti_displacement_rated if form.city is None else LIBRARY.zaqnuti_city_displacement_rated
    for i in pairs:
        number, dt = _interval(drive, i)
        if number == 0 and max(int(drive.starts[k + 1]) - int(drive.starts[k]) for k in (i, i + 1)) > 64:
            number = _TOO_MANY
        if number == 0:
            (before, kept), (now, kept_too) = _epoch(drive, i), _epoch(drive, i + 1)
            place = address(drive.places) + 24 * i
            asked = [*before, *now, dt, *band, place, address(form.settings), form.rounds, moved]
            if quality is None:
                number = plain(*asked, counts)
            else:
                number = rated(*asked, rating, counts)
            del kept, kept_too
        numbers[i] = number
        for j in range(3):
            delta[3 * i + j] = moved[j] if number == 0 else math.nan
        if quality is not None:
            for j in range(2):
                quality[2 * i + j] = rating[j] if number == 0 else math.nan


def added(start: int, end: int, delta: Data, quality: Data, pulses: Data, numbers: Data, trip: Any, mileage: Any, after: Data | None) -> int:
    """Add the displacements from `start` to below `end` to a trip and a mileage; give 0 or a refusal of the mileage."""
    moved, rating, counts = address(delta) + 24 * start, address(quality) + 16 * start, address(pulses) + 2 * start
    if LOOP is not None:
        to = None if after is None else address(after)
        return int(LOOP.zaqnuti_loop_add(
            ctypes.byref(_CALLS), end - start, moved, rating, counts, address(numbers) + start, trip, mileage, to
        ))
    for i in range(end - start):
        d, q = moved + 24 * i, rating + 16 * i
        if numbers[start + i] == 0:
            numbers[start + i] = LIBRARY.zaqnuti_trip_add(trip, d, int(pulses[start + i]))
        number = LIBRARY.zaqnuti_mileage_add(mileage, int(numbers[start + i]), d, q, int(pulses[start + i]))
        if number != 0:
            return int(number)
        if after is not None:
            after[2 * i], after[2 * i + 1] = trip[2], trip[3]
    return 0
