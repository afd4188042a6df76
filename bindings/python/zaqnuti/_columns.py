"""Columns of whole numbers and floats: arrays of NumPy where it is present, else of the module array."""

import importlib
import math
from array import array
from collections.abc import Iterable, Sequence
from typing import Any


def _numpy() -> Any:
    """Give the module numpy, or None where it is not present."""
    try:
        return importlib.import_module("numpy")
    except ImportError:
        return None


numpy = _numpy()

# A column's data: an array of NumPy or of the module array, contiguous.
Data = Any

# What each column holds, by the code of the module array.
LIMITS = {
    "B": (0, 255),
    "H": (0, 65_535),
    "I": (0, 4_294_967_295),
    "Q": (0, 18_446_744_073_709_551_615),
    "i": (-2_147_483_648, 2_147_483_647),
}


def kind(code: str) -> str:
    """Say what a column wants.

    >>> kind("H")
    'whole numbers from 0 to 65535'
    """
    if code == "d":
        return "floats"
    low, high = LIMITS[code]
    return f"whole numbers from {low} to {high}"


def address(data: Data) -> int:
    """Give where a column's elements are."""
    if isinstance(data, array):
        return data.buffer_info()[0]
    return int(data.ctypes.data)


def empty(code: str, length: int) -> Data:
    """Make a column to be written."""
    if numpy is not None:
        return numpy.zeros(length, dtype=code)
    return array(code, bytes(array(code).itemsize * length))


def is_numpy(values: object) -> bool:
    """Whether values are an array of NumPy, or a column of pandas that gives one."""
    return numpy is not None and hasattr(values, "__array__") and hasattr(values, "dtype")


def is_empty(value: object) -> bool:
    """Whether an element stands for an empty field."""
    return value is None or (isinstance(value, float) and math.isnan(value))


def blanks(name: str, values: Any) -> list[int]:
    """List the places of empty fields."""
    if is_numpy(values):
        data = numpy.asarray(values)
        return [] if data.dtype.kind != "f" else [int(i) for i in numpy.flatnonzero(numpy.isnan(data))]
    if isinstance(values, array):
        return [] if values.typecode not in "fd" else [i for i, x in enumerate(values) if math.isnan(x)]
    if not isinstance(values, Sequence) or isinstance(values, (str, bytes)):
        raise ValueError(f"{name}: a column is an array or a list, not {type(values).__name__}")
    return [i for i, x in enumerate(values) if is_empty(x)]


def without(values: Any, places: list[int]) -> Any:
    """Leave the elements at some places out."""
    if not places:
        return values
    if is_numpy(values):
        return numpy.delete(numpy.asarray(values), places)
    gone = set(places)
    return [x for i, x in enumerate(values) if i not in gone]


def column(name: str, values: Any, code: str, filtered: bool = False) -> Data:
    """Give values as a column of one type, without a copy where they are one.

    What is not of the column's kind or does not fit raises ValueError with the column's name.
    A whole-number column from which empty fields were filtered may have come as floats.

    >>> column("svid", [1, 70000], "H")
    Traceback (most recent call last):
    ValueError: svid: 70000 at place 1; expected whole numbers from 0 to 65535
    >>> column("svid", [1.5], "H")
    Traceback (most recent call last):
    ValueError: svid: 1.5 at place 0; expected whole numbers from 0 to 65535
    """
    if is_numpy(values):
        return _of_numpy(name, values, code, filtered)
    if isinstance(values, array) and values.typecode == code:
        return values
    if not isinstance(values, (Sequence, array)) or isinstance(values, (str, bytes)):
        raise ValueError(f"{name}: a column is an array or a list, not {type(values).__name__}")
    out = _of_list(name, values, code, filtered)
    return out if numpy is None else numpy.frombuffer(out, dtype=code) if len(out) else numpy.zeros(0, dtype=code)


def _fault(name: str, value: object, place: int, code: str) -> ValueError:
    return ValueError(f"{name}: {value!r} at place {place}; expected {kind(code)}")


def _of_list(name: str, values: Iterable[Any], code: str, filtered: bool) -> "array[Any]":
    out = array(code)
    for place, value in enumerate(values):
        if code == "d":
            if isinstance(value, bool) or not isinstance(value, (int, float)):
                raise _fault(name, value, place, code)
            exact = isinstance(value, float) or abs(value) <= 2**53
        else:
            low, high = LIMITS[code]
            if filtered and isinstance(value, float) and value.is_integer():
                value = int(value)
            exact = isinstance(value, int) and not isinstance(value, bool) and low <= value <= high
        if not exact:
            raise _fault(name, value, place, code)
        out.append(value)
    return out


def _of_numpy(name: str, values: Any, code: str, filtered: bool) -> Data:
    data = numpy.asarray(values)
    if data.ndim != 1:
        raise ValueError(f"{name}: has {data.ndim} dimensions; a column has one")
    want = numpy.dtype(code)
    if data.dtype == want:
        return data if data.flags.c_contiguous and data.flags.aligned else numpy.array(data, order="C")
    if code == "d":
        allowed = data.dtype.kind in "iu" or (data.dtype.kind == "f" and data.dtype.itemsize <= 8)
    else:
        allowed = data.dtype.kind in "iu" or (filtered and data.dtype.kind == "f")
    if not allowed:
        raise ValueError(f"{name}: the dtype is {data.dtype}; expected {kind(code)}")
    if code == "d":
        bad = numpy.abs(data) > 2.0**53 if data.dtype.kind in "iu" else numpy.zeros(len(data), dtype=bool)
    else:
        low, high = LIMITS[code]
        bad = (data < low) | (data > high)
        if data.dtype.kind == "f":
            bad |= ~(numpy.floor(data) == data) | (data >= float(high) + 1)
    if bad.any():
        place = int(numpy.flatnonzero(bad)[0])
        raise _fault(name, data[place].item(), place, code)
    return numpy.ascontiguousarray(data.astype(want))


def vector(name: str, values: Any) -> "array[float]":
    """Give three floats.

    >>> vector("at", (1, 2, 3))
    array('d', [1.0, 2.0, 3.0])
    >>> vector("at", (1, 2))
    Traceback (most recent call last):
    ValueError: at: 2 numbers; expected three
    """
    data = array("d", column(name, list(values) if isinstance(values, tuple) else values, "d"))
    if len(data) != 3:
        raise ValueError(f"{name}: {len(data)} numbers; expected three")
    return data
