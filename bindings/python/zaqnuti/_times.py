"""Times and directions."""

import ctypes
from collections.abc import Sequence

from ._columns import address, vector
from ._library import LIBRARY
from ._refused import accepted


def gps_time(week: int, tow: float) -> int:
    """Give the whole nanoseconds since the start of GPS week 0.

    >>> gps_time(1317, 0.5) - gps_time(1316, 604799.5)
    1000000000
    """
    if isinstance(week, bool) or not isinstance(week, int) or not 0 <= week <= 4_294_967_295:
        raise ValueError(f"week: {week!r}; expected a whole number from 0 to 15000")
    nanos = ctypes.c_uint64()
    accepted(LIBRARY.zaqnuti_time(week, float(tow), ctypes.byref(nanos)))
    return nanos.value


def north_east_down(position: Sequence[float], displacement: Sequence[float]) -> tuple[float, float, float]:
    """Turn a displacement at a place to north, east and down, all in metres.

    >>> north_east_down((6378137.0, 0.0, 0.0), (0.0, 3.0, 4.0))
    (4.0, 3.0, -0.0)
    """
    at, moved, out = vector("position", position), vector("displacement", displacement), (ctypes.c_double * 3)()
    accepted(LIBRARY.zaqnuti_north_east_down(address(at), address(moved), out))
    return out[0], out[1], out[2]
