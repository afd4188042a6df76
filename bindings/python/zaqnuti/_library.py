"""The shared library: where it is found, its version, and its calls."""

import ctypes
import os
from pathlib import Path
from typing import Any

from ._version import __version__, number_of, text_of

U8, U16, U32, U64 = ctypes.c_uint8, ctypes.c_uint16, ctypes.c_uint32, ctypes.c_uint64
DOUBLE, POINTER, SIZE, BOOL = ctypes.c_double, ctypes.c_void_p, ctypes.c_uint64, ctypes.c_bool

_COLUMN: list[Any] = [POINTER, SIZE]
_CARRIERS = 5 * _COLUMN + [SIZE]
_TABLE = 5 * _COLUMN
_SAMPLES = 2 * _COLUMN

# The arguments of each call, as include/zaqnuti.h has them; all of these return a number.
_CALLS: dict[str, list[Any]] = {
    "time": [U32, DOUBLE, POINTER],
    "seconds_since": [U64, U64, POINTER],
    "fix": 2 * _COLUMN + [SIZE, POINTER, POINTER, SIZE, POINTER, POINTER],
    "displacement": 2 * _CARRIERS + [DOUBLE, POINTER, POINTER, SIZE, POINTER, POINTER],
    "city_displacement": 2 * _CARRIERS + [DOUBLE, U32, POINTER, POINTER, SIZE, POINTER, POINTER],
    "city_displacement_rated": 2 * _CARRIERS + [DOUBLE, U32, POINTER, POINTER, SIZE, POINTER, POINTER, POINTER],
    "displacement_rated": 2 * _CARRIERS + [DOUBLE, POINTER, POINTER, SIZE, POINTER, POINTER, POINTER],
    "trip_begin": [POINTER, SIZE, U16, POINTER, POINTER, POINTER],
    "trip_start": [U16, POINTER],
    "trip_add": [POINTER, POINTER, U16],
    "trip_report": [POINTER, POINTER],
    "mileage_start": [DOUBLE, POINTER],
    "mileage_add": [POINTER, U8, POINTER, POINTER, U16],
    "mileage_report": [POINTER, POINTER],
    "mileage_distance": [POINTER, POINTER],
    "north_east_down": 3 * [POINTER],
    "add_epoch": _TABLE + [POINTER] + _SAMPLES + [POINTER, DOUBLE, SIZE] + 4 * _COLUMN
    + [BOOL, SIZE] + 4 * _COLUMN + [POINTER, POINTER, DOUBLE, DOUBLE, POINTER],
    "query": _TABLE + [SIZE] + _SAMPLES + [SIZE, DOUBLE, U8, U16, U32, DOUBLE, POINTER],
    "forget": _TABLE + [SIZE] + _SAMPLES + [POINTER, DOUBLE],
    "smooth": 3 * [SIZE] + 6 * _COLUMN + [DOUBLE, SIZE] + 2 * _COLUMN,
}


def _found() -> tuple[str, ctypes.CDLL]:
    """Load the library of ZAQNUTI_LIBRARY, else that of the package, else the system's."""
    given = os.environ.get("ZAQNUTI_LIBRARY")
    inside = Path(__file__).parent / "libzaqnuti.so"
    name = "libzaqnuti.so." + __version__.rpartition(".")[0]
    path = given or (str(inside) if inside.exists() else name)
    try:
        return path, ctypes.CDLL(path)
    except OSError as why:
        where = "ZAQNUTI_LIBRARY" if given else "set ZAQNUTI_LIBRARY to its path"
        raise ImportError(f"zaqnuti: the library {path} cannot be loaded ({where}): {why}") from None


def _checked(path: str, library: ctypes.CDLL) -> ctypes.CDLL:
    """Give the library back where its version is the package's."""
    try:
        version = library.zaqnuti_version
    except AttributeError:
        raise ImportError(f"zaqnuti: {path} is no library of version {__version__}: it has no zaqnuti_version") from None
    version.restype = U32
    version.argtypes = []
    number = version()
    if number != number_of(__version__):
        raise ImportError(f"zaqnuti: {path} is of version {text_of(number)}, this package of {__version__}")
    for name, arguments in _CALLS.items():
        call = getattr(library, "zaqnuti_" + name)
        call.argtypes = arguments
        call.restype = U8
    return library


PATH, _loaded = _found()
LIBRARY = _checked(PATH, _loaded)


def address(name: str) -> int | None:
    """Give the address of a call, for the loop in C."""
    return ctypes.cast(getattr(LIBRARY, "zaqnuti_" + name), ctypes.c_void_p).value
