"""The position from the pseudoranges of an epoch, or of each epoch of a drive."""

import ctypes
from array import array
from collections.abc import Sequence
from dataclasses import dataclass
from typing import Any, overload

from . import _columns, _loop
from ._columns import address
from ._drive import Drive
from ._library import LIBRARY
from ._refused import Refused, accepted

# The number that refuses settings, and so every epoch of a drive.
_SETTING = 3


@dataclass(frozen=True)
class Fix:
    """A position, and what it says of itself."""

    position: tuple[float, float, float]
    """Earth-centred, earth-fixed x, y, z in metres."""
    chi: float
    """The root of the reduced chi-squared."""
    pdop: float
    """The position dilution of precision."""
    used: int
    """Observations at or above the mask."""


@dataclass(frozen=True)
class FixSettings:
    """Settings of a fix; those of a phone are the default."""

    sigma_a: float = 0.3
    sigma_b: float = 16.0
    huber: float = 1.0
    mask: float = 10.0
    rounds: int = 25

    @classmethod
    def geodetic(cls) -> "FixSettings":
        """Give settings for a receiver of a geodetic network."""
        return cls(sigma_b=0.3, huber=1.5)

    def floats(self) -> "array[float]":
        """Give the four floats as the library takes them."""
        if isinstance(self.rounds, bool) or not isinstance(self.rounds, int) or not 0 <= self.rounds < 2**64:
            raise ValueError(f"rounds: {self.rounds!r}; expected a whole number from 1 to 50")
        return array("d", (self.sigma_a, self.sigma_b, self.huber, self.mask))


@overload
def fix(
    drive: Drive, /, *, guess: Sequence[float] = (0.0, 0.0, 0.0), settings: FixSettings = FixSettings()
) -> tuple[Any, Any]: ...


@overload
def fix(
    constellation: Any,
    pseudorange: Any,
    x: Any,
    y: Any,
    z: Any,
    elevation: Any,
    *,
    guess: Sequence[float] = (0.0, 0.0, 0.0),
    settings: FixSettings = FixSettings(),
) -> Fix: ...


def fix(
    constellation: Any,
    pseudorange: Any = None,
    x: Any = None,
    y: Any = None,
    z: Any = None,
    elevation: Any = None,
    *,
    guess: Sequence[float] = (0.0, 0.0, 0.0),
    settings: FixSettings = FixSettings(),
) -> Fix | tuple[Any, Any]:
    """Give the receiver's position from the pseudoranges of one epoch, or of each epoch of a drive.

    Of one epoch: pseudoranges are corrected for satellite clock and delays, and x, y, z are the satellites at
    transmission. Raises Refused where there is no position.

    Of a drive that has the column pseudorange: an array of (n, 3) metres, NaN where refused, and one of n
    numbers, for n epochs; without NumPy a list of tuples and a list. Pseudoranges are corrected by the columns
    clock, modelled and correction as `zaqnuti fix` does; a row whose correction is empty is left out.

    >>> drive = Drive.from_csv("examples/geonet/rover.csv", at=(-3976219.5, 3382372.6, 3652513.0))
    >>> positions, refusals = fix(drive, settings=FixSettings.geodetic())
    >>> [round(float(metres), 3) for metres in positions[0]], int(refusals[0])
    ([-3976219.049, 3382373.323, 3652512.894], 0)
    >>> fix([1], [2e7], [2e7], [0.0], [0.0], [45.0])
    Traceback (most recent call last):
    zaqnuti.Refused: refused by 8: there are fewer rows than 4 plus the clock slots
    """
    if isinstance(constellation, Drive):
        return _fixes(constellation, guess, settings)
    names = ("pseudorange", "x", "y", "z", "elevation")
    which = _columns.column("constellation", constellation, "B")
    columns = [_columns.column(name, values, "d") for name, values in zip(names, (pseudorange, x, y, z, elevation))]
    for name, column in zip(names, columns):
        if len(column) != len(which):
            raise ValueError(f"{name}: has {len(column)} elements, constellation has {len(which)}")
    floats, set4 = array("d", (float(column[i]) for i in range(len(which)) for column in columns)), settings.floats()
    start, out, used = _columns.vector("guess", guess), (ctypes.c_double * 5)(), ctypes.c_uint64()
    accepted(LIBRARY.zaqnuti_fix(
        address(which), len(which), address(floats), len(floats), len(which),
        address(start), address(set4), settings.rounds, out, ctypes.byref(used),
    ))
    return Fix((out[0], out[1], out[2]), out[3], out[4], used.value)


def _fixes(drive: Drive, guess: Sequence[float], settings: FixSettings) -> tuple[Any, Any]:
    """Give the position of each epoch of a drive, and the number that refused it or 0."""
    if drive.ranges is None:
        raise ValueError(drive.no_ranges)
    position, numbers = _loop.fixed(drive, _columns.vector("guess", guess), settings.floats(), settings.rounds)
    if int(numbers[0]) == _SETTING:
        raise Refused(_SETTING)
    if _columns.numpy is not None:
        return position.reshape(-1, 3), numbers
    return [tuple(position[3 * i : 3 * i + 3]) for i in range(len(numbers))], list(numbers)
