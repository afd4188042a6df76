"""Displacements between the epochs of a drive."""

from typing import Any

from . import _columns, _loop
from ._changes import Changes, forms
from ._drive import Drive
from ._settings import Settings


def displacements(
    drive: Drive, settings: Settings = Settings(), *, city: int | None = None, changes: Changes | None = None
) -> tuple[Any, Any]:
    """Give how far the receiver moved from each epoch to the next, and the number that refused it or 0.

    With NumPy these are an array of (n - 1, 3) metres, NaN where refused, and one of n - 1 numbers, for
    n epochs; otherwise a list of tuples and a list.

    `city` is a band in MHz: GPS and Galileo on it alone. `changes` are settings that change during the drive,
    a file as `zaqnuti trip --settings` reads it or (week, tow, Settings) in order: each is in force from its time.

    Do not add these up to rank vans: `nansum` leaves out what was driven under bridges, so that a depot
    ranks by its sky. `trip` keeps those pulses and says how much was covered.

    >>> drive = Drive.from_csv("examples/month/halle-03-2026-11-03.csv")
    >>> moved, refusals = displacements(drive)
    >>> [round(float(metres), 3) for metres in moved[5]]
    [5.717, 27.141, -9.128]
    >>> sorted(set(map(int, refusals)))
    [0, 7]
    """
    if len(drive) == 1:
        raise ValueError("tow: the drive has one epoch; a displacement needs two")
    delta, _, numbers = _loop.displaced(drive, forms(drive, settings, city, changes), False)
    if _columns.numpy is not None:
        return delta.reshape(-1, 3), numbers
    return [tuple(delta[3 * i : 3 * i + 3]) for i in range(len(numbers))], list(numbers)
