"""Settings that change during a drive, and an odometer recorded beside it."""

import os
from array import array
from bisect import bisect_left, bisect_right
from collections.abc import Mapping, Sequence
from typing import Any, NamedTuple

from . import _columns
from ._csv import Table
from ._drive import Drive
from ._loop import Form
from ._refused import Refused
from ._settings import Settings

# A week, where it is known, and a second of the week.
Time = tuple[int, float]
Changes = str | os.PathLike[str] | Sequence[tuple[int | None, float, Settings]]
Recorded = str | os.PathLike[str] | Mapping[str, Any]

_FLOATS = ("screen", "sigma_a", "sigma_b", "huber", "mask")


def times(drive: Drive) -> list[Time]:
    """Give the times of a drive's epochs; without weeks all are of week 0."""
    weeks = array("I", bytes(4 * len(drive))) if drive.week is None else drive.week
    return list(zip(map(int, weeks), map(float, drive.tow)))


def _check_weeks(name: str, weeks: bool, drive: Drive) -> None:
    if weeks != (drive.week is not None):
        raise ValueError(f"{name}: it and the drive must both have weeks, or neither")


def _of_file(path: str | os.PathLike[str]) -> tuple[str, bool, list[tuple[Time, Settings]]]:
    """Read a file of settings as `zaqnuti trip --settings` does."""
    table = Table(path, False)
    weeks = "week" in table.names and not table.is_blank("week")
    week = table.wholes("week", "I") if weeks else [0] * table.rows
    tow, floats = table.floats("tow"), [table.floats(name) for name in _FLOATS]
    rounds = table.wholes("rounds", "I")
    out = []
    for i in range(table.rows):
        screen, sigma_a, sigma_b, huber, mask = (float(column[i]) for column in floats)
        out.append(((int(week[i]), float(tow[i]) + 0.0), Settings(screen, sigma_a, sigma_b, huber, mask, int(rounds[i]))))
    return table.name, weeks, out


def forms(drive: Drive, settings: Settings, city: int | None, changes: Changes | None) -> list[tuple[int, Form]]:
    """List from which pair of epochs on each form of the displacement holds."""
    if city is not None and (isinstance(city, bool) or not isinstance(city, int) or not 0 <= city < 2**32):
        raise ValueError(f"city: {city!r}; expected a band, a whole number of MHz")
    first = settings.checked()
    out = [(0, Form(first.floats(), first.rounds, city))]
    if changes is None:
        return out
    if isinstance(changes, (str, os.PathLike)):
        name, weeks, lines = _of_file(changes)
    else:
        name, weeks = "changes", any(week is not None for week, _, _ in changes)
        lines = [((week or 0, float(tow)), set_) for week, tow, set_ in changes]
    if lines:
        _check_weeks(name, weeks, drive)
    epochs, before = times(drive), None
    for time, set_ in lines:
        if before is not None and not time > before:
            raise ValueError(f"{name}: tow: {time[1]:.3f} s is not after {before[1]:.3f} s")
        before = time
        try:
            form = Form(set_.checked().floats(), set_.rounds, city)
        except Refused as why:
            raise ValueError(f"{name}: the settings at {time[1]:.3f} s are {why}") from None
        # It is in force for the pairs whose later epoch is not before it.
        pair = max(bisect_left(epochs, time) - 1, 0)
        if out[-1][0] == pair:
            out.pop()
        if pair < len(drive) - 1:
            out.append((pair, form))
    return out


class Counts(NamedTuple):
    """The total at each epoch, None before the first count, and the longest pause of the recording in seconds."""

    totals: list[int | None]
    longest: float


def counts(drive: Drive, odometer: Recorded, wrap: int | None) -> Counts:
    """Give the last count of a second recording at or before each epoch, as `zaqnuti trip --odometer` does."""
    if isinstance(odometer, Mapping):
        name, weeks = "odometer", odometer.get("week") is not None
        given = {key: odometer[key] for key in ("tow", "odometer") if key in odometer}
        for key in ("tow", "odometer"):
            if key not in given:
                raise ValueError(f"{name}: {key}: the column is missing")
        tow, count = _columns.column("tow", given["tow"], "d"), _columns.column("odometer", given["odometer"], "Q")
        week = _columns.column("week", odometer["week"], "I") if weeks else [0] * len(tow)
        if not len(tow) == len(count) == len(week):
            raise ValueError(f"{name}: the columns have {len(week)}, {len(tow)} and {len(count)} elements")
    else:
        table = Table(odometer, False)
        name, weeks = table.name, "week" in table.names and not table.is_blank("week")
        tow, count = table.floats("tow"), table.wholes("odometer", "Q")
        week = table.wholes("week", "I") if weeks else [0] * table.rows
    if not len(tow):
        raise ValueError(f"{name}: has no counts")
    _check_weeks(name, weeks, drive)
    at = [(int(w), float(t) + 0.0) for w, t in zip(week, tow)]
    epochs = times(drive)
    read = min(bisect_right(at, epochs[-1]) + 1, len(at))
    totals, longest = _totals(name, at[:read], [int(c) for c in count[:read]], wrap)
    places = [bisect_right(at, epoch, hi=read) for epoch in epochs]
    return Counts([totals[place - 1] if place else None for place in places], longest)


def _totals(name: str, at: list[Time], count: list[int], wrap: int | None) -> tuple[list[int], float]:
    """Add up a running count, which may wrap; give the longest pause too."""
    totals, longest = [0], 0.0
    if wrap is not None and max(count) >= 1 << wrap:
        raise ValueError(f"{name}: odometer: {max(count)} is above {(1 << wrap) - 1}")
    for i in range(1, len(at)):
        if at[i] < at[i - 1]:
            raise ValueError(f"{name}: tow: {at[i][1]:.3f} s is not after {at[i - 1][1]:.3f} s")
        longest = max(longest, (at[i][0] - at[i - 1][0]) * 604_800.0 + (at[i][1] - at[i - 1][1]))
        step = count[i] - count[i - 1] if wrap is None else (count[i] - count[i - 1]) % (1 << wrap)
        if step < 0 or (wrap is not None and step >= 1 << wrap - 1):
            hint = "; if it wraps, give wrap=16 or 32" if wrap is None else ""
            raise ValueError(f"{name}: odometer: runs backwards, from {count[i - 1]} to {count[i]}{hint}")
        totals.append(totals[-1] + step)
    return totals, longest
