"""The totals of a drive, from the library's trip and mileage."""

import ctypes
import math
from array import array
from dataclasses import dataclass, field
from decimal import Decimal
from typing import Any

from . import _columns, _loop
from ._changes import Changes, Recorded, counts, forms, times
from ._columns import Data
from ._drive import Drive
from ._library import LIBRARY
from ._refused import accepted
from ._settings import Settings

# Epochs that a trip and a mileage of the library hold.
EPOCHS = 65_535
PULSES = 65_535
# A speed that no van reaches, m/s.
_FASTEST = 70.0

COLUMNS = (
    "file,depot,van,day,week,first_tow,last_tow,epochs,refused,carrier_mm,odometer_mm,greatest_mm,reached,set_aside,"
    "standing_mm,counted_mm,pulses_counted,pulses_all,coverage,distance_mm,gap_s,trips"
)


@dataclass(frozen=True)
class Trip:
    """The totals of a drive, each as the column of the same name that `zaqnuti trip --csv` writes."""

    week: int | None
    first_tow: float
    last_tow: float
    epochs: int
    """Pairs of epochs tried."""
    refused: dict[int, int] = field(hash=False)
    """How many of them were refused, by number."""
    carrier_mm: int
    odometer_mm: int
    greatest_mm: int
    reached: int
    set_aside: int
    standing_mm: int
    counted_mm: int
    pulses_counted: int
    pulses_all: int
    coverage: float | None
    """Counted pulses by all pulses; None where there are none, or some may have been lost."""
    distance_mm: int | None
    """Counted millimetres times all pulses by counted pulses, rounded down."""
    gap_s: float
    trips: int

    def line(self, file: str, depot: str = "", van: str = "", day: str = "") -> str:
        """Write the line that `zaqnuti trip --csv` writes, for `zaqnuti rank`; COLUMNS is its header."""
        for name, text in (("file", file), ("depot", depot), ("van", van), ("day", day)):
            if any(c in ',"' or not c.isprintable() for c in text) or text.strip() != text:
                raise ValueError(f"{name}: {text!r} can't be a field of CSV")
        refused = " ".join(f"{number}:{count}" for number, count in self.refused.items())
        fields = (
            file, depot, van, day, _or_nothing(self.week), _decimal(self.first_tow), _decimal(self.last_tow), self.epochs,
            refused, self.carrier_mm, self.odometer_mm, self.greatest_mm, self.reached, self.set_aside, self.standing_mm,
            self.counted_mm, self.pulses_counted, self.pulses_all,
            "" if self.coverage is None else f"{self.coverage:.4f}", _or_nothing(self.distance_mm), f"{self.gap_s:.3f}", self.trips,
        )
        return ",".join(map(str, fields))


def _or_nothing(value: int | None) -> str:
    return "" if value is None else str(value)


def _decimal(x: float) -> str:
    """Write a float as the command does.

    >>> _decimal(201600.0), _decimal(0.00005), _decimal(1e-7), _decimal(1e16)
    ('201600.0', '0.00005', '1e-7', '1e16')
    """
    text = repr(x)
    if "e" not in text:
        return text
    if 1e-5 <= abs(x) < 1e16:
        return format(Decimal(text), "f")
    mantissa, _, exponent = text.partition("e")
    return f"{mantissa}e{int(exponent)}"


def trip(
    drive: Drive, pulses_per_km: int, *, wrap: int | None = None, max_error: float = 0.2, settings: Settings = Settings(),
    city: int | None = None, changes: Changes | None = None, odometer: Recorded | None = None,
) -> Trip:
    """Add up a drive by carrier phases and all its odometer pulses, as `zaqnuti trip` does.

    `wrap` is 16 or 32 where the running count wraps. Displacements with a predicted error of `max_error`
    metres or more are set aside. `city` and `changes` are as in `displacements`. `odometer` is a second
    recording of the running count at times of its own, a file or columns (week, tow, odometer), in place
    of a column of the drive: an epoch has the last count at or before it, and those before the first are left out.

    >>> drive = Drive.from_csv("examples/month/halle-03-2026-11-03.csv")
    >>> halle = trip(drive, pulses_per_km=8000)
    >>> halle.carrier_mm, halle.distance_mm, halle.refused
    (890500, 978103, {7: 3})
    >>> round(halle.coverage, 4)
    0.9104
    """
    if isinstance(pulses_per_km, bool) or not isinstance(pulses_per_km, int) or not 1 <= pulses_per_km <= 65_535:
        raise ValueError(f"pulses_per_km: {pulses_per_km!r} is not 1 to 65535")
    each = forms(drive, settings, city, changes)
    _check_forward(drive)
    first, pause = 0, 0.0
    if odometer is None:
        name, pulses = _pulses(drive, wrap)
    else:
        name, (first, pulses, pause) = "recording", _recorded(drive, odometer, wrap)
    delta, quality, numbers = _loop.displaced(drive, each, True)
    sums = _Sums(pulses_per_km, max_error)
    for start in range(first, max(len(pulses), first + 1), EPOCHS):
        sums.add(start, min(start + EPOCHS, len(pulses)), delta, quality, pulses, numbers)
    gap, longest = _gaps(drive)
    lost = gap > 0.0 and (name == "pulses" or _wraps(wrap, longest, pulses_per_km))
    if name == "recording":
        lost = _wraps(wrap, pause, pulses_per_km)
    return sums.told(drive, numbers[first:], gap, lost)


def _recorded(drive: Drive, odometer: Recorded, wrap: int | None) -> tuple[int, "array[int]", float]:
    """Give the first pair of epochs with counts, the pulses of every pair, and the recording's longest pause."""
    _check_wrap(wrap)
    if drive.odometer is not None or drive.pulses is not None:
        raise ValueError("odometer: a second recording and a column of the drive; an odometer has one form only")
    totals, longest = counts(drive, odometer, wrap)
    first = sum(total is None for total in totals)
    out = array("H")
    for last, now in zip(totals, totals[1:]):
        step = 0 if last is None or now is None else now - last
        if step > PULSES:
            raise ValueError(f"odometer: {step} pulses since the epoch before; at most {PULSES}")
        out.append(step)
    return min(first, len(out)), out, longest


def _since(drive: Drive, i: int) -> float:
    """Seconds to an epoch from the one before."""
    weeks = 0 if drive.week is None else int(drive.week[i]) - int(drive.week[i - 1])
    return float(weeks) * 604_800.0 + (float(drive.tow[i]) - float(drive.tow[i - 1]))


def _check_forward(drive: Drive) -> None:
    all_times = times(drive)
    for before, now in zip(all_times, all_times[1:]):
        if not now > before:
            of = ("" if drive.week is None else f"week {week}, " for week, _ in (now, before))
            raise ValueError(f"tow: {next(of)}{now[1]:.3f} s is not after {next(of)}{before[1]:.3f} s")


def _check_wrap(wrap: int | None) -> None:
    if wrap not in (None, 16, 32):
        raise ValueError(f"wrap: {wrap!r} is not 16 or 32")


def _pulses(drive: Drive, wrap: int | None) -> tuple[str, "array[int]"]:
    """Give the column of the odometer, and the pulses from each epoch to the next."""
    _check_wrap(wrap)
    if drive.odometer is not None and drive.pulses is not None:
        raise ValueError("odometer: the columns odometer and pulses; an odometer has one form only")
    if drive.pulses is not None:
        if wrap is not None:
            raise ValueError("pulses: they do not wrap")
        return "pulses", array("H", drive.pulses[1:])
    if drive.odometer is None:
        raise ValueError("odometer: the column odometer or pulses is missing; or give odometer=FILE")
    out, counts = array("H"), drive.odometer
    for last, count in zip(counts, counts[1:]):
        out.append(_step(int(last), int(count), wrap))
    if wrap is not None and counts and max(counts) >= 1 << wrap:
        raise ValueError(f"odometer: {max(counts)} is above {(1 << wrap) - 1}")
    return "odometer", out


def _step(last: int, count: int, wrap: int | None) -> int:
    step = count - last if wrap is None else (count - last) % (1 << wrap)
    if step < 0 or (wrap is not None and step >= 1 << wrap - 1):
        hint = "; if it wraps, give wrap=16 or 32" if wrap is None else ""
        raise ValueError(f"odometer: runs backwards, from {last} to {count}{hint}")
    if step > PULSES:
        raise ValueError(f"odometer: {step} pulses since the epoch before; at most {PULSES}")
    return step


def _wraps(wrap: int | None, span: float, pulses_per_km: int) -> bool:
    """Whether a count may have wrapped unseen in so many seconds."""
    return wrap is not None and span * _FASTEST * float(pulses_per_km) / 1000.0 >= float(1 << wrap) / 2.0


def _gaps(drive: Drive) -> tuple[float, float]:
    """Give the seconds that are missing, and the longest interval; intervals are kept in classes as in the command."""
    classes: dict[int, list[float]] = {}
    longest = 0.0
    for i in range(1, len(drive)):
        seconds = _since(drive, i)
        which = int(seconds * 1000.0) if seconds < 10.0 else 10_000 + int(1000.0 * math.log(seconds / 10.0))
        kept = classes.setdefault(which, [0, 0.0])
        kept[0] += 1
        kept[1] += seconds
        longest = max(longest, seconds)
    ordered = [classes[which] for which in sorted(classes)]
    median, below = 0.0, 0.0
    for count, total in ordered:
        below += count
        if 2 * below >= len(drive) - 1:
            median = total / count
            break
    missing = 0.0
    for count, total in ordered:
        if total > 1.5 * median * count:
            missing += total - median * count
    return missing, longest


class _Sums:
    """The totals of a drive, in as many trips and mileages of the library as it needs."""

    def __init__(self, per_km: int, limit: float) -> None:
        self.per_km, self.limit = per_km, limit
        self.accepted = self.carrier = self.pulses = self.greatest = self.reached = self.trips = 0
        self.odometer = 0
        self.report = [0] * 7
        self.distance: int | None = None

    def add(self, start: int, end: int, delta: Data, quality: Data, pulses: Data, numbers: Data) -> None:
        """Add displacements in a trip and a mileage of their own."""
        words, mileage = (ctypes.c_uint64 * 6)(), (ctypes.c_uint64 * 10)()
        accepted(LIBRARY.zaqnuti_trip_start(self.per_km, words))
        accepted(LIBRARY.zaqnuti_mileage_start(float(self.limit), mileage))
        after = _columns.empty("Q", 2 * (end - start)) if self.trips > 0 else None
        accepted(_loop.added(start, end, delta, quality, pulses, numbers, words, mileage, after))
        report, counts, distance = (ctypes.c_uint64 * 4)(), (ctypes.c_uint64 * 7)(), ctypes.c_uint64()
        accepted(LIBRARY.zaqnuti_trip_report(words, report))
        accepted(LIBRARY.zaqnuti_mileage_report(mileage, counts))
        known = LIBRARY.zaqnuti_mileage_distance(mileage, ctypes.byref(distance)) == 0
        if after is None:
            self.greatest, self.reached, self.odometer = report[2], report[3], report[1]
        else:
            self._compare(start, end, numbers, after)
        self.accepted += words[1]
        self.carrier += words[2]
        self.pulses += words[3]
        self.report = [a + int(b) for a, b in zip(self.report, counts)]
        self.trips += 1
        if self.trips == 1:
            self.distance = distance.value if known else None
        else:
            self.odometer = self.pulses * 1_000_000 // self.per_km
            self.distance = self.report[3] * self.report[6] // self.report[4] if self.report[4] else None

    def _compare(self, start: int, end: int, numbers: Data, after: Data) -> None:
        """Keep the greatest difference of a drive of several trips."""
        count = self.accepted
        for i in range(end - start):
            if numbers[start + i] == 0:
                count += 1
                driven = (self.pulses + int(after[2 * i + 1])) * 1_000_000 // self.per_km
                apart = abs(self.carrier + int(after[2 * i]) - driven)
                if apart > self.greatest or count == 1:
                    self.greatest, self.reached = apart, count

    def told(self, drive: Drive, numbers: Data, gap: float, lost: bool) -> Trip:
        """Give the totals."""
        epochs, _, aside, counted, covered, standing, everything = self.report
        refused: dict[int, int] = {}
        for number in sorted(int(n) for n in numbers if n):
            refused[number] = refused.get(number, 0) + 1
        return Trip(
            week=None if drive.week is None else int(drive.week[0]),
            first_tow=float(drive.tow[0]),
            last_tow=float(drive.tow[-1]),
            epochs=epochs,
            refused=refused,
            carrier_mm=self.carrier,
            odometer_mm=self.odometer,
            greatest_mm=self.greatest,
            reached=self.reached,
            set_aside=aside,
            standing_mm=standing,
            counted_mm=counted,
            pulses_counted=covered,
            pulses_all=everything,
            coverage=covered / everything if everything and not lost else None,
            distance_mm=None if lost else self.distance,
            gap_s=gap,
            trips=self.trips,
        )
