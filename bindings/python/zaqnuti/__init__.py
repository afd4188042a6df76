"""Positions, displacements and the distance of a drive, by the proved library Zaqnuti.

>>> drive = Drive.from_csv("examples/month/halle-03-2026-11-03.csv")
>>> trip(drive, pulses_per_km=8000).distance_mm
978103
"""

from ._corrections import Corrections
from ._displacements import displacements
from ._drive import Drive
from ._fix import Fix, FixSettings, fix
from ._refused import Refused
from ._settings import Settings
from ._smooth import smooth
from ._times import gps_time, north_east_down
from ._trip import COLUMNS, Trip, trip
from ._version import __version__

__all__ = [
    "COLUMNS",
    "Corrections",
    "Drive",
    "Fix",
    "FixSettings",
    "Refused",
    "Settings",
    "Trip",
    "__version__",
    "displacements",
    "fix",
    "gps_time",
    "north_east_down",
    "smooth",
    "trip",
]
