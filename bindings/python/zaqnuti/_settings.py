"""Settings of a displacement."""

from array import array
from dataclasses import dataclass

from . import _columns
from ._library import LIBRARY
from ._refused import accepted


@dataclass(frozen=True)
class Settings:
    """Settings of a displacement; those of a phone are the default.

    >>> Settings()
    Settings(screen=0.5, sigma_a=0.008, sigma_b=0.002, huber=1.5, mask=10.0, rounds=4)
    >>> Settings.geodetic().screen
    2.0
    """

    screen: float = 0.5
    sigma_a: float = 0.008
    sigma_b: float = 0.002
    huber: float = 1.5
    mask: float = 10.0
    rounds: int = 4

    @classmethod
    def geodetic(cls) -> "Settings":
        """Give settings for a receiver of a geodetic network."""
        return cls(screen=2.0)

    def floats(self) -> "array[float]":
        """Give the five floats as the library takes them."""
        return array("d", (self.screen, self.sigma_a, self.sigma_b, self.huber, self.mask))

    def checked(self) -> "Settings":
        """Raise Refused(3) where the library does not take these settings.

        >>> Settings(rounds=51).checked()
        Traceback (most recent call last):
        zaqnuti.Refused: refused by 3: a setting is not finite or above 1e9 in magnitude, or the rounds are not allowed
        """
        if isinstance(self.rounds, bool) or not isinstance(self.rounds, int) or not 0 <= self.rounds < 2**64:
            raise ValueError(f"rounds: {self.rounds!r}; expected a whole number from 0 to 50")
        given, trip, force = self.floats(), array("Q", bytes(48)), array("d", bytes(40))
        rounds = array("Q", [0])
        addresses = (_columns.address(force), _columns.address(rounds))
        accepted(LIBRARY.zaqnuti_trip_begin(_columns.address(given), self.rounds, 1, _columns.address(trip), *addresses))
        return self
