"""Refusals of the library."""

TEXTS = {
    1: "the text is longer than 32,768 bytes, or a line breaks the form",
    2: "there are too many records, or a buffer is too short",
    3: "a setting is not finite or above 1e9 in magnitude, or the rounds are not allowed",
    4: "a number in a record, a coordinate or a time is out of range, or a table is not sorted",
    5: "the interval is not above 0 and at most 604,800 s",
    6: "the track has no epochs or no anchor, a sigma not above 0, or an index beyond its epochs",
    7: "there are fewer than six carrier pairs",
    8: "there are fewer rows than 4 plus the clock slots",
    9: "there are more than six clock slots",
    10: "the fit fails",
    11: "the epoch's corrections do not all fit in the table",
    12: "the table gives no correction for the signal and time",
    13: "a week is above 15,000, a time of week is not in 0 to below 604,800 s, or a time is past the start of week 15,001",
    14: "chi or pdop is not finite",
    15: "the range of a satellite is zero or not finite",
    16: "a displacement is not finite or longer than 1,000 m, the trip is full, its pulse rate is 0, or it is out of its limits",
    17: "no distance was measured",
    18: "the time to drop samples before is not finite",
    19: "a coordinate or the result is not finite, or a coordinate is above 1e9 in magnitude",
    20: "the kept pairs lack GPS or Galileo",
    21: "the length of the carrier records is not a multiple of 59",
}


class Refused(Exception):
    """A call that the library refused as a whole.

    >>> raise Refused(13)
    Traceback (most recent call last):
    zaqnuti.Refused: refused by 13: a week is above 15,000, a time of week is not in 0 to below 604,800 s, or a time is past the start of week 15,001
    """

    # The name under which users know it.
    __module__ = "zaqnuti"

    number: int
    """The number of the refusal, as docs/REFUSALS.md has it."""
    text: str
    """What it says."""

    def __init__(self, number: int) -> None:
        self.number = number
        self.text = TEXTS.get(number, "no such number")
        super().__init__(f"refused by {number}: {self.text}")

    def __reduce__(self) -> tuple[type["Refused"], tuple[int]]:
        """Pickle by the number, so that workers may raise it."""
        return Refused, (self.number,)


def accepted(number: int) -> None:
    """Raise Refused where a call's number is not 0."""
    if number != 0:
        raise Refused(number)
