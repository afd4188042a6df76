"""The track that fits anchors and links."""

from array import array
from typing import Any

from . import _columns
from ._columns import address
from ._library import LIBRARY
from ._refused import accepted


def _three(name: str, values: Any, count: int) -> "array[float]":
    """Give three floats for each of `count` rows."""
    rows = [_columns.vector(name, [float(x) for x in row]) for row in values]
    if len(rows) != count:
        raise ValueError(f"{name}: has {len(rows)} rows; expected {count}")
    return array("d", (x for row in rows for x in row))


def smooth(
    epochs: int,
    anchor_epoch: Any,
    anchor_position: Any,
    anchor_sigma: Any,
    link_epoch: Any,
    link_change: Any,
    link_sigma: Any,
    *,
    huber: float = 2.0,
    iterations: int = 6,
) -> Any:
    """Give the track of some epochs that fits anchors (positions) and links (changes to the next epoch).

    With NumPy it is an array of (epochs, 3) metres, otherwise a list of tuples.

    >>> track = smooth(2, [0], [(0.0, 0.0, 0.0)], [(1.0, 1.0, 1.0)], [0], [(1.0, 2.0, 3.0)], [(0.1, 0.1, 0.1)])
    >>> [[round(float(x), 9) for x in place] for place in track]
    [[0.0, 0.0, 0.0], [1.0, 2.0, 3.0]]
    """
    for name, value in (("epochs", epochs), ("iterations", iterations)):
        if isinstance(value, bool) or not isinstance(value, int) or not 0 <= value < 2**32:
            raise ValueError(f"{name}: {value!r}; expected a whole number")
    anchors, links = (_columns.column(name, values, "Q") for name, values in (("anchor_epoch", anchor_epoch), ("link_epoch", link_epoch)))
    columns = [
        anchors, _three("anchor_position", anchor_position, len(anchors)), _three("anchor_sigma", anchor_sigma, len(anchors)),
        links, _three("link_change", link_change, len(links)), _three("link_sigma", link_sigma, len(links)),
    ]
    size = min(epochs, 1025)
    result, work = _columns.empty("d", 3 * size), _columns.empty("d", 9 * size + len(anchors) + len(links))
    given = [part for column in columns for part in (address(column), len(column))]
    accepted(LIBRARY.zaqnuti_smooth(
        epochs, len(anchors), len(links), *given, float(huber), iterations,
        address(result), len(result), address(work), len(work),
    ))
    if _columns.numpy is not None:
        return result.reshape(-1, 3)
    return [tuple(result[3 * i : 3 * i + 3]) for i in range(epochs)]
