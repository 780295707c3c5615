"""What graders ask: the premultiplied check, the mender, the sampling view, the spread, area sums and shares."""
from __future__ import annotations

import operator
import struct
from typing import Iterable, List, NamedTuple, Optional, Tuple

from . import _lent
from ._lent import Buffer, Lent, Sides
from ._library import call
from ._refusals import Edge
from .filters import must

AN_AXIS_OF_POINTS = 512
"""More inputs than one output has along an axis: 3 of the coarsest level, 32 taps more, then 2m + 2 for each halving, 294."""


class Change(NamedTuple):
    """A place y * w + x, and the pixel that stood there, r | g << 8 | b << 16 | a << 24."""

    place: int
    pixel: int


class Point(NamedTuple):
    """A place y * w + x, and its share, over 2^(10n+32)."""

    place: int
    share: int


def _first_pairs(listed: Lent, letter: str, count: int) -> Iterable[Tuple[int, int]]:
    """The first entries of a list."""
    numbers = struct.unpack_from('=%d%s' % (2 * count, letter), listed.view)
    return zip(numbers[::2], numbers[1::2])


def check(picture: Buffer, *, sides: Sides = None) -> Optional[int]:
    """The place y * w + x of the first pixel of which r, g or b exceeds a, or None. Refusals: 1, 2."""
    number, (found, place) = call('check', *_lent.picture(picture, sides, False))
    must(number)
    return place if found else None


def mend(picture: Buffer, *, sides: Sides = None, into: Optional[Buffer] = None) -> List[Change]:
    """Lowers each r, g or b above its alpha to that alpha, and answers each pixel changed, as it was.

    `into` lends the list's room: 32-bit numbers, two an entry. Refusals: 1, 2, 17.
    """
    lent = _lent.picture(picture, sides, True)
    listed = _lent.flat(memoryview(bytearray(2 * lent[0].count)).cast('I') if into is None else into, 'into', 'I', True, 2)
    number, (count,) = call('mend', *lent, listed)
    must(number)
    return [Change(*pair) for pair in _first_pairs(listed, 'I', count)]


def rebuild(picture: Buffer, changes: Iterable[Tuple[int, int]], *, sides: Sides = None) -> None:
    """Puts the old pixels of a list of changes back, each into its place. Refusals: 1, 2, 18."""
    lent = _lent.picture(picture, sides, True)
    listed = _lent.words([word for place, pixel in changes for word in (place, pixel)], 'changes')
    listed.count //= 2
    must(call('rebuild', *lent, listed)[0])


def view(picture: Buffer, edge: int, *, sides: Sides = None) -> None:
    """Whether `sample` reads this picture under this edge rule. Refusals: 1, 2, 9."""
    must(call('view', *_lent.picture(picture, sides, False), edge)[0])


def sample(picture: Buffer, x: int, y: int, edge: int = Edge.DUPLICATE, *, sides: Sides = None) -> Tuple[int, int, int, int]:
    """r, g, b and a at column x and row y, each extended by the edge rule; all 0 where `view` refuses."""
    pixel, _ = call('sample', *_lent.picture(picture, sides, False), edge, x, y)
    return pixel & 255, pixel >> 8 & 255, pixel >> 16 & 255, pixel >> 24


def spread(weights: Iterable[float], n: int = 0) -> int:
    """The variance of a blur along an axis, in units of 1/131072 of a square pixel. Refusals: 4, 6, 11."""
    number, (units,) = call('spread', _lent.weights(weights), n)
    must(number)
    return units


def area_build(picture: Buffer, *, sides: Sides = None, into: Optional[Buffer] = None) -> memoryview:
    """The area sums of a picture: 32-bit numbers of shape (h, w), made anew, or `into` with its first wh entries written.

    Entry y * w + x is the sum of the alphas above and to the left, itself included, modulo 2^32. Refusals: 1, 2, 3.
    """
    lent, w, h = _lent.picture(picture, sides, False)
    table = _lent.flat(memoryview(bytearray(lent.count)).cast('I') if into is None else into, 'into', 'I', True)
    must(call('area_build', lent, w, h, table)[0])
    return table.view.cast('B').cast('I', (h, w)) if into is None else table.view


def area_box(table: Buffer, x: int, y: int, wide: int, high: int, *, sides: Sides = None) -> int:
    """The sum of the alphas of a box, wide columns from x on and high rows from y on. Refusals: 1, 3, 20."""
    number, (total,) = call('area_box', *_lent.shaped(table, sides, False, 'table', 'I', ('h', 'w')), x, y, wide, high)
    must(number)
    return total


def area_update(table: Buffer, place: int, old_alpha: int, new_alpha: int, *, sides: Sides = None) -> None:
    """Carries the change of one pixel's alpha into a table, by its place y * w + x. Refusals: 1, 3, 20."""
    lent = _lent.shaped(table, sides, True, 'table', 'I', ('h', 'w'))
    must(call('area_update', *lent, place, old_alpha, new_alpha)[0])


def share(w: int, h: int, numerators: Iterable[int], out_place: int, in_place: int, n: int = 0,
          edge: int = Edge.DUPLICATE) -> int:
    """The weight of an input place in an output place, over 2^(10n+32), with nothing rounded. Refusals: 1, 4, 9, 21, 22, 14."""
    number, (weight,) = call('share', w, h, _lent.words(numerators, 'numerators'), n, edge, out_place, in_place)
    must(number)
    return weight


def shares(w: int, h: int, numerators: Iterable[int], out_place: int, n: int = 0, edge: int = Edge.DUPLICATE, *,
           into: Optional[Buffer] = None) -> List[Point]:
    """The points that made an output place: each input whose share is not 0, in the order of their places.

    `into` lends the list's room: 64-bit numbers, two an entry. Refusals: 1, 4, 9, 21, 22, 14, 17.
    """
    room = min(operator.index(w), AN_AXIS_OF_POINTS) * min(operator.index(h), AN_AXIS_OF_POINTS)
    lent = memoryview(bytearray(16 * max(room, 0))).cast('Q') if into is None else into
    listed = _lent.flat(lent, 'into', 'Q', True, 2)
    number, (count,) = call('shares', w, h, _lent.words(numerators, 'numerators'), n, edge, out_place, listed)
    must(number)
    return [Point(*pair) for pair in _first_pairs(listed, 'Q', count)]
