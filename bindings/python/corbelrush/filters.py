"""Blur, shift and shadow of a picture, and lists of them. Pictures are changed in place.

A picture is a writable, contiguous buffer of bytes of shape (h, w, 4), as a numpy array of uint8 is; or a flat buffer with
`sides=(w, h)` beside it. Work buffers (`scratch`, `copy`) are made where none are lent.
"""
from __future__ import annotations

import struct
from typing import Iterable, NamedTuple, Optional, Sequence, Tuple

from . import _lent
from ._lent import Buffer, Lent, Sides
from ._library import call
from ._refusals import Edge, Operation, Refused

Colour = Tuple[float, float, float, float]

TAPS_OF_A_KERNEL = 33


def must(number: int) -> None:
    """Refused, where the number is not 0."""
    if number:
        raise Refused(number)


def blur(picture: Buffer, weights: Iterable[float], n: int = 0, edge: int = Edge.DUPLICATE, strength: float = 1.0, *,
         sides: Sides = None, scratch: Optional[Buffer] = None) -> None:
    """Blurs: n halvings, the convolution by the weights in rows and in columns, n doublings.

    1 to 33 weights, each 0 to 1; n is 0 to 14. A strength at or below 0 leaves the picture as it is. Refusals: 1 to 7, 9.
    """
    blur_as('blur', _lent.picture(picture, sides, True), weights, n, edge, strength, scratch)


def blur_as(name: str, lent: Tuple[Lent, int, int], weights: Iterable[float], n: int, edge: int, strength: float,
            scratch: Optional[Buffer]) -> None:
    """A blur of a picture or of planes, by the function's name."""
    number, _ = call(name, *lent, _lent.work(scratch, lent[0], 'scratch'), _lent.weights(weights), n, strength, edge)
    must(number)


def blur_whole(picture: Buffer, numerators: Iterable[int], n: int = 0, edge: int = Edge.DUPLICATE, *,
               sides: Sides = None, scratch: Optional[Buffer] = None) -> None:
    """Blurs with numerators over 65536 in place of weights, in whole numbers alone. Refusals: 1, 2, 3, 4, 14, 6, 9."""
    lent = _lent.picture(picture, sides, True)
    work = _lent.work(scratch, lent[0], 'scratch')
    number, _ = call('blur_whole', *lent, work, _lent.words(numerators, 'numerators'), n, edge)
    must(number)


def shift(picture: Buffer, dx: float, dy: float, *, sides: Sides = None) -> None:
    """Moves by dx to the right and dy down, each rounded to the nearest whole number, halves away from zero.

    What comes in from outside is four zeros. Refusals: 1, 2, 7.
    """
    number, _ = call('shift', *_lent.picture(picture, sides, True), dx, dy)
    must(number)


def shadow(picture: Buffer, weights: Iterable[float], n: int = 0, edge: int = Edge.DUPLICATE, dx: float = 0.0,
           dy: float = 0.0, strength: float = 1.0, colour: Colour = (0.0, 0.0, 0.0, 1.0), composite: bool = True, *,
           sides: Sides = None, scratch: Optional[Buffer] = None, copy: Optional[Buffer] = None) -> None:
    """Draws the drop shadow: the alpha moved and blurred, in a colour of red, green, blue and alpha, not premultiplied.

    With `composite` the picture is laid over its shadow, else the shadow alone is left. Refusals: 1 to 9.
    """
    lent = _lent.picture(picture, sides, True)
    shadow_as('shadow', lent, weights, n, edge, (dx, dy, strength), colour, composite, scratch, copy)


def shadow_as(name: str, lent: Tuple[Lent, int, int], weights: Iterable[float], n: int, edge: int,
              moved: Tuple[float, float, float], colour: Colour, composite: bool, scratch: Optional[Buffer],
              copy: Optional[Buffer]) -> None:
    """A shadow of a picture or of planes, by the function's name."""
    red, green, blue, alpha = colour
    work = _lent.work(scratch, lent[0], 'scratch'), _lent.work(copy, lent[0], 'copy')
    number, _ = call(name, *lent, *work, _lent.weights(weights), n, edge, *moved, red, green, blue, alpha, int(bool(composite)))
    must(number)


class Recipe(NamedTuple):
    """One recipe of a list: an `Operation` and its numbers. What its operation does not name is not read."""

    operation: int
    kernel: int = 0
    taps: int = 0
    n: int = 0
    edge: int = Edge.DUPLICATE
    composite: int = 0
    dx: float = 0.0
    dy: float = 0.0
    strength: float = 1.0
    red: float = 0.0
    green: float = 0.0
    blue: float = 0.0
    alpha: float = 1.0

    @staticmethod
    def of_blur(kernel: int, taps: int, n: int = 0, edge: int = Edge.DUPLICATE, strength: float = 1.0) -> Recipe:
        """A blur by the first `taps` weights of a kernel of the table."""
        return Recipe(Operation.BLUR, kernel, taps, n, edge, strength=strength)

    @staticmethod
    def of_shift(dx: float, dy: float) -> Recipe:
        """A shift."""
        return Recipe(Operation.SHIFT, dx=dx, dy=dy)

    @staticmethod
    def of_shadow(kernel: int, taps: int, n: int = 0, edge: int = Edge.DUPLICATE, dx: float = 0.0, dy: float = 0.0,
                  strength: float = 1.0, colour: Colour = (0.0, 0.0, 0.0, 1.0), composite: bool = True) -> Recipe:
        """A shadow, blurred by the first `taps` weights of a kernel of the table."""
        return Recipe(Operation.SHADOW, kernel, taps, n, edge, int(composite), dx, dy, strength, *colour)

    def packed(self) -> bytes:
        """The record as C has it."""
        fields = zip(self._fields, self, ['u32'] * 6 + ['f32'] * 7)
        return struct.pack('=6I7f', *(_lent.within(kind, name, value) for name, value, kind in fields))


def kernel_table(kernels: Sequence[Sequence[float]]) -> list[float]:
    """A table of kernels for `recipes`: each with zeros behind it, up to 33 weights."""
    if any(len(kernel) > TAPS_OF_A_KERNEL for kernel in kernels):
        raise ValueError('a kernel of the table has at most %d weights' % TAPS_OF_A_KERNEL)
    return [weight for kernel in kernels for weight in [*kernel, *[0.0] * (TAPS_OF_A_KERNEL - len(kernel))]]


def recipes(picture: Buffer, chain: Iterable[Recipe], table: Iterable[float], *, sides: Sides = None,
            scratch: Optional[Buffer] = None, copy: Optional[Buffer] = None) -> None:
    """Runs a chain of recipes on one picture, in order; kernel k of the table has the 33 weights from 33k on.

    All are checked before the first runs. Refusals: 1, 2, 3, then the first bad recipe's own, 19 and 4 to 9, with its index.
    """
    lent = _lent.picture(picture, sides, True)
    records = b''.join(recipe.packed() for recipe in chain)
    listed = Lent(memoryview(records), len(records) // 52)
    work = _lent.work(scratch, lent[0], 'scratch'), _lent.work(copy, lent[0], 'copy')
    number, (index,) = call('recipes', *lent, *work, listed, _lent.weights(table, 'table'))
    if number:
        raise Refused(number, index=index if number > 3 else None)
