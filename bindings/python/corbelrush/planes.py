"""A picture as four planes, all r, then all g, b and a: a buffer of shape (4, h, w), or a flat one with `sides=(w, h)`."""
from __future__ import annotations

from typing import Iterable, Optional, Tuple

from . import _lent
from ._lent import Buffer, Lent, Sides
from ._library import call
from ._refusals import Edge
from .filters import Colour, blur_as, must, shadow_as


def _converted(name: str, lent: Lent, w: int, h: int, into: Optional[Buffer], shape: Tuple[int, int, int]) -> memoryview:
    made = _lent.work(into, lent, 'into')
    must(call(name, lent, w, h, made)[0])
    return made.part(0, shape)


def to_planes(picture: Buffer, *, sides: Sides = None, into: Optional[Buffer] = None) -> memoryview:
    """The planes of a picture, of shape (4, h, w), made anew or in the first bytes of `into`. Refusals: 1, 2, 3."""
    lent, w, h = _lent.picture(picture, sides, False)
    return _converted('to_planes', lent, w, h, into, (4, h, w))


def from_planes(planes: Buffer, *, sides: Sides = None, into: Optional[Buffer] = None) -> memoryview:
    """The picture of four planes, of shape (h, w, 4), made anew or in the first bytes of `into`. Refusals: 1, 2, 3."""
    lent, w, h = _lent.planes(planes, sides, False)
    return _converted('from_planes', lent, w, h, into, (h, w, 4))


def blur_planes(planes: Buffer, weights: Iterable[float], n: int = 0, edge: int = Edge.DUPLICATE, strength: float = 1.0, *,
                sides: Sides = None, scratch: Optional[Buffer] = None) -> None:
    """The blur, on planes, with its parameters and refusals."""
    blur_as('blur_planes', _lent.planes(planes, sides, True), weights, n, edge, strength, scratch)


def shift_planes(planes: Buffer, dx: float, dy: float, *, sides: Sides = None) -> None:
    """The shift, on planes, with its parameters and refusals."""
    must(call('shift_planes', *_lent.planes(planes, sides, True), dx, dy)[0])


def shadow_planes(planes: Buffer, weights: Iterable[float], n: int = 0, edge: int = Edge.DUPLICATE, dx: float = 0.0,
                  dy: float = 0.0, strength: float = 1.0, colour: Colour = (0.0, 0.0, 0.0, 1.0), composite: bool = True, *,
                  sides: Sides = None, scratch: Optional[Buffer] = None, copy: Optional[Buffer] = None) -> None:
    """The shadow, on planes, with its parameters and refusals."""
    lent = _lent.planes(planes, sides, True)
    shadow_as('shadow_planes', lent, weights, n, edge, (dx, dy, strength), colour, composite, scratch, copy)
