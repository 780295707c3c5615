"""Plate files, and the testers' image files (Netpbm PAM)."""
from __future__ import annotations

from typing import NamedTuple, Optional

from . import _lent
from ._lent import Buffer, Lent, Sides
from ._library import call
from ._refusals import Refusal, Refused, Unit
from .filters import must

MOST_OF_A_HEADER = 73


class Label(NamedTuple):
    """What a plate names beside a picture; both are 0 in a plate of version 1."""

    unit: int
    sheet: int


def _bytes_of(buffer: Buffer, name: str, written: bool) -> Lent:
    return _lent.flat(buffer, name, 'B', written)


def plate_picture(plate: Buffer, index: int) -> memoryview:
    """The picture of a plate by its index, of shape (h, w, 4): a part of the plate itself, and no copy. Refusals: 10, 12."""
    lent = _bytes_of(plate, 'plate', False)
    number, (w, h, offset, _) = call('plate_picture', lent, index)
    must(number)
    return lent.part(offset, (h, w, 4))


def plate_label(plate: Buffer, index: int) -> Label:
    """The unit and the sheet that a plate names beside a picture. Refusals: 10, 12."""
    number, (unit, sheet) = call('plate_label', _bytes_of(plate, 'plate', False), index)
    must(number)
    return Label(unit, sheet)


def plate_job(plate: Buffer, *, scratch: Optional[Buffer] = None) -> None:
    """Blurs every picture of a plate where it lies: 1/4, 1/2, 1/4, n = 1, Duplicate, strength 1. Refusals: 10, 3."""
    lent = _bytes_of(plate, 'plate', True)
    must(call('plate_job', lent, _lent.work(scratch, lent, 'scratch'))[0])


def plate_start(buffer: Buffer, version: int = 1) -> int:
    """Starts a plate of no pictures, of version 1, 2 or 3, in the first bytes of a buffer: its length in use. Refusals: 10, 13."""
    number, (used,) = call('plate_start', _bytes_of(buffer, 'buffer', True), version)
    must(number)
    return used


def plate_add(buffer: Buffer, used: int, picture: Buffer, unit: int = Unit.NAMELESS, sheet: int = 0, *,
              sides: Sides = None) -> int:
    """Adds a picture to the plate that the first `used` bytes of a buffer are: the new length in use. Refusals: 10, 1, 2, 13."""
    lent, w, h = _lent.picture(picture, sides, False)
    number, (new,) = call('plate_add', _bytes_of(buffer, 'buffer', True), used, lent, w, h, unit, sheet)
    must(number)
    return new


def pam_read(file: Buffer, *, into: Optional[Buffer] = None) -> memoryview:
    """The picture of a PAM file with straight alpha, premultiplied, of shape (h, w, 4), made anew or in `into`. Refusals: 15, 3."""
    lent = _bytes_of(file, 'file', False)
    made = _lent.work(into, lent, 'into')
    number, (w, h, _) = call('pam_read', lent, made)
    must(number)
    return made.part(0, (h, w, 4))


def pam_write(picture: Buffer, *, sides: Sides = None, into: Optional[Buffer] = None) -> memoryview:
    """A picture as a PAM file with straight alpha, made anew or in the first bytes of `into`. Refusals: 1, 2, 16, 3."""
    lent, w, h = _lent.picture(picture, sides, False)
    file = _bytes_of(bytearray(lent.count + MOST_OF_A_HEADER) if into is None else into, 'into', True)
    number, (written, place) = call('pam_write', lent, w, h, file)
    if number:
        raise Refused(number, place=place if number == Refusal.EXCEEDS else None)
    return file.part(0, (written,))
