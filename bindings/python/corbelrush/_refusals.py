"""The numbers that calls answer and take: refusals with their words, edge rules and units."""
from __future__ import annotations

import enum
from typing import Optional


class Refusal(enum.IntEnum):
    """Why a call was refused: the numbers of include/corbelrush.h."""

    WRONG_SIDES = 1
    WRONG_LENGTH = 2
    TOO_SHORT = 3
    WRONG_TAPS = 4
    WRONG_WEIGHT = 5
    TOO_DEEP = 6
    NOT_FINITE = 7
    WRONG_COLOUR = 8
    WRONG_EDGE = 9
    BROKEN_PLATE = 10
    OFF_GRID = 11
    NO_PICTURE = 12
    NO_ROOM = 13
    WRONG_SUM = 14
    NO_PAM = 15
    EXCEEDS = 16
    LIST_FULL = 17
    WRONG_LIST = 18
    WRONG_RECIPE = 19
    WRONG_BOX = 20
    TOO_DEEP_TO_SHARE = 21
    OUTSIDE = 22


WORDS = {
    Refusal.WRONG_SIDES: 'w or h is 0 or above 16384',
    Refusal.WRONG_LENGTH: 'the picture is not exactly 4wh bytes',
    Refusal.TOO_SHORT: 'a work buffer, a table or the room for the result is too short',
    Refusal.WRONG_TAPS: 'the number of weights or numerators is 0 or above 33',
    Refusal.WRONG_WEIGHT: 'a weight is NaN, below 0 or above 1',
    Refusal.TOO_DEEP: 'n is above 14',
    Refusal.NOT_FINITE: 'the strength or an offset is NaN or infinite',
    Refusal.WRONG_COLOUR: 'a colour component is NaN, below 0 or above 1',
    Refusal.WRONG_EDGE: 'the edge number is none of the four',
    Refusal.BROKEN_PLATE: 'the file breaks a rule of plates, or the version or the unit is none that there is',
    Refusal.OFF_GRID: 'a weight is no multiple of 1/65536, or the weights do not sum to 1',
    Refusal.NO_PICTURE: 'the plate has no picture of that index',
    Refusal.NO_ROOM: 'the plate would pass 64 pictures, the most bytes of its version or its buffer',
    Refusal.WRONG_SUM: 'the numerators sum to more than 65536',
    Refusal.NO_PAM: 'the file is no PAM file of the accepted spelling, or its length does not fit',
    Refusal.EXCEEDS: 'a channel exceeds its alpha',
    Refusal.LIST_FULL: 'the list has room for fewer entries than there are',
    Refusal.WRONG_LIST: 'a place of the list lies outside the picture, or is not above the one before it',
    Refusal.WRONG_RECIPE: 'the operation of a recipe or its kernel index is none that there is',
    Refusal.WRONG_BOX: 'the box is empty, too large or partly outside the picture, or the place lies outside',
    Refusal.TOO_DEEP_TO_SHARE: 'n is above 3, the most that shares are worked out for',
    Refusal.OUTSIDE: 'a place lies outside the picture',
}


class Refused(ValueError):
    """A call that the library refused; no lent byte has changed.

    `number` is the refusal, `words` says it. `place` is the first pixel that exceeds where a picture could not be written
    as an image file (16), and `index` the bad recipe of a list; both are None elsewhere.
    """

    def __init__(self, number: int, place: Optional[int] = None, index: Optional[int] = None) -> None:
        self.number = Refusal(number)
        self.words = WORDS[self.number]
        self.place = place
        self.index = index
        where = ''.join(' (%s %d)' % (name, value) for name, value in (('place', place), ('recipe', index)) if value is not None)
        super().__init__('refused %d: %s%s' % (number, self.words, where))


class Edge(enum.IntEnum):
    """What a picture is beyond its borders."""

    DUPLICATE = 0
    """Its nearest pixel."""
    WRAP = 1
    """Itself again."""
    MIRROR = 2
    """Itself, mirrored, the border pixel twice."""
    NONE = 3
    """Four zeros."""


class Operation(enum.IntEnum):
    """The operation of a recipe."""

    BLUR = 0
    SHIFT = 1
    SHADOW = 2


class Unit(enum.IntEnum):
    """The unit that a plate names beside a picture; a plate of version 1 names none, which is 0."""

    NAMELESS = 0
    MILLIOHM = 1
    MICROOHM = 2
