"""The stored vectors (crates/replay/stdin, and oracle/lists.txt where there is one), run through the binding; oracle/NOTES.md
says how a vector reads."""
import os
import struct
import unittest
from array import array

import corbelrush
from corbelrush import Refused

ROOT = os.path.dirname(os.path.dirname(os.path.dirname(os.path.dirname(os.path.abspath(__file__)))))
VECTORS = [os.path.join(ROOT, 'crates', 'replay', 'stdin'), os.path.join(ROOT, 'oracle', 'lists.txt')]
HEAD = 29
FIELDS_OF_A_RECIPE, NUMBERS_OF_A_RECIPE = 13, 6


def binary32(bits):
    return struct.unpack('<f', struct.pack('<I', bits))[0]


def signed(number):
    return number - 2**32 if number >= 2**31 else number


class Vector:
    """One line: its numbers by name, its lists, and what each holds afterwards."""

    def __init__(self, line):
        numbers = [int(word) for word in line.split()]
        self.entry, self.w, self.h, self.n, self.edge = numbers[:5]
        self.strength, self.dx, self.dy = map(binary32, numbers[5:8])
        self.colour = tuple(map(binary32, numbers[8:12]))
        self.composite, self.x, self.y, scratch, copy = numbers[12:17]
        self.version, self.sheet, self.used, self.place, self.second = numbers[17:22]
        self.returned, self.clear_scratch, self.clear_copy = numbers[22:25]
        self.answers = numbers[25:29]
        self.scratch, self.copy = (bytearray(i % 251 + 1 for i in range(length)) for length in (scratch, copy))
        at = HEAD + 1 + numbers[HEAD]
        self.kernel = numbers[HEAD + 1:at]
        self.list, self.list_after, at = self.lent(numbers, at)
        self.bytes, self.bytes_after, at = self.lent(numbers, at)
        self.other, self.other_after, at = self.lent(numbers, at)

    @staticmethod
    def lent(numbers, at):
        before = numbers[at + 1:at + 1 + numbers[at]]
        at += 1 + len(before)
        after = numbers[at + 1:at + 1 + len(before)] if numbers[at] else before
        return before, after, at + 1 + (len(before) if numbers[at] else 0)

    @property
    def sides(self):
        return self.w, self.h

    @property
    def weights(self):
        return array('f', map(binary32, self.kernel))

    def cleared(self, work, count):
        return bytes(count) + bytes(i % 251 + 1 for i in range(count, len(work)))


def packed(pixel):
    return sum(channel << 8 * c for c, channel in enumerate(pixel))


# Each entry's call: what it answers through pointers, as the vector lists it.


def blur(v):
    corbelrush.blur(v.bytes, v.weights, v.n, v.edge, v.strength, sides=v.sides, scratch=v.scratch)
    return []


def shift(v):
    corbelrush.shift(v.bytes, v.dx, v.dy, sides=v.sides)
    return []


def shadow(v):
    corbelrush.shadow(v.bytes, v.weights, v.n, v.edge, v.dx, v.dy, v.strength, v.colour, v.composite != 0, sides=v.sides,
                      scratch=v.scratch, copy=v.copy)
    return []


def check(v):
    place = corbelrush.check(bytes(v.bytes), sides=v.sides)
    return [0, 0] if place is None else [1, place]


def view(v):
    corbelrush.view(bytes(v.bytes), v.edge, sides=v.sides)
    return []


def sample(v):
    v.pixel = packed(corbelrush.sample(bytes(v.bytes), signed(v.x), signed(v.y), v.edge, sides=v.sides))
    return []


def spread(v):
    return [corbelrush.spread(v.weights, v.n)]


def plate_picture(v):
    part = corbelrush.plate_picture(v.bytes, v.x)
    h, w, _ = part.shape
    at = corbelrush._lent.Lent(part, 0).address - corbelrush._lent.Lent(memoryview(v.bytes), 0).address
    return [w, h, at, part.nbytes]


def plate_job(v):
    corbelrush.plate_job(v.bytes, scratch=v.scratch)
    return []


def plate_start(v):
    return [corbelrush.plate_start(v.bytes, v.version)]


def plate_add(v):
    return [corbelrush.plate_add(v.bytes, v.used, bytes(v.other), v.version, v.sheet, sides=v.sides)]


def plate_label(v):
    return list(corbelrush.plate_label(bytes(v.bytes), v.x))


def pam_read(v):
    h, w, _ = corbelrush.pam_read(bytes(v.other), into=v.bytes).shape
    return [w, h, 4 * w * h]


def pam_write(v):
    return [len(corbelrush.pam_write(bytes(v.bytes), sides=v.sides, into=v.other)), 0]


def mend(v):
    changes = corbelrush.mend(v.bytes, sides=v.sides, into=v.list)
    assert [number for change in changes for number in change] == v.list_after[:2 * len(changes)]
    return [len(changes)]


def rebuild(v):
    corbelrush.rebuild(v.bytes, list(zip(v.list[::2], v.list[1::2])), sides=v.sides)
    return []


def blur_whole(v):
    corbelrush.blur_whole(v.bytes, v.kernel, v.n, v.edge, sides=v.sides, scratch=v.scratch)
    return []


def area_build(v):
    corbelrush.area_build(bytes(v.bytes), sides=v.sides, into=v.list)
    return []


def area_box(v):
    return [corbelrush.area_box(v.list, v.x, v.y, v.place, v.second, sides=v.sides)]


def area_update(v):
    corbelrush.area_update(v.list, v.place, v.version, v.sheet, sides=v.sides)
    return []


def to_planes(v):
    corbelrush.to_planes(bytes(v.bytes), sides=v.sides, into=v.other)
    return []


def from_planes(v):
    corbelrush.from_planes(bytes(v.bytes), sides=v.sides, into=v.other)
    return []


def blur_planes(v):
    corbelrush.blur_planes(v.bytes, v.weights, v.n, v.edge, v.strength, sides=v.sides, scratch=v.scratch)
    return []


def shift_planes(v):
    corbelrush.shift_planes(v.bytes, v.dx, v.dy, sides=v.sides)
    return []


def shadow_planes(v):
    corbelrush.shadow_planes(v.bytes, v.weights, v.n, v.edge, v.dx, v.dy, v.strength, v.colour, v.composite != 0,
                             sides=v.sides, scratch=v.scratch, copy=v.copy)
    return []


def recipe(words):
    return corbelrush.Recipe(*words[:NUMBERS_OF_A_RECIPE], *map(binary32, words[NUMBERS_OF_A_RECIPE:]))


def recipes(v):
    starts = range(0, len(v.list), FIELDS_OF_A_RECIPE)
    chain = [recipe(v.list[at:at + FIELDS_OF_A_RECIPE]) for at in starts]
    corbelrush.recipes(v.bytes, chain, v.weights, sides=v.sides, scratch=v.scratch, copy=v.copy)
    return [0]


def share(v):
    return [corbelrush.share(v.w, v.h, v.kernel, v.place, v.second, v.n, v.edge)]


def shares(v):
    points = corbelrush.shares(v.w, v.h, v.kernel, v.place, v.n, v.edge, into=v.list)
    assert [number for point in points for number in point] == v.list_after[:2 * len(points)]
    return [len(points)]


CALLS = {1: blur, 2: shift, 3: shadow, 4: check, 5: view, 6: sample, 7: spread, 8: plate_picture, 9: plate_job, 10: plate_start,
         11: plate_add, 12: plate_label, 13: pam_read, 14: pam_write, 15: mend, 16: rebuild, 17: blur_whole, 18: area_build,
         19: area_box, 20: area_update, 21: to_planes, 22: from_planes, 23: blur_planes, 24: shift_planes, 25: shadow_planes,
         26: recipes, 27: share, 28: shares}
POINTS = 28


def outcome(v):
    """The number and the answered numbers of a vector's call, as a C caller would see them."""
    try:
        answers = CALLS[v.entry](v)
    except Refused as refused:
        return int(refused.number), [refused.index or 0, refused.place or 0, 0, 0]
    return getattr(v, 'pixel', 0), answers + [0] * (4 - len(answers))


def agrees(line):
    """Whether the binding leaves all that a vector lends as the vector says."""
    v = Vector(line)
    v.bytes, v.other = bytearray(v.bytes), bytearray(v.other)
    v.list = array('Q' if v.entry == POINTS else 'I', v.list)
    if outcome(v) != (v.returned, v.answers):
        return False
    works = v.scratch == v.cleared(v.scratch, v.clear_scratch) and v.copy == v.cleared(v.copy, v.clear_copy)
    return works and list(v.bytes) == v.bytes_after and list(v.other) == v.other_after and list(v.list) == v.list_after


def vectors():
    for name in filter(os.path.exists, VECTORS):
        with open(name) as file:
            yield from file


def replayed(line):
    """Whether the loaded library has the function of a vector."""
    entry = int(line.split(' ', 1)[0])
    return entry in CALLS and CALLS[entry].__name__ not in corbelrush.missing()


def stored():
    """The vectors that are replayed."""
    return list(filter(replayed, vectors()))


def others():
    """How many stored vectors are of functions that are not replayed here."""
    return sum(not replayed(line) for line in vectors())


class Replay(unittest.TestCase):
    def test_every_vector_agrees(self):
        lines = stored()
        self.assertGreater(len(lines), 1300)
        for at, line in enumerate(lines):
            with self.subTest(vector=at):
                self.assertTrue(agrees(line))

    def test_a_spoiled_vector_disagrees(self):
        """One answer of each vector changed: the number returned, or what a buffer or an answered number is afterwards."""
        for at, line in enumerate(stored()):
            numbers = line.split()
            place = (22, 23, 24, 25, 26, 27, 28)[at % 7]
            numbers[place] = str(int(numbers[place]) ^ 1)
            with self.subTest(vector=at):
                self.assertFalse(agrees(' '.join(numbers)))
