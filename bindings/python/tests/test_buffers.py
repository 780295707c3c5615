"""Buffers: shapes, flat ones with sides, what cannot be lent, overlaps; and that a buffer is held while it is lent."""
import array
import concurrent.futures
import ctypes
import unittest

import corbelrush
from corbelrush import _lent

WEIGHTS = (0.25, 0.5, 0.25)


def shaped(w, h, data=None):
    return memoryview(bytearray(range(4 * w * h)) if data is None else data).cast('B', (h, w, 4))


class Shapes(unittest.TestCase):
    def test_a_shape_and_sides_are_the_same(self):
        first, second = bytearray(range(48)), bytearray(range(48))
        corbelrush.blur(shaped(3, 4, first), WEIGHTS, n=1)
        corbelrush.blur(second, WEIGHTS, n=1, sides=(3, 4))
        self.assertEqual(first, second)
        self.assertNotEqual(first, bytearray(range(48)))

    def test_an_array_and_ctypes(self):
        plain = bytearray(range(16))
        corbelrush.shift(plain, 1, 0, sides=(2, 2))
        for other in (array.array('B', range(16)), (ctypes.c_uint8 * 16)(*range(16))):
            corbelrush.shift(other, 1, 0, sides=(2, 2))
            self.assertEqual(bytes(other), bytes(plain))

    def test_wrong_shapes(self):
        for wrong in (bytearray(16), memoryview(bytearray(12)).cast('B', (2, 2, 3)), memoryview(bytearray(16)).cast('B', (4, 4))):
            with self.assertRaises(TypeError):
                corbelrush.shift(wrong, 1, 0)
        with self.assertRaises(TypeError):
            corbelrush.shift(shaped(2, 2), 1, 0, sides=(2, 2))

    def test_wrong_buffers(self):
        for wrong in (bytes(16), memoryview(bytearray(32))[::2], array.array('I', range(4)), array.array('b', range(16)), [0] * 16):
            with self.assertRaises(TypeError):
                corbelrush.shift(wrong, 1, 0, sides=(2, 2))

    def test_what_is_only_read_may_be_bytes(self):
        self.assertIsNone(corbelrush.check(bytes(16), sides=(2, 2)))
        self.assertEqual(corbelrush.check(bytes([0, 0, 0, 0, 1, 0, 0, 0]), sides=(2, 1)), 1)

    def test_half_an_entry(self):
        with self.assertRaises(ValueError):
            corbelrush.mend(bytearray(16), sides=(2, 2), into=array.array('I', [0] * 3))

    def test_empty_buffers(self):
        for empty in (bytearray(), b''):
            with self.assertRaises(corbelrush.Refused) as caught:
                corbelrush.check(empty, sides=(1, 1))
            self.assertEqual(caught.exception.number, 2)
        with self.assertRaises(corbelrush.Refused) as caught:
            corbelrush.spread([])
        self.assertEqual(caught.exception.number, 4)


class Overlaps(unittest.TestCase):
    def overlapping(self, function, *arguments, **named):
        with self.assertRaisesRegex(ValueError, 'overlap'):
            function(*arguments, **named)

    def test_overlaps(self):
        room = bytearray(range(64))
        view = memoryview(room)
        self.overlapping(corbelrush.blur, view[:16], WEIGHTS, sides=(2, 2), scratch=view[15:31])
        self.overlapping(corbelrush.blur, view[16:32], WEIGHTS, sides=(2, 2), scratch=view[:64])
        self.overlapping(corbelrush.pam_write, view[:16], sides=(2, 2), into=room)
        self.overlapping(corbelrush.plate_add, view[:32], 4, view[16:20], sides=(1, 1))
        self.assertEqual(room, bytearray(range(64)))

    def test_neighbours_do_not_overlap(self):
        room = bytearray(range(64))
        view = memoryview(room)
        corbelrush.blur(view[16:32], WEIGHTS, sides=(2, 2), scratch=view[32:48])
        corbelrush.blur(view[16:32], WEIGHTS, sides=(2, 2), scratch=view[:16])
        self.assertEqual(room[48:], bytearray(range(48, 64)))

    def test_two_that_are_read_may_overlap(self):
        both = _lent.Lent(memoryview(bytes(8)), 8)
        _lent.refuse_overlaps([(both, False), (both, False)])
        for order in ((True, False), (False, True), (True, True)):
            with self.assertRaises(ValueError):
                _lent.refuse_overlaps([(both, written) for written in order])

    def test_a_long_read_behind_a_short_write(self):
        room = memoryview(bytearray(64))
        lent = [(_lent.Lent(room[:40], 40), False), (_lent.Lent(room[8:16], 8), False), (_lent.Lent(room[20:24], 4), True)]
        with self.assertRaises(ValueError):
            _lent.refuse_overlaps(lent)


class Held(unittest.TestCase):
    def test_a_lent_buffer_cannot_be_resized(self):
        room = bytearray(16)
        lent = _lent.flat(room, 'room', 'B', True)
        with self.assertRaises(BufferError):
            room.append(0)
        del lent
        room.append(0)

    def test_threads_on_different_pictures(self):
        wanted = bytearray(range(240))
        corbelrush.blur(wanted, WEIGHTS, n=2, sides=(10, 6))
        made = [bytearray(range(240)) for _ in range(64)]
        with concurrent.futures.ThreadPoolExecutor(8) as pool:
            list(pool.map(lambda picture: corbelrush.blur(picture, WEIGHTS, n=2, sides=(10, 6)), made))
        self.assertEqual(made, [wanted] * 64)
