"""Numbers: none is cut, for any parameter of any function; and what is no number is refused by its type."""
import math
import unittest

import corbelrush
from corbelrush import _lent, _library

LIMITS = {'u8': (-1, 2**8), 'u16': (-1, 2**16), 'u32': (-1, 2**32), 'u64': (-1, 2**64), 'i32': (-2**31 - 1, 2**31),
          'f32': (-1e39, 1e39)}


def arguments(name, odd, value):
    """Arguments of a function, all 1 or a short buffer, but one."""
    for parameter in _library.parameters(name):
        if parameter.kind == ':':
            yield value if parameter.name == odd else 1
        elif parameter.kind != '>':
            yield _lent.Lent(memoryview(bytearray(52)), 1)


class Numbers(unittest.TestCase):
    def test_no_number_is_cut(self):
        tried = 0
        for name in _library.TAKES:
            if name in corbelrush.missing():
                continue
            for parameter in (p for p in _library.parameters(name) if p.kind == ':'):
                for value in LIMITS[parameter.type]:
                    with self.subTest(function=name, parameter=parameter.name, value=value):
                        with self.assertRaisesRegex(OverflowError, '^%s is ' % parameter.name):
                            _library.call(name, *arguments(name, parameter.name, value))
                        tried += 1
        self.assertGreater(tried, 140)

    def test_n_of_2_to_the_32_is_not_0(self):
        picture = bytearray(range(16))
        with self.assertRaises(OverflowError):
            corbelrush.blur(picture, [1.0], n=2**32, sides=(2, 2))
        self.assertEqual(picture, bytearray(range(16)))

    def test_numbers_of_lists(self):
        picture = bytearray(16)
        with self.assertRaises(OverflowError):
            corbelrush.blur_whole(picture, [2**32 + 65536], sides=(2, 2))
        with self.assertRaises(OverflowError):
            corbelrush.rebuild(picture, [(2**32, 0)], sides=(2, 2))
        with self.assertRaises(OverflowError):
            corbelrush.blur(picture, [1e39], sides=(2, 2))

    def test_what_is_no_number(self):
        picture = bytearray(16)
        for wrong in (1.0, '1', None):
            with self.assertRaises(TypeError):
                corbelrush.blur(picture, [1.0], n=wrong, sides=(2, 2))
        with self.assertRaises(TypeError):
            corbelrush.shift(picture, '1', 0, sides=(2, 2))

    def test_nan_and_infinity_reach_the_library(self):
        for value in (math.nan, math.inf, -math.inf):
            with self.assertRaises(corbelrush.Refused) as caught:
                corbelrush.shift(bytearray(16), value, 0, sides=(2, 2))
            self.assertEqual(caught.exception.number, corbelrush.Refusal.NOT_FINITE)

    def test_the_largest_numbers_pass(self):
        picture = bytearray(4)
        corbelrush.shift(picture, 3.4028234663852886e38, 0, sides=(1, 1))
        self.assertEqual(corbelrush.sample(picture, 2**31 - 1, -2**31, corbelrush.Edge.WRAP, sides=(1, 1)), (0, 0, 0, 0))
