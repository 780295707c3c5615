"""Pictures as numpy arrays, where numpy is installed: changed in place, by shape, and refused as other buffers are."""
import unittest

import corbelrush

try:
    import numpy
except ImportError:
    numpy = None


@unittest.skipIf(numpy is None, 'numpy is not installed')
class Arrays(unittest.TestCase):
    def test_in_place(self):
        picture = numpy.zeros((5, 7, 4), numpy.uint8)
        picture[2, 3] = 255
        flat = bytearray(picture.tobytes())
        corbelrush.blur(picture, numpy.array([0.25, 0.5, 0.25]), n=numpy.int64(1))
        corbelrush.blur(flat, [0.25, 0.5, 0.25], n=1, sides=(7, 5))
        self.assertEqual(picture.tobytes(), bytes(flat))
        self.assertGreater(picture[0, 0, 3], 0)

    def test_what_is_answered(self):
        picture = numpy.full((2, 3, 4), 9, numpy.uint8)
        table = numpy.asarray(corbelrush.area_build(picture))
        self.assertEqual((table.shape, table.dtype, table[1, 2]), ((2, 3), numpy.uint32, 54))
        lent = numpy.zeros((2, 3), numpy.uint32)
        corbelrush.area_build(picture, into=lent)
        self.assertTrue((lent == table).all())
        self.assertEqual(numpy.asarray(corbelrush.pam_read(corbelrush.pam_write(picture))).shape, (2, 3, 4))

    def test_lists(self):
        picture = numpy.full((1, 1, 4), 9, numpy.uint8)
        corbelrush.blur_whole(picture, numpy.array([65536], numpy.uint32))
        points = numpy.zeros((1, 2), numpy.uint64)
        self.assertEqual(corbelrush.shares(1, 1, [65536], 0, into=points), [(0, 1 << 32)])
        self.assertEqual(points[0, 1], 1 << 32)

    def test_what_cannot_be_lent(self):
        whole = numpy.zeros((4, 8, 4), numpy.uint8)
        for wrong in (whole[:, ::2], whole.astype(numpy.int8), whole.astype(numpy.float32), whole[..., :3].copy()):
            with self.assertRaises(TypeError):
                corbelrush.shift(wrong, 1, 0)
        whole.setflags(write=False)
        with self.assertRaises(TypeError):
            corbelrush.shift(whole, 1, 0)

    def test_no_pixels(self):
        with self.assertRaises(corbelrush.Refused) as caught:
            corbelrush.shift(numpy.zeros((0, 5, 4), numpy.uint8), 1, 0)
        self.assertEqual(caught.exception.number, 1)
