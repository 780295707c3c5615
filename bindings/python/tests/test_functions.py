"""Each function once or more, on answers that were worked out by hand from docs/RULES.md; and the refusals' words."""
import array
import unittest

import corbelrush
from corbelrush import Edge, Recipe, Refused, Unit

WEIGHTS = (0.25, 0.5, 0.25)
ONE = bytes([10, 20, 30, 255])
WORKED_PLATE = bytes.fromhex('0100 0100 0100 0100 10000000 04000000 0A141EFF')


def grey(*alphas):
    return bytearray(byte for alpha in alphas for byte in (0, 0, 0, alpha))


def alphas(picture):
    return list(picture[3::4])


def refusal(function, *arguments, **named):
    try:
        function(*arguments, **named)
    except Refused as refused:
        return refused
    raise AssertionError('nothing was refused')


def needs(name):
    return unittest.skipIf(name in corbelrush.missing(), 'this library has no corbelrush_' + name)


class Filters(unittest.TestCase):
    def test_blur(self):
        for edge, wanted in ((Edge.DUPLICATE, [40, 30, 10, 0]), (Edge.WRAP, [25, 25, 15, 15])):
            picture = grey(80, 0, 0, 0)
            corbelrush.blur(picture, [1.0], n=1, edge=edge, sides=(4, 1))
            self.assertEqual(alphas(picture), wanted)

    def test_scratch_is_cleared_as_far_as_the_picture(self):
        scratch = bytearray(b'\7' * 20)
        corbelrush.blur(grey(80, 0, 0, 0), [1.0], sides=(4, 1), scratch=scratch)
        self.assertEqual(scratch, bytes(16) + b'\7' * 4)

    def test_blur_whole(self):
        picture = grey(100, 200)
        corbelrush.blur_whole(picture, [16384, 49152], sides=(2, 1))
        self.assertEqual(alphas(picture), [100, 175])

    def test_shift(self):
        for dx, wanted in ((1, [0, 1, 2]), (-4, [0, 0, 0]), (0.5, [0, 1, 2]), (-0.5, [2, 3, 0])):
            picture = grey(1, 2, 3)
            corbelrush.shift(picture, dx, 0, sides=(3, 1))
            self.assertEqual(alphas(picture), wanted)

    def test_shadow(self):
        picture = bytearray([0, 0, 0, 1])
        corbelrush.shadow(picture, [1.0], colour=(0.5, 0, 0, 1), composite=False, sides=(1, 1))
        self.assertEqual(picture, bytes([1, 0, 0, 1]))
        picture = bytearray([0, 0, 0, 1])
        corbelrush.shadow(picture, [1.0], colour=(0.5, 0, 0, 1), sides=(1, 1))
        self.assertEqual(picture, bytes([1, 0, 0, 2]))


class Grading(unittest.TestCase):
    def test_mend_and_rebuild(self):
        old = bytearray([9, 1, 2, 5, 1, 1, 1, 1, 7, 8, 9, 0])
        picture = bytearray(old)
        changes = corbelrush.mend(picture, sides=(3, 1))
        self.assertEqual(changes, [(0, 0x05020109), (2, 0x00090807)])
        self.assertEqual(picture, bytes([5, 1, 2, 5, 1, 1, 1, 1, 0, 0, 0, 0]))
        self.assertEqual(corbelrush.mend(picture, sides=(3, 1)), [])
        corbelrush.rebuild(picture, changes, sides=(3, 1))
        self.assertEqual(picture, old)
        self.assertEqual(refusal(corbelrush.rebuild, picture, changes[::-1], sides=(3, 1)).number, 18)

    def test_sample_and_view(self):
        picture = bytes(range(12))
        self.assertEqual(corbelrush.sample(picture, -4, 0, Edge.WRAP, sides=(3, 1)), (8, 9, 10, 11))
        self.assertEqual(corbelrush.sample(picture, -1, 0, Edge.NONE, sides=(3, 1)), (0, 0, 0, 0))
        self.assertEqual(corbelrush.sample(picture, 0, 0, 4, sides=(3, 1)), (0, 0, 0, 0))
        self.assertEqual(refusal(corbelrush.view, picture, 4, sides=(3, 1)).number, 9)
        corbelrush.view(picture, Edge.MIRROR, sides=(3, 1))

    def test_spread(self):
        self.assertEqual([corbelrush.spread(WEIGHTS, n) for n in (0, 1)], [65536, 458752])

    def test_areas(self):
        picture = grey(1, 2, 3, 4, 5, 6)
        table = corbelrush.area_build(picture, sides=(3, 2))
        self.assertEqual(table.tolist(), [[1, 3, 6], [5, 12, 21]])
        self.assertEqual(corbelrush.area_box(table, 1, 0, 2, 2), 16)
        corbelrush.area_update(table, 4, 5, 0)
        self.assertEqual(table.tolist(), [[1, 3, 6], [5, 7, 16]])
        self.assertEqual(refusal(corbelrush.area_box, table, 1, 0, 3, 2).number, 20)

    def test_shares(self):
        kernel = [16384, 32768, 16384]
        points = corbelrush.shares(4, 4, kernel, 1 * 4 + 2, n=1)
        table = [60, 70, 90, 100, 54, 63, 81, 90, 42, 49, 63, 70, 36, 42, 54, 60]
        self.assertEqual(points, [(place, share << 32) for place, share in enumerate(table)])
        self.assertEqual(corbelrush.share(4, 4, kernel, 6, 5, n=1), 63 << 32)
        self.assertEqual(refusal(corbelrush.shares, 4, 4, kernel, 6, n=1, into=array.array('Q', [0] * 30)).number, 17)

    def test_as_many_shares_as_there_can_be(self):
        for edge in Edge:
            most = max(len(corbelrush.shares(16384, 1, [1] * 33, 8192 + x, n=3, edge=edge)) for x in range(8))
            self.assertEqual(most, 294)
            self.assertEqual(len(corbelrush.shares(16384, 16384, [1] * 33, 8193 * 16385, n=3, edge=edge)), 294**2)


class Files(unittest.TestCase):
    def test_a_plate(self):
        buffer = bytearray(40)
        used = corbelrush.plate_start(buffer)
        used = corbelrush.plate_add(buffer, used, ONE, sides=(1, 1))
        self.assertEqual(bytes(buffer[:used]), WORKED_PLATE)
        used = corbelrush.plate_add(buffer, used, bytes(range(1, 9)), sides=(1, 2))
        self.assertEqual(used, 40)
        part = corbelrush.plate_picture(buffer, 1)
        self.assertEqual((part.shape, part.tobytes()), ((2, 1, 4), bytes(range(1, 9))))
        self.assertEqual(refusal(corbelrush.plate_add, buffer, used, ONE, sides=(1, 1)).number, 13)
        self.assertEqual(refusal(corbelrush.plate_picture, buffer, 2).number, 12)

    def test_a_picture_of_a_plate_is_a_part_of_it(self):
        plate = bytearray(WORKED_PLATE)
        corbelrush.shift(corbelrush.plate_picture(plate, 0), 1, 0)
        self.assertEqual(plate, WORKED_PLATE[:16] + bytes(4))

    def test_labels(self):
        buffer = bytearray(24)
        used = corbelrush.plate_add(buffer, corbelrush.plate_start(buffer, 2), ONE, Unit.MILLIOHM, 7, sides=(1, 1))
        self.assertEqual((used, corbelrush.plate_label(buffer, 0)), (24, (Unit.MILLIOHM, 7)))
        self.assertEqual(corbelrush.plate_label(WORKED_PLATE, 0), (0, 0))

    def test_the_job(self):
        plate = bytearray(WORKED_PLATE)
        corbelrush.plate_job(plate)
        self.assertEqual(plate, WORKED_PLATE)
        self.assertEqual(refusal(corbelrush.plate_job, bytearray(3)).number, 10)
        self.assertEqual(refusal(corbelrush.plate_job, plate, scratch=bytearray(3)).number, 3)

    def test_image_files(self):
        picture = bytes([1, 2, 3, 4, 0, 0, 0, 0])
        file = corbelrush.pam_write(picture, sides=(2, 1))
        header = b'P7\nWIDTH 2\nHEIGHT 1\nDEPTH 4\nMAXVAL 255\nTUPLTYPE RGB_ALPHA\nENDHDR\n'
        self.assertEqual(file, header + bytes([64, 128, 191, 4, 0, 0, 0, 0]))
        back = corbelrush.pam_read(file)
        self.assertEqual((back.shape, back.tobytes()), ((1, 2, 4), picture))
        refused = refusal(corbelrush.pam_write, bytes([1, 2, 3, 4, 9, 0, 0, 8]), sides=(2, 1))
        self.assertEqual((refused.number, refused.place), (16, 1))
        self.assertEqual(refusal(corbelrush.pam_read, file[:-1]).number, 15)

    def test_the_widest_header_has_room(self):
        file = corbelrush.pam_write(bytes(4 * 16384), sides=(16384, 1))
        self.assertEqual(corbelrush.pam_read(file).shape, (1, 16384, 4))


class Planes(unittest.TestCase):
    @needs('shift_planes')
    def test_a_worked_picture(self):
        planes = corbelrush.to_planes(bytes(range(1, 9)), sides=(2, 1))
        self.assertEqual((planes.shape, list(planes.tobytes())), ((4, 1, 2), [1, 5, 2, 6, 3, 7, 4, 8]))
        self.assertEqual(corbelrush.from_planes(planes).tobytes(), bytes(range(1, 9)))
        corbelrush.shift_planes(planes, 1, 0)
        self.assertEqual(list(planes.tobytes()), [0, 1, 0, 2, 0, 3, 0, 4])

    @needs('shadow_planes')
    def test_as_the_picture(self):
        for ours, theirs in ((corbelrush.blur_planes, corbelrush.blur), (corbelrush.shadow_planes, corbelrush.shadow)):
            picture = bytearray(range(7, 55))
            planes = corbelrush.to_planes(picture, sides=(3, 4))
            ours(planes, WEIGHTS, n=1, edge=Edge.MIRROR)
            theirs(picture, WEIGHTS, n=1, edge=Edge.MIRROR, sides=(3, 4))
            self.assertEqual(corbelrush.from_planes(planes).tobytes(), bytes(picture))


class Recipes(unittest.TestCase):
    def test_a_record_has_52_bytes(self):
        self.assertEqual(len(Recipe.of_shift(1, 2).packed()), 52)
        with self.assertRaises(OverflowError):
            Recipe(2**32).packed()

    def test_a_table(self):
        table = corbelrush.kernel_table([WEIGHTS, [1.0]])
        self.assertEqual((len(table), table[:4], table[33:35]), (66, [0.25, 0.5, 0.25, 0.0], [1.0, 0.0]))

    @needs('recipes')
    def test_a_worked_list(self):
        table = corbelrush.kernel_table([WEIGHTS])
        picture = grey(255, 0)
        chain = [Recipe.of_shift(1, 0), Recipe.of_blur(0, 3)]
        corbelrush.recipes(picture, chain, table, sides=(2, 1))
        self.assertEqual(alphas(picture), [64, 191])
        picture = grey(255, 0)
        corbelrush.recipes(picture, chain[::-1], table, sides=(2, 1))
        self.assertEqual(alphas(picture), [0, 191])
        refused = refusal(corbelrush.recipes, picture, [chain[0], Recipe(3)], table, sides=(2, 1))
        self.assertEqual((refused.number, refused.index), (19, 1))
        refused = refusal(corbelrush.recipes, picture, [chain[0], Recipe(3)], table, sides=(2, 2))
        self.assertEqual((refused.number, refused.index), (2, None))
        corbelrush.recipes(picture, [], [], sides=(2, 1))
        self.assertEqual(alphas(picture), [0, 191])


class Words(unittest.TestCase):
    def test_number_and_words(self):
        refused = refusal(corbelrush.blur, bytearray(16), WEIGHTS, n=15, sides=(2, 2))
        self.assertEqual((refused.number, refused.words, str(refused)), (6, 'n is above 14', 'refused 6: n is above 14'))
        self.assertIsInstance(refused, ValueError)

    def test_every_number_has_words(self):
        for number in corbelrush.Refusal:
            self.assertIn('refused %d: ' % number, str(Refused(number)))
