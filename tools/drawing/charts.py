"""The figures that are charts, with no number but those of the tables in docs."""
import math
import os
import re

from .pictures import MARGIN, headed
from .scene import GREY, INK, PALE

DOCS = os.path.join(os.path.dirname(os.path.dirname(os.path.dirname(os.path.abspath(__file__)))), 'docs')
BLUE, ORANGE, GREEN, RED, PURPLE = (31, 97, 170), (226, 120, 20), (40, 150, 80), (200, 50, 60), (125, 80, 170)


def table(file, heading):
    """The cells of the first table after a heading of a document, its head first."""
    with open(os.path.join(DOCS, file), encoding='utf-8') as text:
        lines = text.read().split('\n' + heading + '\n', 1)[1].split('\n') if heading else text.read().split('\n')
    start = next(at for at, line in enumerate(lines) if line.startswith('|'))
    end = next(at for at, line in enumerate(lines[start:] + [''], start) if not line.startswith('|'))
    rows = [[cell.strip() for cell in line.strip('|').split('|')] for line in lines[start:end]]
    return [rows[0]] + rows[2:]


def first_number(cell):
    """The number at the beginning of a cell."""
    return float(re.match(r'[0-9.]+', cell).group())


def apart(places, least):
    """Places moved down, from the first on, so that each is at least so far below the one before it."""
    moved = []
    for place in places:
        moved.append(max(place, moved[-1] + least) if moved else place)
    return moved


def ends(scene, x, lines, least=20):
    """Names beside the ends of lines: each a height, a name and a colour."""
    lines = sorted(lines)
    for (_, name, colour), y in zip(lines, apart([line[0] for line in lines], least)):
        scene.text(x, y + 5, name, 15, colour, bold=True)


def distance():
    """The distance to the exact blur beside 2n + 1."""
    scene = headed(860, 576, 'Distance to the exact blur',
                   'The greatest distance seen, in steps of a channel, and the bound that is proved (docs/DISTANCE.md).')
    rows = table('DISTANCE.md', '')[1:]
    left, wide, floor, step = 70, 112, 500, 36
    for steps in range(12):
        scene.rect(left, floor - step * steps, wide * (len(rows) - 1), 1, PALE if steps else GREY)
        scene.text(left - 12, floor - step * steps + 5, str(steps), 14, GREY, 'end')
    names = (('proved: at most 2n + 1', INK), ('kept lines, all modes', PURPLE),
             ('Duplicate', BLUE), ('Wrap', ORANGE), ('Mirror', GREEN), ('None', RED))
    lines = []
    for column, (name, colour) in reversed(list(enumerate(names, 1))):
        line = [(left + wide * int(row[0]), floor - step * first_number(row[column])) for row in rows]
        scene.line(line, colour, 3 if column == 1 else 2)
        for x, y in line:
            scene.disc(x, y, 5 if column == 1 else 4, colour)
        lines.append((line[-1][1], name, colour))
    ends(scene, left + wide * (len(rows) - 1) + 16, lines)
    for row in rows:
        scene.text(left + wide * int(row[0]), floor + 26, 'n = ' + row[0], 14, GREY, 'middle')
    scene.text(left, floor + 52, 'Duplicate, Wrap, Mirror and None: 60,000 other pictures.', 14, GREY)
    return scene


SHOWN = (
    ('blur n 0 taps 5 Duplicate', 'blur, 5 taps, n = 0'), ('blur n 0 taps 13 Duplicate', 'blur, 13 taps, n = 0'),
    ('blur n 0 taps 33 Duplicate', 'blur, 33 taps, n = 0'), ('blur n 1 taps 13 Duplicate', 'blur, 13 taps, n = 1'),
    ('blur n 2 taps 13 Duplicate', 'blur, 13 taps, n = 2'), ('blur n 4 taps 13 Duplicate', 'blur, 13 taps, n = 4'),
    ('shadow alone', 'shadow alone'), ('shadow with original', 'shadow with original'), ('shift', 'shift by (3, -2)'),
    ('shift by half', 'shift by half'),
)
LIBRARY, RUST, OPENCV = BLUE, ORANGE, GREEN


def beside_rust():
    """Each line shown: its name, the library's nanoseconds a pixel and the Rust's, at 4096 square."""
    head, *rows = table('PERFORMANCE.md', '## Nanoseconds a pixel')
    column = head.index('4096 × 4096')
    cells = {row[0]: row[column].split(' / ') for row in rows}
    return [(words, *map(float, cells[name]), RUST) for name, words in SHOWN]


EACH = 1e6 / 4096 ** 2  # nanoseconds a pixel of a millisecond a picture


def beside_opencv(heading, words):
    """The same of what a table has beside OpenCV, of milliseconds a picture of 4096 square."""
    head, *rows = table('PERFORMANCE.md', heading)
    ours, other = head.index('library'), head.index('OpenCV')
    return [(words % row[0], EACH * float(row[ours]), EACH * float(row[other]), OPENCV) for row in rows]


def speed():
    """Nanoseconds a pixel beside the Rust and OpenCV."""
    lines = beside_rust() + beside_opencv('## Blur, beside OpenCV', 'blur, %s, n = 0')
    lines += beside_opencv('## Image files, beside OpenCV', 'image file %s')
    scene = headed(960, 140 + 30 * len(lines) + 84, 'Nanoseconds a pixel, 4096 by 4096',
                   'Each mark is ten times the one before. Arm (Neoverse-V1), blurs under Duplicate (docs/PERFORMANCE.md).')
    left, top, decade, floor = 290, 118, 150, 118 + 30 * len(lines)
    place = lambda value: round(left + decade * (math.log10(value) + 1), 2)
    for power in range(5):
        scene.rect(left + decade * power, top - 12, 1, floor - top + 12, PALE)
        scene.text(left + decade * power, floor + 22, ('0.1', '1', '10', '100', '1000')[power], 14, GREY, 'middle')
    for at, (words, ours, theirs, colour) in enumerate(lines):
        y = top + 30 * at + 6
        scene.text(left - 24, y + 5, words, 14, INK, 'end')
        scene.line([(place(ours), y), (place(theirs), y)], PALE, 4)
        for value, paint, side, anchor in ((ours, LIBRARY, -12, 'end'), (theirs, colour, 12, 'start')):
            scene.disc(place(value), y, 6, paint)
            scene.text(place(value) + side, y + 5, '%.2f' % value, 13, paint, anchor)
    for at, (words, colour) in enumerate((('the library', LIBRARY), ('the Rust', RUST), ('OpenCV 4.6', OPENCV))):
        scene.disc(left + 6 + 140 * at, 88, 6, colour)
        scene.text(left + 20 + 140 * at, 93, words, 14, colour, bold=True)
    under = 'OpenCV: its separable filter in binary32, and its conversions of image files, with no check and no header.'
    scene.text(MARGIN, floor + 56, under, 14, GREY)
    return scene
