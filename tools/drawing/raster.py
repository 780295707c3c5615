"""A scene as pixels, r, g, b, on white; edges are smoothed by how much of a pixel is covered."""
import math

from . import strokes


class Canvas:
    """Rows of pixels that are painted over."""

    def __init__(self, w, h):
        self.w, self.h = w, h
        self.pixels = bytearray(b'\xff' * (3 * w * h))

    def cover(self, x, y, colour, part):
        """Paints a part, from 0 to 1, of a pixel."""
        at = 3 * (self.w * y + x)
        for channel in range(3):
            old = self.pixels[at + channel]
            self.pixels[at + channel] = int(old + (colour[channel] - old) * part + 0.5)

    def near(self, lines, reach, colour):
        """Paints what is within `reach` of some lines; a line of one point is a disc."""
        segments = [pair for line in lines for pair in (zip(line, line[1:]) if len(line) > 1 else [line * 2])]
        for x in self.span(segments, reach, 0, self.w):
            for y in self.span(segments, reach, 1, self.h):
                away = min(distance(x + 0.5, y + 0.5, *start, *end) for start, end in segments)
                if away < reach + 0.5:
                    self.cover(x, y, colour, min(1.0, reach + 0.5 - away))

    @staticmethod
    def span(segments, reach, axis, size):
        """The pixels along an axis that lines can touch."""
        ends = [point[axis] for segment in segments for point in segment]
        return range(max(0, math.floor(min(ends) - reach - 1)), min(size, math.ceil(max(ends) + reach + 1)))


def distance(x, y, ax, ay, bx, by):
    """From a point to a segment."""
    across, down = bx - ax, by - ay
    length = across * across + down * down
    along = min(1.0, max(0.0, ((x - ax) * across + (y - ay) * down) / length)) if length else 0.0
    away_x, away_y = x - ax - along * across, y - ay - along * down
    return math.sqrt(away_x * away_x + away_y * away_y)


def overlaps(start, length, size):
    """Each pixel along an axis, and how much of it a stretch covers."""
    for at in range(max(0, math.floor(start)), min(size, math.ceil(start + length))):
        yield at, min(at + 1, start + length) - max(at, start)


def rect(canvas, x, y, w, h, colour):
    columns = list(overlaps(x, w, canvas.w))
    for down, high in overlaps(y, h, canvas.h):
        for across, wide in columns:
            canvas.cover(across, down, colour, wide * high)


def line(canvas, points, colour, thick):
    for pair in zip(points, points[1:]):
        canvas.near([pair], thick / 2, colour)


def disc(canvas, x, y, radius, colour):
    canvas.near([[(x, y)]], radius, colour)


def text(canvas, x, y, words, size, colour, anchor, bold):
    # to hundredths, since versions of Python sum floats differently in the last bit
    x = round(x - strokes.width(words, size) * {'start': 0, 'middle': 0.5, 'end': 1}[anchor], 2)
    for lines in filter(None, strokes.strokes(x, y, words, size)):
        canvas.near(lines, size * (0.07 if bold else 0.05), colour)


def picture(canvas, x, y, scale, w, h, rgb):
    for down in range(scale * h):
        row = rgb[3 * w * (down // scale):3 * w * (down // scale + 1)]
        at = 3 * (canvas.w * (y + down) + x)
        canvas.pixels[at:at + 3 * w * scale] = b''.join(row[at:at + 3] * scale for at in range(0, 3 * w, 3))


DRAW = {'rect': rect, 'line': line, 'disc': disc, 'text': text, 'picture': picture}


def drawn(scene):
    """The scene's pixels, row by row."""
    canvas = Canvas(scene.w, scene.h)
    for item in scene.items:
        DRAW[item[0]](canvas, *item[1:])
    return bytes(canvas.pixels)
