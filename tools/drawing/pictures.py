"""The figures that show pictures, each worked on by the library: edge modes, decimations, a shadow, and shares."""
import math

import corbelrush
from corbelrush import Edge

from .scene import GREY, INK, Scene

SIDE, PITCH, FIRST = 48, 14, 3
RESISTANCE = ((30, 38, 66, 90), (18, 44, 100, 72), (8, 24, 34, 52), (0, 12, 22, 38))
QUALITY = ((255, 230, 255, 200), (255, 255, 255, 255), (190, 255, 255, 240), (255, 255, 220, 130))
RAMP = ((58, 170, 80), (250, 200, 30), (224, 44, 40))
MARGIN, GAP, TOP = 24, 24, 84


def kernel(taps):
    """Numerators over 65536 of so many taps, a row of Pascal's triangle."""
    return [math.comb(taps - 1, tap) * 65536 // 2 ** (taps - 1) for tap in range(taps)]


def weights(taps):
    return [numerator / 65536 for numerator in kernel(taps)]


def ramp(percent):
    """Green at 0, amber at 50 and red at 100."""
    low, high, part = (RAMP[0], RAMP[1], percent) if percent < 50 else (RAMP[1], RAMP[2], percent - 50)
    return [(a * (50 - part) + b * part + 25) // 50 for a, b in zip(low, high)]


def contact(x, y):
    """The column and the row of the contact that is nearest to a pixel."""
    return min(3, max(0, (x - FIRST + PITCH // 2) // PITCH)), min(3, max(0, (y - FIRST + PITCH // 2) // PITCH))


def pixel(x, y, radius):
    """Of a sheet of round contacts: the colour is the resistance, alpha the quality, and between contacts there is none."""
    column, row = contact(x, y)
    across, down = x - FIRST - PITCH * column, y - FIRST - PITCH * row
    inside = min(1.0, max(0.0, radius + 0.5 - math.sqrt(across * across + down * down)))
    alpha = int(QUALITY[row][column] * inside + 0.5)
    return [(channel * alpha + 127) // 255 for channel in ramp(RESISTANCE[row][column])] + [alpha]


def sheet(radius=6.4):
    """The picture of all these figures, with contacts of this radius."""
    made = bytearray(channel for y in range(SIDE) for x in range(SIDE) for channel in pixel(x, y, radius))
    return memoryview(made).cast('B', (SIDE, SIDE, 4))


def worked(work, made, *given, **named):
    """A picture after a call."""
    work(made, *given, **named)
    return made


def on_white(pixels, paler=0):
    """Premultiplied pixels laid on white, and made paler by so many percent."""
    flat = (channel + 255 - a for r, g, b, a in pixels for channel in (r, g, b))
    return bytes((channel * (100 - paler) + 255 * paler) // 100 for channel in flat)


def pixels(picture):
    return [[picture[y, x, channel] for channel in range(4)] for y in range(SIDE) for x in range(SIDE)]


def headed(w, h, title, under):
    """A scene with its title and a line under it."""
    scene = Scene(w, h, title)
    scene.text(MARGIN, 36, title, 21, bold=True)
    scene.text(MARGIN, 60, under, 14, GREY)
    return scene


def panel(scene, x, y, scale, picture, words):
    """A picture with its outline and a line above it."""
    scene.text(x, y + 16, words, 15, bold=True)
    scene.picture(x, y + 26, scale, SIDE, SIDE, on_white(pixels(picture)))
    scene.frame(x, y + 26, scale * SIDE, scale * SIDE)


def beyond(scene, x, y, scale, mode, margin):
    """What a sample reads inside of the picture and around it, which is paler."""
    reach = range(-margin, SIDE + margin)
    source = sheet()
    view = b''.join(on_white([corbelrush.sample(source, across, down, mode)],
                             0 if 0 <= across < SIDE and 0 <= down < SIDE else 45) for down in reach for across in reach)
    scene.picture(x, y, scale, len(reach), len(reach), view)
    scene.frame(x, y, scale * len(reach), scale * len(reach))
    scene.frame(x + scale * margin, y + scale * margin, scale * SIDE, scale * SIDE, INK, 2)


def edges():
    """The four edge modes side by side."""
    scene = headed(4 * 240 + 3 * GAP + 2 * MARGIN, 655, 'The four edge modes',
                   'Above: what a sample reads beyond the border (paler). Below: the same sheet blurred with 13 taps, n = 1.')
    for at, mode in enumerate((Edge.DUPLICATE, Edge.WRAP, Edge.MIRROR, Edge.NONE)):
        x = MARGIN + at * (240 + GAP)
        scene.text(x, TOP + 16, mode.name.capitalize(), 15, bold=True)
        beyond(scene, x, TOP + 26, 3, mode, 16)
        panel(scene, x, TOP + 26 + 240 + 14, 5, worked(corbelrush.blur, sheet(), weights(13), n=1, edge=mode), 'blurred')
    return scene


def decimations():
    """n = 0 to 4."""
    scene = headed(3 * 240 + 2 * GAP + 2 * MARGIN, 655, 'Decimations, n = 0 to 4',
                   '48 by 48 pixels, 13 taps, under Mirror; beside each n the standard deviation along an axis.')
    panel(scene, MARGIN, TOP, 5, sheet(), 'the sheet')
    for n in range(5):
        x, y = MARGIN + (n + 1) % 3 * (240 + GAP), TOP + (n + 1) // 3 * (240 + 40)
        spread = math.sqrt(corbelrush.spread(weights(13), n) / 131072)
        blurred = worked(corbelrush.blur, sheet(), weights(13), n=n, edge=Edge.MIRROR)
        panel(scene, x, y, 5, blurred, 'n = %d: %.1f pixels' % (n, spread))
    return scene


def shadow():
    """A shadow alone, and under its picture."""
    scene = headed(3 * 288 + 2 * GAP + 2 * MARGIN, 424, 'A drop shadow',
                   'Moved by (3, 4), 13 taps, n = 0 under None, the colour dark blue at alpha 0.7.')
    recipe = {'n': 0, 'edge': Edge.NONE, 'dx': 3.0, 'dy': 4.0, 'colour': (0.05, 0.05, 0.3, 0.7)}
    small = 4.6
    alone = worked(corbelrush.shadow, sheet(small), weights(13), composite=False, **recipe)
    under = worked(corbelrush.shadow, sheet(small), weights(13), **recipe)
    shown = (sheet(small), 'small contacts'), (alone, 'their shadow alone'), (under, 'the contacts over it')
    for at, (picture, words) in enumerate(shown):
        panel(scene, MARGIN + at * (288 + GAP), TOP, 6, picture, words)
    return scene


AMBER = 23, 17
TAPS, DECIMATIONS = 5, 1
GROUND = 205, 205, 205


def points():
    """The points that made the amber pixel: x, y, and the share as a part of 1."""
    listed = corbelrush.shares(SIDE, SIDE, kernel(TAPS), AMBER[1] * SIDE + AMBER[0], DECIMATIONS, Edge.MIRROR)
    return [(point.place % SIDE, point.place // SIDE, point.share / 2 ** (10 * DECIMATIONS + 32)) for point in listed]


def squares(scene, x, y, cell, made, source):
    """Each point as a square of its own colour, as large as its share; one without contact is grey."""
    left, top, _ = made[0]
    most = math.sqrt(max(share for _, _, share in made))
    for across, down, share in made:
        long = (cell - 1) * math.sqrt(share) / most
        here = [source[down, across, channel] for channel in range(4)]
        colour = tuple(on_white([here])) if here[3] else GROUND
        inner = (cell - long) / 2
        scene.rect(x + (across - left) * cell + inner, y + (down - top) * cell + inner, long, long, colour)
    scene.frame(x + (AMBER[0] - left) * cell, y + (AMBER[1] - top) * cell, cell, cell, INK, 2)


def parts(made, source):
    """What made the pixel, the most first: how much of it, by whom, and the colour of that."""
    sums = {}
    for x, y, share in made:
        column, row = contact(x, y)
        here = RESISTANCE[row][column]
        maker = 'a contact of resistance %d of 100' % here, tuple(ramp(here))
        maker = maker if source[y, x, 3] else ('between contacts', GROUND)
        sums[maker] = sums.get(maker, 0) + share
    return sorted(((share, *maker) for maker, share in sums.items()), reverse=True)


def explained(scene, y, made, source, stands):
    """The pixel's channels as they stand beside those by shares, and what made the pixel, each with its colour."""
    exact = [sum(share * source[down, across, channel] for across, down, share in made) for channel in range(4)]
    lines = [('the pixel is r %d, g %d, b %d, a %d; share times channel, summed, is r %.2f, g %.2f, b %.2f, a %.2f'
              % (*stands, *exact), tuple(on_white([stands])))]
    lines += [('%.1f %% of it comes from %s' % (100 * share, name), colour) for share, name, colour in parts(made, source)]
    for at, (words, colour) in enumerate(lines):
        scene.rect(MARGIN, y + 24 * at - 13, 16, 16, colour)
        scene.text(MARGIN + 26, y + 24 * at, words)


def shares():
    """One amber pixel, and the points that made it."""
    scene = headed(3 * 288 + 2 * GAP + 2 * MARGIN, 532, 'Why is this pixel amber?',
                   'The shares of one pixel of a blur with %d taps, n = %d, under Mirror.' % (TAPS, DECIMATIONS))
    source, blurred, made = sheet(), worked(corbelrush.blur, sheet(), weights(TAPS), n=DECIMATIONS, edge=Edge.MIRROR), points()
    x, y, left, top = [MARGIN + at * (288 + GAP) for at in range(3)], TOP + 26, made[0][0], made[0][1]
    across = made[-1][0] - left + 1
    panel(scene, x[0], TOP, 6, blurred, 'the blurred sheet, and the pixel')
    scene.frame(x[0] + 6 * AMBER[0], y + 6 * AMBER[1], 6, 6, INK, 2)
    panel(scene, x[1], TOP, 6, source, "the sheet, and the pixel's points")
    scene.frame(x[1] + 6 * left, y + 6 * top, 6 * across, 6 * across, INK, 2)
    scene.text(x[2], TOP + 16, 'these points: area is share', 15, bold=True)
    squares(scene, x[2], y, 288 / across, made, source)
    scene.frame(x[2], y, 288, 288)
    explained(scene, 434, made, source, [blurred[AMBER[1], AMBER[0], channel] for channel in range(4)])
    return scene
