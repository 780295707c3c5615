"""A scene as SVG: text is text, and a picture is a PNG inside the file."""
import base64
from xml.sax.saxutils import escape

from . import png


def number(value):
    """A length, to hundredths."""
    return '%g' % (round(value * 100) / 100)


def paint(colour):
    """A colour in the format's words."""
    return '#%02x%02x%02x' % colour


def rect(x, y, w, h, colour):
    return '<rect x="%s" y="%s" width="%s" height="%s" fill="%s"/>' % (*map(number, (x, y, w, h)), paint(colour))


def line(points, colour, thick):
    through = ' '.join('%s,%s' % (number(x), number(y)) for x, y in points)
    return ('<polyline points="%s" fill="none" stroke="%s" stroke-width="%s" stroke-linecap="round" stroke-linejoin="round"/>'
            % (through, paint(colour), number(thick)))


def disc(x, y, radius, colour):
    return '<circle cx="%s" cy="%s" r="%s" fill="%s"/>' % (*map(number, (x, y, radius)), paint(colour))


def text(x, y, words, size, colour, anchor, bold):
    return '<text x="%s" y="%s" font-size="%s" fill="%s" text-anchor="%s"%s>%s</text>' % (
        *map(number, (x, y, size)), paint(colour), anchor, ' font-weight="bold"' if bold else '', escape(words))


def picture(x, y, scale, w, h, rgb):
    body = base64.b64encode(png.packed(w, h, rgb)).decode()
    return ('<image x="%s" y="%s" width="%s" height="%s" preserveAspectRatio="none" image-rendering="pixelated" '
            'href="data:image/png;base64,%s"/>' % (*map(number, (x, y, scale * w, scale * h)), body))


DRAW = {'rect': rect, 'line': line, 'disc': disc, 'text': text, 'picture': picture}


def drawn(scene):
    """The file's text."""
    head = ('<svg xmlns="http://www.w3.org/2000/svg" width="%d" height="%d" viewBox="0 0 %d %d" font-family="Helvetica, Arial, '
            'sans-serif">' % (scene.w, scene.h, scene.w, scene.h))
    items = [DRAW[item[0]](*item[1:]) for item in scene.items]
    white = '<rect width="100%" height="100%" fill="#ffffff"/>'
    return '\n'.join([head, '<title>%s</title>' % escape(scene.title), white, *items, '</svg>', ''])
