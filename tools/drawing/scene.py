"""A drawing as a list of what is on it, from the back to the front, drawn alike as SVG and as PNG."""
from . import png, raster, svg

INK, GREY, PALE = (34, 34, 34), (110, 110, 110), (222, 222, 222)


class Scene:
    """Lengths are in pixels of the PNG, from the upper left corner; a colour is r, g, b."""

    def __init__(self, w, h, title):
        self.w, self.h, self.title, self.items = w, h, title, []

    def rect(self, x, y, w, h, colour):
        """A filled rectangle."""
        self.items.append(('rect', x, y, w, h, colour))

    def frame(self, x, y, w, h, colour=GREY, thick=1):
        """The outline of a rectangle, around it and not on it."""
        for part in ((x - thick, y - thick, w + 2 * thick, thick), (x - thick, y + h, w + 2 * thick, thick),
                     (x - thick, y, thick, h), (x + w, y, thick, h)):
            self.rect(*part, colour)

    def line(self, points, colour, thick=2):
        """A line through points, with round ends."""
        self.items.append(('line', points, colour, thick))

    def disc(self, x, y, radius, colour):
        """A filled circle."""
        self.items.append(('disc', x, y, radius, colour))

    def text(self, x, y, words, size=15, colour=INK, anchor='start', bold=False):
        """A line of text from, around or up to x; y is its baseline."""
        self.items.append(('text', x, y, words, size, colour, anchor, bold))

    def picture(self, x, y, scale, w, h, rgb):
        """A picture of w by h pixels, each a square of `scale`."""
        self.items.append(('picture', x, y, scale, w, h, bytes(rgb)))

    def write(self, path):
        """Writes path.svg and path.png."""
        with open(path + '.svg', 'w', encoding='utf-8', newline='\n') as file:
            file.write(svg.drawn(self))
        with open(path + '.png', 'wb') as file:
            file.write(png.packed(self.w, self.h, raster.drawn(self)))
