"""Drawings made of rectangles, lines, circles, text and pictures, as SVG and as PNG, with the standard library alone."""
