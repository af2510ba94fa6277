"""Drawing with SVG: text, lines, and axes with logarithmic scales."""

import math
from xml.sax.saxutils import escape

COLOURS = {"archive": "#000000", "peer": "#d55e00", "sdsl": "#0072b2", "CRoaring": "#009e73", "galloping": "#999999",
           "whole lists": "#cc79a7", "all pages": "#e69f00", "edition 1": "#56b4e9", "plain bitmap": "#8a6d1d"}
FONT = 'font-family="sans-serif"'


class Drawing:
    def __init__(self, width, height):
        self.width, self.height = width, height
        self.parts = [f'<rect width="{width}" height="{height}" fill="white"/>']

    def text(self, x, y, text, size=12, anchor="start", colour="#222", turn=0):
        turned = f' transform="rotate({turn} {x:.1f} {y:.1f})"' if turn else ""
        self.parts.append(f'<text x="{x:.1f}" y="{y:.1f}" font-size="{size}" {FONT} fill="{colour}" '
                          f'text-anchor="{anchor}"{turned}>{escape(text)}</text>')

    def line(self, x1, y1, x2, y2, colour="#ccc", width=1.0, dashes=""):
        dashed = f' stroke-dasharray="{dashes}"' if dashes else ""
        self.parts.append(f'<line x1="{x1:.1f}" y1="{y1:.1f}" x2="{x2:.1f}" y2="{y2:.1f}" stroke="{colour}" '
                          f'stroke-width="{width}"{dashed}/>')

    def path(self, points, colour, width=2.0):
        text = " ".join(f"{x:.1f},{y:.1f}" for x, y in points)
        self.parts.append(f'<polyline points="{text}" fill="none" stroke="{colour}" stroke-width="{width}"/>')

    def dot(self, x, y, colour, radius=3.5):
        self.parts.append(f'<circle cx="{x:.1f}" cy="{y:.1f}" r="{radius}" fill="{colour}"/>')

    def frame(self, left, top, width, height):
        self.parts.append(f'<rect x="{left}" y="{top}" width="{width}" height="{height}" fill="none" stroke="#888"/>')

    def legend(self, x, y, names):
        """The names side by side, each with its colour."""
        for name in names:
            self.line(x, y - 4, x + 22, y - 4, COLOURS[name], 2)
            self.dot(x + 11, y - 4, COLOURS[name])
            self.text(x + 28, y, name)
            x += 44 + 7 * len(name)

    def save(self, path):
        with open(path, "w") as file:
            file.write(f'<svg xmlns="http://www.w3.org/2000/svg" width="{self.width}" height="{self.height}" '
                       f'viewBox="0 0 {self.width} {self.height}">\n' + "\n".join(self.parts) + "\n</svg>\n")


class LogScale:
    """Places on an axis whose equal steps are equal factors."""

    def __init__(self, least, most, start, end, base=10):
        self.base, self.start, self.end = base, start, end
        self.low = math.floor(math.log(least, base) + 1e-9)
        self.high = max(math.ceil(math.log(most, base) - 1e-9), self.low + 1)

    def place(self, value):
        share = (math.log(value, self.base) - self.low) / (self.high - self.low)
        return self.start + share * (self.end - self.start)

    def ticks(self, most=9):
        """Powers of the base, some left out where there are too many; 2 and 5 times a power of ten where few."""
        span = self.high - self.low
        step = -(-span // most)
        values = [self.base ** power for power in range(self.low, self.high + 1, step)]
        if self.base == 10 and span <= 2:
            values += [times * 10 ** power for power in range(self.low, self.high) for times in (2, 5)]
        return [(value, self.place(value)) for value in values]


class EvenScale:
    """Places on an axis whose equal steps are equal differences, with a tick at each whole number."""

    def __init__(self, least, most, start, end):
        self.least, self.most, self.start, self.end = least, most, start, end

    def place(self, value):
        return self.start + (value - self.least + 0.5) / (self.most - self.least + 1) * (self.end - self.start)

    def ticks(self):
        return [(value, self.place(value)) for value in range(self.least, self.most + 1)]
