"""Pictures in SVG, drawn part by part, for the scripts that draw those of the documents. Lengths are in pixels, x to the right
and y downwards."""

import html
import math

BLACK, GREY, LIGHT = "#222222", "#888888", "#dddddd"
BLUE, RED, ORANGE, GREEN = "#1f5fa8", "#c0392b", "#d17a00", "#2e7d32"


def number(value):
    """A length as it is written: with one digit behind the point at most, so that the same picture has the same text."""
    return f"{value:.1f}".removesuffix(".0")


class Picture:
    """A picture of a width and a height on white ground; `said` is what it shows, for who can't see it."""

    def __init__(self, width, height, said):
        self.parts = [
            f'<svg xmlns="http://www.w3.org/2000/svg" width="{width}" height="{height}" viewBox="0 0 {width} {height}" '
            f'font-family="DejaVu Sans, Helvetica, sans-serif" role="img">',
            f"<title>{html.escape(said)}</title>",
            f'<rect width="{width}" height="{height}" fill="white"/>',
        ]

    def text(self, x, y, words, size=13, colour=BLACK, anchor="middle", bold=False):
        weight = ' font-weight="bold"' if bold else ""
        self.parts.append(
            f'<text x="{number(x)}" y="{number(y)}" font-size="{size}" fill="{colour}" text-anchor="{anchor}"{weight}>'
            f"{html.escape(words)}</text>"
        )

    def path(self, points, colour=GREY, width=1.2, dashes=""):
        dashed = f' stroke-dasharray="{dashes}"' if dashes else ""
        through = " ".join(f"{number(x)},{number(y)}" for x, y in points)
        self.parts.append(f'<polyline points="{through}" fill="none" stroke="{colour}" stroke-width="{width}"{dashed}/>')

    def head(self, tip, tail, colour=GREY, size=8):
        """The head of an arrow that comes from `tail`."""
        way = math.atan2(tip[1] - tail[1], tip[0] - tail[0])
        sides = [(tip[0] - size * math.cos(way + turn), tip[1] - size * math.sin(way + turn)) for turn in (-0.4, 0.4)]
        corners = " ".join(f"{number(x)},{number(y)}" for x, y in [tip] + sides)
        self.parts.append(f'<polygon points="{corners}" fill="{colour}"/>')

    def box(self, x, y, width, height, fill="white", colour=GREY):
        self.parts.append(
            f'<rect x="{number(x)}" y="{number(y)}" width="{number(width)}" height="{number(height)}" rx="5" fill="{fill}" '
            f'stroke="{colour}"/>'
        )

    def dot(self, x, y, radius=5, fill=BLACK, colour=None):
        self.parts.append(
            f'<circle cx="{number(x)}" cy="{number(y)}" r="{number(radius)}" fill="{fill}" stroke="{colour or fill}"/>'
        )

    def svg(self):
        return "\n".join(self.parts + ["</svg>", ""])
