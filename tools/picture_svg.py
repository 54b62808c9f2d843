"""A picture as SVG: boxes, lines and texts on a background of its own, with the space that each text needs."""
from html import escape

WIDTH = 900
MARGIN = 30
INK = "#1f2430"
FAINT = "#5b6475"
RULE = "#c3c9d4"
BLUE, GREEN, ORANGE, GREY = "#cfe3f7", "#cdebd8", "#fbdcc0", "#eceef2"
# The width of a letter by the size of the type: that of the widest fonts that a browser takes for sans-serif.
LETTER, BOLD_LETTER = 0.56, 0.66


def width_of(words, size, bold=False):
    """The width that a text needs at most."""
    return len(words) * size * (BOLD_LETTER if bold else LETTER)


class Picture:
    def __init__(self, title, description, subtitle):
        self.title, self.description = title, description
        self.height = 0
        self.parts = []
        self.texts = []
        self.text(MARGIN, 42, title, size=21, bold=True)
        self.text(MARGIN, 66, subtitle, colour=FAINT)

    def reach(self, y):
        self.height = max(self.height, y)

    def text(self, x, y, words, size=14, anchor="start", bold=False, colour=INK):
        """Words whose line stands at y; the anchor is `start`, `middle` or `end`."""
        width = width_of(words, size, bold)
        left = x - {"start": 0, "middle": width / 2, "end": width}[anchor]
        self.texts.append((left, y - 0.78 * size, left + width, y + 0.22 * size, words))
        weight = ' font-weight="bold"' if bold else ""
        self.parts.append(f'<text x="{x:g}" y="{y:g}" font-size="{size}" text-anchor="{anchor}" fill="{colour}"{weight}>'
                          f"{escape(words, quote=False)}</text>")
        self.reach(y + size)

    def box(self, x, y, width, height, fill, corner=3):
        self.parts.append(f'<rect x="{x:g}" y="{y:g}" width="{width:g}" height="{height:g}" rx="{corner}" fill="{fill}" stroke="{INK}"/>')
        self.reach(y + height)

    def line(self, x, y, to_x, to_y, colour=INK, width=1, dashed=False):
        dash = ' stroke-dasharray="4 4"' if dashed else ""
        self.parts.append(f'<line x1="{x:g}" y1="{y:g}" x2="{to_x:g}" y2="{to_y:g}" stroke="{colour}" stroke-width="{width:g}"{dash}/>')
        self.reach(max(y, to_y))

    def circle(self, x, y, radius, fill, stroke=INK):
        self.parts.append(f'<circle cx="{x:g}" cy="{y:g}" r="{radius:g}" fill="{fill}" stroke="{stroke}"/>')

    def triangle(self, x, y, size, colour=INK):
        """A head of an arrow that points at (x, y) from above, or from below where the size is negative."""
        corners = f"{x:g},{y:g} {x - size * 0.6:g},{y - size:g} {x + size * 0.6:g},{y - size:g}"
        self.parts.append(f'<polygon points="{corners}" fill="{colour}"/>')

    def svg(self):
        height = self.height + MARGIN - 10
        begin = (f'<svg xmlns="http://www.w3.org/2000/svg" viewBox="0 0 {WIDTH} {height:g}" width="{WIDTH}" height="{height:g}" '
                 'role="img" aria-labelledby="title desc" font-family="Helvetica, Arial, sans-serif">\n'
                 f'<title id="title">{escape(self.title, quote=False)}</title>\n'
                 f'<desc id="desc">{escape(self.description, quote=False)}</desc>\n'
                 f'<rect width="{WIDTH}" height="{height:g}" fill="#ffffff"/>')
        return "\n".join([begin, *self.parts, "</svg>"]) + "\n"

    def crowded(self):
        """The texts that overlap another, or run out of the picture."""
        faults = [f"{text[4]!r} runs out of the picture" for text in self.texts if text[0] < 0 or text[2] > WIDTH]
        for place, one in enumerate(self.texts):
            faults += [f"{one[4]!r} overlaps {other[4]!r}" for other in self.texts[place + 1:] if overlap(one, other)]
        return faults


def overlap(one, other):
    return one[0] < other[2] and other[0] < one[2] and one[1] < other[3] and other[1] < one[3]


def wrapped(words, size, width):
    """A text in lines of at most so much width."""
    lines = [""]
    for word in words.split():
        longer = f"{lines[-1]} {word}".strip()
        if width_of(longer, size) <= width:
            lines[-1] = longer
        else:
            lines.append(word)
    return lines
