"""The picture of the layers: the families of crates.txt, lowest at the bottom, with their crates in order."""
from picture_facts import families
from picture_svg import BLUE, FAINT, GREEN, GREY, MARGIN, ORANGE, RULE, WIDTH, Picture, width_of, wrapped

NAME = MARGIN + 34
LEFT, RIGHT = 190, WIDTH - MARGIN
BOX, GAP, SIZE = 26, 8, 13
FILLS = [BLUE, GREEN, ORANGE, GREY]


def rows(crates):
    """The crates in rows that fit beside the names: each with its place across and its width."""
    found, x = [[]], LEFT
    for crate in crates:
        width = width_of(crate, SIZE) + 18
        if x + width > RIGHT:
            found.append([])
            x = LEFT
        found[-1].append((crate, x, width))
        x += width + GAP
    return found


def used_families(named, place):
    """The families below that the crates of a family use, in their order."""
    used = {crate for uses in named[place][2].values() for crate in uses}
    return [name for name, _, crates in named[:place] if used & set(crates)]


def about(description, below):
    """The line below a family's crates: what it is, and which families it uses."""
    uses = f"uses {', '.join(below)}" if below else "uses no other family"
    return f"{description}; {uses}" if description else uses


def crates_of(picture, y, crates, fill):
    """The rows of crates, from y down; gives where they end."""
    for row in rows(crates):
        for crate, x, width in row:
            picture.box(x, y, width, BOX, fill)
            picture.text(x + width / 2, y + 18, crate, size=SIZE, anchor="middle")
        y += BOX + GAP
    return y


def band(picture, y, named, place):
    """A family from y down; gives where it ends."""
    name, description, crates = named[place]
    picture.text(NAME, y + 19, name, size=16, bold=True)
    y = crates_of(picture, y, crates, FILLS[place % len(FILLS)])
    for line in wrapped(about(description, used_families(named, place)), SIZE, RIGHT - LEFT):
        y += 17
        picture.text(LEFT, y - 5, line, size=SIZE, colour=FAINT)
    return y + 16


def arrow(picture, top, bottom):
    """The order of the families, beside them."""
    picture.line(MARGIN + 8, bottom, MARGIN + 8, top + 10, colour=FAINT, width=2)
    picture.triangle(MARGIN + 8, top, -12, colour=FAINT)


def draw(read):
    named = families(read)
    count = sum(len(crates) for _, _, crates in named)
    picture = Picture(
        "The layers",
        "From the lowest: " + "; ".join(f"{name} ({', '.join(crates)})" for name, _, crates in named) + ".",
        f"The {count} crates by families, the lowest at the bottom. A crate uses only what the crates below it promise,")
    picture.text(MARGIN, 86, "and those before it in its own family.", colour=FAINT)
    top = y = 112
    for place in reversed(range(len(named))):
        y = band(picture, y, named, place)
        if place:
            picture.line(NAME, y - 9, RIGHT, y - 9, colour=RULE)
            y += 3
    arrow(picture, top, y - 16)
    return picture
