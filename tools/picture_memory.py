"""The picture of the memory of a store."""
from picture_facts import memory_facts, number_text, sure
from picture_svg import BLUE, FAINT, GREEN, GREY, MARGIN, ORANGE, RULE, WIDTH, Picture

LEFT, RIGHT = 150, WIDTH - MARGIN
BAR = 46
MEANINGS = {
    "used": "how many words of the table are used",
    "oldest": "the least of the checkpoint and the numbers of the open slots",
    "checkpoint": "the number of the state that the table holds",
    "tip": "the number of the newest state",
    "taken": "for each slot 1 where it is open, else 0",
    "issued": "for each open slot the checkpoint at its issue, else 0",
    "ends": "for each held step its mark, where it ends in the journal; marks not in use are 0",
    "depth": "how many steps a flush must leave above the state that it goes to, 0 to 63",
}


def piece(picture, y, name, words):
    """The name of a piece of memory beside its bar, and how many words it has."""
    picture.text(MARGIN, y + 20, name, size=16, bold=True)
    picture.text(MARGIN, y + 39, words, size=13, colour=FAINT)


def mark(picture, x, y, words):
    """A place below a bar."""
    picture.line(x, y + BAR, x, y + BAR + 8)
    picture.text(x, y + BAR + 23, words, size=13, anchor="middle")


def table(picture, y, facts):
    piece(picture, y, "table", f"1 to {number_text(facts['table'])} words")
    end = 600
    picture.box(LEFT, y, end - LEFT, BAR, BLUE)
    picture.text((LEFT + end) / 2, y + 20, "the map at the checkpoint, a word for each offer:", anchor="middle")
    picture.text((LEFT + end) / 2, y + 38, "words of kind 1, offers rising", anchor="middle")
    picture.box(end, y, RIGHT - end, BAR, GREY)
    picture.text((end + RIGHT) / 2, y + 29, "zeros", anchor="middle")
    mark(picture, LEFT, y, "0")
    mark(picture, end, y, "used")


def journal(picture, y, facts):
    piece(picture, y, "journal", f"1 to {number_text(facts['journal'])} words")
    ends = [LEFT, 270, 370, 470, 600, RIGHT]
    names = ["oldest step", "next step", "..", "newest step", "zeros"]
    marks = ["0", "ends[0]", "ends[1]", "ends[n − 2]", "ends[n − 1]"]
    for left, right, name, words in zip(ends, ends[1:], names, marks):
        picture.box(left, y, right - left, BAR, GREY if name == "zeros" else GREEN)
        picture.text((left + right) / 2, y + 29, name, anchor="middle")
        mark(picture, left, y, words)
    picture.text(LEFT, y + BAR + 46, f"n = tip − oldest steps are held, at most {facts['steps']}; "
                 f"a step is a list of 0 to {facts['list']} words, offers rising", size=13, colour=FAINT)


def words_text(count):
    return "1 word" if count == 1 else f"{count} words"


def places_text(start, count):
    return f"word {start}" if count == 1 else f"{start} to {start + count - 1}"


def fields(picture, y, named, fill):
    """Fields side by side, as wide as their names need, with the count and the places of their words."""
    weights = [max(len(name), 7) for name, _ in named]
    unit = (RIGHT - LEFT) / sum(weights)
    left, start = LEFT, 0
    for (name, count), weight in zip(named, weights):
        width = weight * unit
        picture.box(left, y, width, BAR, fill)
        picture.text(left + width / 2, y + 20, name, anchor="middle", bold=True)
        picture.text(left + width / 2, y + 38, words_text(count), size=13, anchor="middle")
        picture.text(left + width / 2, y + BAR + 18, places_text(start, count), size=13, anchor="middle", colour=FAINT)
        left, start = left + width, start + count


def head(picture, y, facts):
    piece(picture, y, "head", f"{facts['head words']} words")
    fields(picture, y, facts["head"], ORANGE)
    y += BAR + 44
    for name, _ in facts["head"]:
        sure(name in MEANINGS, f"the head has a field of which the picture says nothing: {name}")
        picture.text(LEFT, y, name, size=13, bold=True)
        picture.text(LEFT + 105, y, MEANINGS[name], size=13)
        y += 20
    return y


def tally(picture, y, facts):
    counts = facts["tally"]
    piece(picture, y, "tally", f"{len(counts)} words")
    fields(picture, y, [(name, 1) for name in counts], ORANGE)
    picture.text(LEFT, y + BAR + 42, "steps since the last clear, load or restart, which set the counts to 0", size=13, colour=FAINT)


def bit_fields(picture, y, name, named, fill):
    """A word of 64 bits, its fields as wide as they have bits, and the number of each field's highest and lowest bit."""
    picture.text(MARGIN, y + 20, name, size=16, bold=True)
    picture.text(MARGIN, y + 39, "64 bits", size=13, colour=FAINT)
    unit, high = (RIGHT - LEFT) / 64, 63
    for field, count in named:
        left, width = LEFT + (63 - high) * unit, count * unit
        picture.box(left, y, width, BAR, fill, corner=0)
        words = f"{field}, {count} bit" + ("" if count == 1 else "s")
        narrow = width < 60
        picture.text(left if narrow else left + width / 2, y - 8 if narrow else y + 29, words, anchor="start" if narrow else "middle")
        bounds = str(high) if count == 1 else f"{high} .. {high - count + 1}"
        picture.text(left + width / 2, y + BAR + 18, bounds, size=13, anchor="middle", colour=FAINT)
        high -= count


def draw(read):
    facts = memory_facts(read)
    slots = facts["slots"]
    picture = Picture(
        "The memory of a store",
        f"The table of 1 to {facts['table']} words holds the map at the checkpoint and then zeros. The journal of 1 to {facts['journal']} "
        f"words holds the steps, oldest first, and then zeros. The head of {facts['head words']} words has the fields "
        + ", ".join(f"{name} ({words_text(count)})" for name, count in facts["head"])
        + f". The tally has {', '.join(facts['tally'])}. Below, the bits of an entry word and of an order word.",
        f"Four pieces that the caller lends, in words of 64 bits. There are {slots} slots, in which reads start early.")
    table(picture, 100, facts)
    journal(picture, 200, facts)
    tally(picture, head(picture, 326, facts) + 14, facts)
    y = picture.height + 34
    picture.line(MARGIN, y - 20, RIGHT, y - 20, colour=RULE)
    picture.text(MARGIN, y + 8, "The words", size=16, bold=True)
    picture.text(LEFT, y + 8, "the most significant bit is on the left; below stand the numbers of the bits", size=13, colour=FAINT)
    bit_fields(picture, y + 56, "entry", facts["entry"], BLUE)
    picture.text(LEFT, y + 56 + BAR + 40, "in table, journal and lists; kind 1 puts or shows a price, kind 0 removes it or shows none",
                 size=13, colour=FAINT)
    bit_fields(picture, y + 192, "order", facts["order"], GREEN)
    picture.text(LEFT, y + 192 + BAR + 40, "in batches alone; no store holds orders", size=13, colour=FAINT)
    return picture
