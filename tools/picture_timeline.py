"""The picture of oldest, checkpoint and tip before and after a flush, a rollback and a forward.

The numbers are those of a run: a script of calls is run through the second model, and what it shows of the head is drawn.
"""
import re
import subprocess

from picture_facts import ENTRY, bits, sure
from picture_svg import BLUE, FAINT, GREEN, INK, MARGIN, ORANGE, RULE, WIDTH, Picture

LEFT, RIGHT = 150, WIDTH - 80
QUOTED = "#2f6fb5"
# The script: a store at state 20, reads issued at 20 and 22, lists of some words each, and then the calls that are drawn.
START = 20
LENGTHS = [2, 1, 3, 2, 4, 1, 2, 3]
CALLS = ["flush 25", "roll_back 27", "forward 0 26"]
SHOWN = re.compile(r"head used \d+ oldest (\d+) checkpoint (\d+) tip (\d+) depth \d+ held ([01]+) issued ((?:\d+ )+)ends((?: \d+)*)$")


def script(read):
    """The script's lines."""
    widths = dict(bits(read(ENTRY), ["KIND", "OFFER", "PRICE"], ENTRY))
    put, offer = 1 << 64 - widths["kind"], 1 << widths["price"]
    commits = [" ".join(["commit", *(f"{put | place * offer | 1000:016X}" for place in range(1, words + 1))]) for words in LENGTHS]
    ask = f"{offer:016X}"
    setup = ["lend table 64", "lend journal 64", "lend bytes 6", f"poke bytes 0 00 00 00 {START:02X} 00 00", "load", f"issue 0 {ask}"]
    shown = [line for call in CALLS for line in ("show head", call)]
    return [*setup, *commits[:3], "flush 22", f"issue 3 {ask}", *commits[3:], *shown, "show head"]


def model_run(root, lines):
    """What the second model prints for a script."""
    model = root / "model"
    subprocess.run(["cargo", "build", "--release", "--offline", "--quiet", "-p", "model"], cwd=model, check=True)
    run = subprocess.run([model / "target/release/model", "run"], input="\n".join(lines) + "\n", capture_output=True, text=True, check=True)
    return run.stdout


def head_of(shown):
    """A head that was shown: its numbers, the open slots with theirs, and the words of each held step."""
    found = SHOWN.match(shown)
    sure(found, f"the model shows no head, but: {shown}")
    oldest, checkpoint, tip = map(int, found.group(1, 2, 3))
    issued = list(map(int, found.group(5).split()))
    ends = [0, *map(int, found.group(6).split())]
    sure(len(ends) == tip - oldest + 1, f"a head with {len(ends) - 1} marks from state {oldest} to {tip}")
    slots = [(slot, issued[slot]) for slot, held in enumerate(found.group(4)) if held == "1"]
    return {"oldest": oldest, "checkpoint": checkpoint, "tip": tip, "slots": slots,
            "steps": [after - before for before, after in zip(ends, ends[1:])]}


def heads(printed, lines):
    """The heads before the first call and after each, where every call was accepted."""
    answers = [line.partition(": ")[2] for line in printed.splitlines()]
    calls = [line for line in lines if not line.startswith(("lend", "poke"))]
    sure(len(answers) == len(calls), "the model does not print a line for each call")
    for call, answer in zip(calls, answers):
        sure(answer.startswith("head" if call == "show head" else "ok"), f"the model answers {call} with {answer}")
    return [head_of(answer) for call, answer in zip(calls, answers) if call == "show head"]


class Scale:
    """Where a state's number stands."""

    def __init__(self, shown):
        self.first, self.last = min(head["oldest"] for head in shown), max(head["tip"] for head in shown)
        sure(self.first < self.last, "the run shows a single state")

    def at(self, state):
        return LEFT + (state - self.first) * (RIGHT - LEFT) / (self.last - self.first)

    def states(self):
        return range(self.first, self.last + 1)


def steps(picture, y, head, scale):
    """The held steps, with their words."""
    for place, words in enumerate(head["steps"]):
        state = head["oldest"] + place
        left, right = scale.at(state), scale.at(state + 1)
        picture.box(left + 9, y - 11, right - left - 18, 22, GREEN if state >= head["checkpoint"] else ORANGE)
        picture.text((left + right) / 2, y + 5, "1 word" if words == 1 else f"{words} words", size=12, anchor="middle")


def states(picture, y, head, scale):
    """The axis: each state's number, faint where the store holds nothing that leads there."""
    picture.line(scale.at(scale.first), y, scale.at(scale.last), y, colour=RULE)
    for state in scale.states():
        held = head["oldest"] <= state <= head["tip"]
        quoted = head["checkpoint"] <= state <= head["tip"]
        picture.circle(scale.at(state), y, 5, QUOTED if quoted else "#ffffff", INK if held else RULE)
        picture.text(scale.at(state), y + 29, str(state), size=13, anchor="middle", colour=INK if held else FAINT)


def names(picture, y, head, scale):
    """The names of numbers above them; those of one number stand one above another."""
    taken = {}
    for name in ("oldest", "checkpoint", "tip"):
        x = scale.at(head[name])
        above = taken.get(x, 0)
        picture.text(x, y - 29 - 17 * above, name, size=13, anchor="middle", bold=True)
        picture.triangle(x, y - 13, 9)
        taken[x] = above + 1


def slots(picture, y, head, scale):
    """The open slots below the numbers of their issue."""
    for slot, state in head["slots"]:
        x = scale.at(state)
        picture.line(x, y + 35, x, y + 46)
        picture.box(x - 29, y + 46, 58, 22, BLUE, corner=10)
        picture.text(x, y + 62, f"slot {slot}", size=13, anchor="middle")


def panel(picture, y, words, head, scale):
    picture.text(MARGIN, y + 5, words, bold=True)
    for part in (states, steps, names, slots):
        part(picture, y, head, scale)


def told(before, after):
    """What the call did, in the numbers of both heads."""
    moved = [f"{name} {before[name]} becomes {after[name]}" for name in ("oldest", "checkpoint", "tip") if before[name] != after[name]]
    gone = len(before["steps"]) - len(after["steps"])
    closed = [f"slot {slot} closes" for slot, state in before["slots"] if (slot, state) not in after["slots"]]
    count = {0: "no step goes", 1: "one step goes"}.get(gone, f"{gone} steps go")
    return "; ".join([*closed, *moved, count])


# The title of a call with its arguments, and what such a call does.
MEANT = {
    "flush": ("Flush to state {}", "The table takes over the map at the state. A step stays while an open slot needs it."),
    "roll_back": ("Roll back to state {}", "The steps above the state go, and their numbers are used again."),
    "forward": ("Forward slot {} to state {}", "The read is brought to the state and its slot closes. Steps that no read needs go."),
}


def legend(picture, y):
    pieces = [(GREEN, "step above the checkpoint", 3, MARGIN), (ORANGE, "step in the table already, held for a slot", 3, 258),
              (BLUE, "open slot", 8, 588)]
    for fill, words, corner, x in pieces:
        picture.box(x, y - 12, 24, 16, fill, corner)
        picture.text(x + 32, y + 1, words, size=13)
    picture.circle(720, y - 4, 5, QUOTED)
    picture.text(733, y + 1, "can be looked up", size=13)


def pair(picture, y, call, heads_of_call, scale):
    """A call: what it does, what it did, and the store before and after it."""
    name, *arguments = call.split()
    title, meant = MEANT[name]
    picture.line(MARGIN, y - 26, WIDTH - MARGIN, y - 26, colour=RULE)
    picture.text(MARGIN, y, title.format(*arguments), size=16, bold=True)
    picture.text(MARGIN, y + 22, meant)
    picture.text(MARGIN, y + 42, f"Here: {told(*heads_of_call)}.", colour=FAINT)
    for words, place, head in zip(("before", "after"), (106, 236), heads_of_call):
        panel(picture, y + place, words, head, scale)


def draw(read, run):
    """`run` gives what the second model prints for a script."""
    lines = script(read)
    shown = heads(run(lines), lines)
    scale = Scale(shown)
    changes = [told(before, after) for before, after in zip(shown, shown[1:])]
    picture = Picture(
        "Oldest, checkpoint and tip before and after three calls",
        "Three calls one after another on one store, with the held steps between the numbers of states and the open slots at the numbers "
        "of their issue. " + " ".join(f"{call}: {change}." for call, change in zip(CALLS, changes)),
        "One store, three calls one after another. Across: the numbers of states, and the held steps between them.")
    legend(picture, 98)
    y = 146
    for call, before, after in zip(CALLS, shown, shown[1:]):
        pair(picture, y, call, (before, after), scale)
        y += 346
    picture.text((LEFT + RIGHT) / 2, y - 22, "number of a state", anchor="middle", colour=FAINT)
    return picture
