#!/usr/bin/env python3
"""Shows how far `rt ci` or `rt all check` has come, from what it prints: each crate, edit and program with its number.

  rt ci | tools/gate_log.py               prints the lines that matter, each as it comes
  rt check | tools/gate_log.py X          the same, where X and what it depends on are proved alone
  tools/gate_log.py --profile LOG         how long after the start each crate was proved, by a log of gate_log.py's own lines
  tools/gate_log.py --profile OLD NEW     the same of two logs, one beside the other

Lines that only repeat that something is proved, and the prover's notes on what a proof costs, are left out; the log itself has
them all. rt prints no times, so each crate's line is given the seconds since the start.
"""
import pathlib
import re
import sys
import time

ROUTINE = re.compile(
    r"^(fn|struct|enum) \S+: proved$|^checked \S+, \d+ of \d+$|^logic /|^logic=proved |^(library|statements|crate) \S+: modules loaded|^== |^linked target="
    r"|^axioms \w+: none reached|^empty contracts: 0 found|^rt: chose |^rt: \w+: begins with what a check kept"
    r"|^\S+: note: large solution|^note: no function with a body is declared"
)
CRATE = re.compile(r"^(?:\[.*?\] )?rt: (?P<name>\w+) (proved$|proved |NOT PROVED|is kept)")
EDITS = re.compile(r"^(?:\[.*?\] )?rt: must-fail (?P<name>\S+): ")
PROGRAM = re.compile(r"^(?:\[.*?\] )?rt: (?P<name>\w+) (ran\b(?! \(built by Rattle's own compiler)|proved, and its run)")
TIMED = re.compile(r"^\[proof \d+ of \d+, (?P<seconds>\d+) s\] rt: (?P<name>\w+) ")


def counted(line, done):
    """The kind of a line that counts, or None; a program's run is told apart from its proof."""
    for kind, form in (("program", PROGRAM), ("edits", EDITS), ("proof", CRATE)):
        match = form.match(line)
        if match:
            done[kind] = done.get(kind, 0) + 1
            return kind
    return None


def crates_of(root, names):
    """The crates that are proved for these names, or all where none is given."""
    lines = (line.partition("#")[0].partition(":") for line in (root / "crates.txt").read_text().splitlines())
    needs = {name.split()[0]: needed.split() for name, colon, needed in lines if colon}
    reached, todo = set(), list(names or needs)
    while todo:
        name = todo.pop()
        if name in needs and name not in reached:
            reached.add(name)
            todo += needs[name]
    return reached


def totals(root, names):
    """How many crates, edit files and programs there are for these names."""
    crates = crates_of(root, names)
    return {
        "proof": len(crates),
        "edits": sum(len(list(root.glob(f"crates/{crate}/must-fail/*.edit"))) for crate in crates),
        "program": sum((root / "crates" / crate / "src" / "main.rt").is_file() for crate in crates),
    }


def follow(lines, of, out, clock=time.monotonic):
    done, start = {}, clock()
    for line in lines:
        kind = counted(line, done)
        if kind:
            after = f", {round(clock() - start)} s" if kind == "proof" else ""
            print(f"[{kind} {done[kind]} of {of[kind]}{after}] {line}", end="", file=out, flush=True)
        elif not ROUTINE.match(line):
            print(line, end="", file=out, flush=True)


def seconds_in(log):
    """When each crate was proved, in seconds after the start, in the order of the log."""
    return {found["name"]: int(found["seconds"]) for found in map(TIMED.match, log.splitlines()) if found}


def profile(logs):
    """A table with a row for each crate: when it was proved, in each of the logs."""
    parts = [seconds_in(log) for log in logs]
    yield "| crate |" + " proved after, s |" * len(parts)
    yield "|---|" + "---:|" * len(parts)
    for crate in dict.fromkeys(crate for part in reversed(parts) for crate in part):
        yield f"| `{crate}` |" + "".join(f" {part.get(crate, '')} |" for part in parts)


def main(arguments):
    if arguments[:1] == ["--profile"]:
        print("\n".join(profile([pathlib.Path(log).read_text(errors="replace") for log in arguments[1:]])))
    else:
        follow(sys.stdin, totals(pathlib.Path(__file__).resolve().parent.parent, arguments), sys.stdout)


if __name__ == "__main__":
    main(sys.argv[1:])
