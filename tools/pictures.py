#!/usr/bin/env python3
"""The pictures of docs/pictures, drawn from the code's constants, from crates.txt and from a run of the second model.

  tools/pictures.py --check    holds the files to what is drawn now
  tools/pictures.py --write    writes them anew

memory.svg shows the memory of a store, timeline.svg oldest, checkpoint and tip before and after three calls, and layers.svg the crates
by families. Exit status: 0 where all is well, 1 where a file differs or a source is not as the pictures need it, 2 on wrong arguments
and where something cannot be read, run or written.
"""
import pathlib
import subprocess
import sys

import picture_layers
import picture_memory
import picture_timeline
from picture_facts import Odd

ROOT = pathlib.Path(__file__).resolve().parent.parent
FOLDER = "docs/pictures"
USAGE = "usage: tools/pictures.py --check | --write"


def read_source(path):
    return (ROOT / path).read_text(encoding="utf-8")


def run_model(lines):
    return picture_timeline.model_run(ROOT, lines)


def drawn(read=read_source, run=run_model):
    """The pictures by the names of their files."""
    return {
        "memory.svg": picture_memory.draw(read),
        "timeline.svg": picture_timeline.draw(read, run),
        "layers.svg": picture_layers.draw(read),
    }


def stale(folder, pictures):
    """The files of a folder that are not what is drawn, or that no picture is."""
    names = sorted({*pictures, *(path.name for path in folder.glob("*"))})
    stored = {name: (folder / name).read_bytes() if (folder / name).is_file() else None for name in names}
    return [name for name in names if name not in pictures or stored[name] != pictures[name].svg().encode()]


def check(folder, pictures):
    differing = stale(folder, pictures)
    for name in differing:
        print(f"{folder / name} is not what is drawn from the code: run tools/pictures.py --write, and look at it", file=sys.stderr)
    if not differing:
        print(f"{len(pictures)} pictures as drawn from the code", flush=True)
    return 1 if differing else 0


def write(folder, pictures):
    folder.mkdir(parents=True, exist_ok=True)
    for name, picture in pictures.items():
        (folder / name).write_bytes(picture.svg().encode())
    print(f"{len(pictures)} pictures are written", flush=True)
    return 0


def main(arguments):
    actions = {("--check",): check, ("--write",): write}
    action = actions.get(tuple(arguments))
    if action is None:
        print(USAGE, file=sys.stderr)
        return 2
    try:
        return action(ROOT / FOLDER, drawn())
    except Odd as odd:
        print(f"The pictures cannot be drawn: {odd}.", file=sys.stderr)
        return 1
    except (OSError, UnicodeError, subprocess.CalledProcessError) as error:
        print(f"The pictures cannot be made: {error}.", file=sys.stderr)
        return 2


if __name__ == "__main__":
    sys.exit(main(sys.argv[1:]))
