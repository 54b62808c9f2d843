#!/usr/bin/env python3
"""Runs the scripts of docs/REPLAY.md as they stand on the page and holds what is printed to the blocks that follow each: a block
`output` to what `model run` and replay print, a block `explained` to what replay prints with --explain.
`replay_page.py MODEL REPLAY`, with the two programs"""
import difflib
import pathlib
import re
import subprocess
import sys
import tempfile

ROOT = pathlib.Path(__file__).resolve().parent.parent
FENCE = re.compile(r"^```(script|output|explained)\n(.*?)^```$", re.MULTILINE | re.DOTALL)


def examples(page):
    """The scripts of a page, each with its line on the page and what must be printed, by the kind of block."""
    found = []
    for block in FENCE.finditer(page):
        kind, text = block.groups()
        line = page.count("\n", 0, block.start()) + 1
        if kind == "script":
            found.append((line, text, {}))
        elif not found or kind in found[-1][2]:
            raise ValueError(f"line {line}: this block follows no script")
        else:
            found[-1][2][kind] = text
    bare = [line for line, _, blocks in found if "output" not in blocks]
    if bare or not found:
        raise ValueError(f"no output follows the scripts at lines {bare}" if found else "the page has no script")
    return found


def differences(page, run):
    """What differs from the page; `run` takes a kind of block and a script, and gives pairs of a name and (status, text)."""
    wrong = []
    for line, script, blocks in examples(page):
        for kind, text in blocks.items():
            wanted = (1 if ": no call: " in text else 0, text)
            for name, got in run(kind, script):
                if got != wanted:
                    wrong.append(f"line {line}, {name} prints something else:\n" + "\n".join(shown(wanted, got)))
    return wrong


def shown(wanted, got):
    """The lines in which two outcomes differ, the status last."""
    texts = [[*text.split("\n"), f"status {status}"] for status, text in (wanted, got)]
    return difflib.unified_diff(*texts, "on the page", "printed", lineterm="", n=0)


def runner(model, replay):
    commands = {"output": {"model run": [model, "run"], "replay": [replay]}, "explained": {"replay --explain": [replay, "--explain"]}}

    def run(kind, script):
        with tempfile.NamedTemporaryFile() as file:
            file.write(script.encode())
            file.flush()
            for name, command in commands[kind].items():
                done = subprocess.run([*command, file.name], capture_output=True, cwd=ROOT, check=False)
                yield name, (done.returncode, (done.stdout + done.stderr).decode(errors="replace"))

    return run


def main():
    page = (ROOT / "docs/REPLAY.md").read_text()
    wrong = differences(page, runner(*sys.argv[1:3]))
    for text in wrong:
        print(f"docs/REPLAY.md, {text}", file=sys.stderr)
    if wrong:
        sys.exit(1)
    print(f"docs/REPLAY.md: {len(examples(page))} scripts print what the page has below them")


if __name__ == "__main__":
    main()
