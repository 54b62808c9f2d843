#!/usr/bin/env python3
"""Carries out a page's examples as they stand on it, and compares what they print.

  tools/page_examples.py PAGE FOLDER

A block of the page behind a line that begins with "File `NAME`" is written to FOLDER/NAME. The blocks of kind sh are then
run there, one after another in one bash that stops at the first failure; where a block of kind text follows one, with
"prints" before it, it must be what the sh block writes on standard output. Answers 0, 1 where something differs or
fails, and 2 where the page or the folder cannot be used.
"""
import pathlib
import re
import subprocess
import sys

BLOCK = re.compile(r"(?ms)^```(\w+)\n(.*?)^```$")
FILE = re.compile(r"(?m)^File `([\w.-]+)`")
PRINTS = re.compile(r"\bprints\b")
MARK = "-- end of block --"


def pieces(page):
    """The page's files, by name, and its sh blocks, each with what it must print or None."""
    files, runs, end = {}, [], 0
    for block in BLOCK.finditer(page):
        before, kind, body = page[end : block.start()], block.group(1), block.group(2)
        named = FILE.findall(before)
        if named:
            files[named[-1]] = body
        elif kind == "sh":
            runs.append([body, None])
        elif kind == "text" and runs and PRINTS.search(before):
            runs[-1][1] = body
        end = block.end()
    return files, [tuple(run) for run in runs]


def carried_out(runs, folder):
    """What each sh block printed, up to the first that failed, and the status of bash."""
    script = "set -euo pipefail\n" + "".join(f"{body}\nprintf '%s\\n' '{MARK}'\n" for body, _ in runs)
    done = subprocess.run(["bash", "-c", script], cwd=folder, stdout=subprocess.PIPE, text=True, errors="replace")
    return done.stdout.split(MARK + "\n"), done.returncode


def differences(runs, printed, status):
    """What differs, as lines."""
    for number, ((body, wanted), got) in enumerate(zip(runs, printed), 1):
        if wanted is not None and got != wanted:
            yield f"block {number} ({body.splitlines()[0]} ..) printed\n{got}and the page has\n{wanted}"
    if status != 0 or len(printed) != len(runs) + 1:
        yield f"block {len(printed)} of {len(runs)} failed with status {status}"


def main(arguments):
    if len(arguments) != 2 or not pathlib.Path(arguments[1]).is_dir():
        print("usage: tools/page_examples.py PAGE FOLDER", file=sys.stderr)
        return 2
    page, folder = pathlib.Path(arguments[0]), pathlib.Path(arguments[1])
    files, runs = pieces(page.read_text(encoding="utf-8"))
    if not files or not any(wanted for _, wanted in runs):
        print(f"{page}: no file, or no block that says what it prints", file=sys.stderr)
        return 2
    for name, body in files.items():
        (folder / name).write_text(body, encoding="utf-8")
    found = list(differences(runs, *carried_out(runs, folder)))
    print("\n".join(f"{page}: {line}" for line in found) or f"{page}: {len(files)} files and {len(runs)} runs print what the page has")
    return 1 if found else 0


if __name__ == "__main__":
    sys.exit(main(sys.argv[1:]))
