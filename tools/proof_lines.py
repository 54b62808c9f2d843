#!/usr/bin/env python3
"""Keeps lines of proofs and contracts within 140 columns.

    proof_lines.py --check           names every line of crates/ that is longer, but for imports, and fails if there is one
    proof_lines.py FILE..            wraps the long lines of these files, but for imports, which `rt fmt` lays out

Run `rt fmt` after it: where a line goes on, `rt fmt` sets the indent.
"""
import re
import subprocess
import sys

LIMIT = 140  # the columns that no line passes
AIM = 120  # where a line that is wrapped ends, if it can
OPENING, CLOSING = "([{", ")]}"
OPERATORS = {"∙", "≡", "→", "×", "∷", "++", "&&", "≤", "<"}
JOINED = {"=", ":", "let", "λ", "in", "+", "-", "*", "%", "^"}
IMPORT = re.compile(r" *(?:(?:ghost|pub|unfoldable) )*use ")


def indent_of(line):
    return len(line) - len(line.lstrip(" "))


def breaks(text):
    """Where text may be broken: the spaces, each with its depth in brackets and how good it is (0 is best)."""
    found, depth = [], 0
    for i, char in enumerate(text):
        if char in OPENING:
            depth += 1
        elif char in CLOSING:
            depth -= 1
        elif char == " " and text[i + 1 : i + 2].strip():
            after = re.match(r"\S+", text[i + 1 :]).group(0)
            before = (re.findall(r"\S+$", text[:i].rstrip()) or [""])[0]
            if after.startswith(".") and len(after) > 1 or after in (")", "}"):
                continue
            if after in OPERATORS or before.endswith(";"):
                found.append((i, depth, 0))
            elif before.endswith(",") or before == "=":
                found.append((i, depth, 1))
            elif before not in OPERATORS | JOINED and after not in JOINED:
                found.append((i, depth, 2))
    return found


def wrap(text, first, rest, least=30):
    """Lines of text: the first from column `first` on, the others from `rest`, deeper within brackets."""
    lines, column, depth = [], first, 0
    while column + len(text) > LIMIT:
        fit = [b for b in breaks(text) if column + b[0] <= AIM and b[0] >= min(least, len(text) // 4)]
        fit = fit or [b for b in breaks(text) if column + b[0] <= LIMIT and b[0] >= 10]
        if not fit:
            break
        outer = [b for b in fit if b[1] == min(b[1] for b in fit)]
        at = ([b for b in outer if b[2] == 0] or outer)[-1]
        lines.append(" " * column + text[: at[0]].rstrip())
        depth += at[1]
        text = text[at[0] :].lstrip()
        column = rest + 2 * max(0, min(depth, 3))
    return lines + [" " * column + text]


def clauses(text):
    """The parts of a contract that `×` joins."""
    parts, depth, start = [], 0, 0
    for i, char in enumerate(text):
        if char in OPENING:
            depth += 1
        elif char in CLOSING:
            depth -= 1
        elif char == "×" and depth == 0:
            parts.append(text[start:i].strip())
            start = i
    return parts + [text[start:].strip()]


def wrap_contract(line):
    match = re.match(r"^( *)((?:requires|ensures)(?: \w+)? \{ )(.*)( \})$", line)
    if not match:
        return None
    indent, opening = len(match.group(1)), match.group(2)
    parts, lines = clauses(match.group(3)), []
    parts[-1] += match.group(4)
    for number, part in enumerate(parts):
        if number == 0:
            wrapped = wrap(part, indent + len(opening), indent + 4, 6)
            wrapped[0] = " " * indent + opening + wrapped[0].lstrip()
        else:
            wrapped = wrap(part, indent + 4, indent + 8, 6)
        lines += wrapped
    return lines


def balanced(text):
    return sum(text.count(c) for c in OPENING) == sum(text.count(c) for c in CLOSING)


def wrap_line(line):
    indent, text = indent_of(line), line.strip()
    lines = wrap_contract(line)
    if lines:
        return lines
    defined = re.match(r"^([^\s:=(∙]+(?: [^=]*?)?) = (.*)$", text)
    if defined and balanced(defined.group(1)) and not re.match(r"let |record ", text) and not text.endswith(";"):
        return [" " * indent + defined.group(1) + " ="] + wrap(defined.group(2), indent + 4, indent + 4)
    return wrap(text, indent, indent + 4)


def blocks(lines):
    """A line with the deeper ones behind it, again and again."""
    start = 0
    while start < len(lines):
        end = start + 1
        while end < len(lines) and lines[start].strip() and lines[end].strip() and indent_of(lines[end]) > indent_of(lines[start]):
            end += 1
        yield lines[start:end]
        start = end


def is_left(line):
    """A line that is short enough, and an import or a comment, which are wrapped nowhere here."""
    return len(line) <= LIMIT or IMPORT.match(line) or line.lstrip().startswith(("--", "//"))


def wrap_all(lines):
    out = []
    for block in blocks(lines):
        out += block[:1] if is_left(block[0]) else wrap_line(block[0])
        out += wrap_all(block[1:])
    return out


def long_lines():
    listed = subprocess.run(["git", "ls-files", "crates"], check=True, capture_output=True, text=True).stdout
    for path in listed.split():
        if path.endswith((".antt", ".rt")):
            with open(path, encoding="utf-8") as file:
                yield from (f"{path}:{n}" for n, line in enumerate(file, 1) if len(line.rstrip("\n")) > LIMIT and not IMPORT.match(line))


def main(words):
    if words == ["--check"]:
        found = list(long_lines())
        print("\n".join(f"{line}: above {LIMIT} columns" for line in found) or f"no line of crates/ is above {LIMIT} columns")
        return 1 if found else 0
    if not words:
        print(__doc__, file=sys.stderr)
        return 2
    for path in words:
        with open(path, encoding="utf-8") as file:
            lines = file.read().split("\n")
        with open(path, "w", encoding="utf-8") as file:
            file.write("\n".join(wrap_all(lines)))
    return 0


if __name__ == "__main__":
    sys.exit(main(sys.argv[1:]))
