#!/usr/bin/env python3
"""Pins what the three conditions say.

  tools/pinned.py --check    holds the sources to tests/pinned.txt: the gate does so
  tools/pinned.py --write    writes tests/pinned.txt anew, for a landing in which a statement is meant to change

The prover shows that the theorems hold, and not that they are there or say what they said. So tests/pinned.txt has a line for each
definition that the three conditions (crates/conditions/specs/Condition*.antt) rest on, however far below, for each type of the code
among them, for the contract of each function that a program calls, and for the words of the request. A line has a digest of the text,
and of the place from which the text has each name that it imports: the same words with another meaning are another statement. Comments,
layout, the order of imports and imports that are not needed do not count. A definition that is gone, that is new or that says something
else is a fault. And the comment above each condition must have the words of the request, as docs/CONDITIONS.md quotes them; each
function that is called must have an `ensures` and no `requires`; and no other function may be exported to C.
"""
import hashlib
import pathlib
import re
import sys

PINNED = "tests/pinned.txt"
CONDITIONS = [f"crates/conditions/specs/Condition{n}.antt" for n in (1, 2, 3)]
# The functions that a program calls, and the one whose contract is the three conditions.
FUNCTIONS = {
    "crates/conditions/src/lib.rt": r"hold",
    "crates/c_promises/src/lib.rt": r"\w+",
    "crates/unit/src/serve.rt": r"serve",
    "crates/batch/src/pricing.rt": r"price_batch",
    "crates/cechnuol/src/store.rt": r"cechnuol_\w+",
    "crates/cechnuol/src/pricing.rt": r"cechnuol_\w+",
    "crates/cechnuol/src/version.rt": r"cechnuol_version",
    "crates/cechnuol_c/src/store.rt": r"cechnuol_\w+",
    "crates/cechnuol_c/src/pricing.rt": r"cechnuol_\w+",
    "crates/cechnuol_c/src/version.rt": r"cechnuol_version",
}
# The crate of what C calls, and the library whose functions it exports with the same clauses.
EXPORTS, LIBRARY = "crates/cechnuol_c/", "crates/cechnuol/"
# A line of imports, in a file of specs or of code: a module, and the names in braces or the module's name here.
USE = re.compile(r"^(?:(?:ghost|unfoldable|pub) )*use ([^\s{}]+?)(?:(?:\.|::)\{([^{}]*)\}| as (\S+?))?;?$")
# An import of code whose names stand on lines of their own.
LONG_USE = re.compile(r"^(?:(?:ghost|pub) )*use [^\s{};]+\{[^{}]*\};$", re.M)
MODULE = re.compile(r"Rattle\.(\w+)\.(specs|proofs)\.([\w.'-]+)")
WORD = re.compile(r"\[\]|[^\s(){}\[\].;,@«»]+")
ITEM = re.compile(r"^ *(?:(?:abbrev|unfoldable)(?: pub)? (?P<name>\S+)|(?:pub )?(?:record|data) (?P<type>[^\s{]+)|(?P<module>module)\b)")
TYPE = r"^pub (?:struct|enum) %s\b.*?(?:^\}$|;$)"
FUNCTION = r"^pub (?:extern \"C\" )?fn (%s)\(.*?^\{\}?$"


def digest(text):
    """A digest of a text, whatever its layout."""
    return hashlib.sha256(" ".join(text.split()).encode()).hexdigest()[:16]


def imports(text):
    """Where a file has each name from that it imports, by the name as it stands in the file; the modules; and the lines that say so in
    another form."""
    names, modules, odd = {}, [], []
    for line in LONG_USE.sub(lambda found: " ".join(found[0].split()).replace(", }", "}"), text).splitlines():
        use = USE.match(line)
        if use:
            module, items, name = use.groups()
            modules.append(module)
            if items is None:
                names.setdefault(name or re.split(r"\.|::", module)[-1], set()).add(module)
            for item in re.findall(r"[^,]+", re.sub("[«»]", "", items or "")):
                own, _, here = item.strip().partition(" as ")
                names.setdefault(here or own, set()).add(f"{module}.{own}")
        elif re.match(r"\s*(?:(?:ghost|unfoldable|pub)\s+)*use\b", line):
            odd.append(line.strip())
    return names, modules, odd


def meant(text, imported):
    """A text with the place that each imported name in it comes from."""
    words = set(WORD.findall(text)) | set(re.findall(r"\w+", text))
    return text + "".join(f"\n{name} = {' '.join(sorted(imported[name]))}" for name in sorted(imported)
                          if name in words or ("◌" in name and all(part in words for part in name.split("◌") if part)))


def definitions(text):
    """The definitions of a file of specs by their names, each head of a module, which has parameters of those in it, and what stands
    above them all."""
    found, name = {}, "start"
    for line in re.sub(r"(?m)(^|(?<=\s))--(\s.*)?$", "", text).splitlines():
        start = ITEM.match(line)
        if start:
            name = start["name"] or start["type"] or f"module {sum(key.startswith('module') for key in found) + 1}"
        if line.strip() and not line.startswith("use "):
            found[name] = found.get(name, "") + line + "\n"
    return found


def type_text(text, name):
    found = re.search(TYPE % re.escape(name), re.sub(r"(?m)//.*$", "", text), re.M | re.S)
    return found[0] if found else None


def contracts(text, names):
    """The signatures with the contracts of functions."""
    text = re.sub(r"(?m)^\s*//.*$", "", text)
    return {found[1]: found[0] for found in re.finditer(FUNCTION % names, text, re.M | re.S)}


def read(root, path):
    return (root / path).read_text() if (root / path).is_file() else None


def file_of(module):
    """The file that a module of this repository is, with the name of its type where it is one of the code, or None."""
    place = MODULE.fullmatch(module)
    if not place:
        return None
    crate, part, path = place.groups()
    if not path.startswith("declared."):
        return f"crates/{crate}/{part}/{path.replace('.', '/')}.antt", None
    *file, name = path.removeprefix("declared.").removesuffix(".TheVariants").split(".")
    return f"crates/{crate}/src/{'/'.join(file) or 'lib'}.rt", name


def texts_in(path, text, name):
    """What is pinned of a file: the contracts of the functions that are called, one type of the code, or all definitions."""
    if path in FUNCTIONS and name is None:
        return contracts(text, FUNCTIONS[path])
    if name is None:
        return definitions(text)
    body = type_text(text, name)
    return {name: body} if body else {}


def rests_on(root):
    """What is pinned, by name, and what is wrong: the contracts, the conditions, and all definitions and types below them."""
    pins, faults, seen, waiting = {}, [], set(), [(path, None) for path in [*CONDITIONS, *FUNCTIONS]]
    while waiting:
        path, name = place = waiting.pop()
        if place in seen:
            continue
        seen.add(place)
        text = read(root, path)
        if text is None:
            faults.append(f"{path} is gone")
            continue
        names, modules, odd = imports(text)
        found = texts_in(path, text, name)
        if not found:
            faults.append(f"{path} has no {name or 'definition or function that is called'}")
        pins.update({f"{path.removeprefix('crates/')} {key}": digest(meant(body, names)) for key, body in found.items()})
        if re.search(r"/\*|\{-", text):
            faults.append(f"{path} has a comment within lines, which is not looked into here")
        if name is None:
            own = [module for module in modules if module.startswith("Rattle.") and (root / "crates" / module.split(".")[1]).is_dir()]
            lost = [module for module in own if not file_of(module)]
            faults += [f"{path}: it cannot be told what this imports: {line}" for line in odd + lost]
            waiting += [file_of(module) for module in own if file_of(module)]
    return pins, faults


def function_faults(root):
    """Whether each function that is called has a contract for all input, and no other is exported to C."""
    for path, names in FUNCTIONS.items():
        for name, body in contracts(read(root, path) or "", names).items():
            if re.search(r"\brequires\b", body) or not re.search(r"\bensures\b", body):
                yield f"{path}: {name} has a `requires`, or no `ensures`"
    for path in sorted(root.glob("crates/*/src/**/*.rt")):
        where = path.relative_to(root).as_posix()
        for name in re.findall(r'(?m)^\s*(?:pub )?extern "C" fn (\w+)', path.read_text()):
            if not re.fullmatch(FUNCTIONS.get(where, ""), name):
                yield f"{where}: {name} is exported to C, and no condition speaks of it"
    yield from export_faults(root)


def export_faults(root):
    """Whether the crate of what C calls has each function of the library, with its parameters and clauses."""
    same = lambda body: re.sub(r",?\s+\)|\(\s+", lambda found: found[0].strip(", \n"), " ".join(body.replace('extern "C" ', "").split()))
    for path in [path for path in FUNCTIONS if path.startswith(EXPORTS)]:
        beside = path.replace(EXPORTS, LIBRARY)
        exported, called = (contracts(read(root, place) or "", FUNCTIONS[path]) for place in (path, beside))
        for name in sorted(exported.keys() | called.keys()):
            if name not in exported or name not in called or same(exported[name]) != same(called[name]):
                yield f"{path}: {name} is not what it is in {beside}"


def quoted(root):
    """The words of the request, as the page of conditions quotes them."""
    blocks = re.findall(r"(?m)(?:^> .*\n)+", read(root, "docs/CONDITIONS.md") or "")
    return [" ".join(line.removeprefix(">").strip() for line in block.strip().splitlines()) for block in blocks]


def words_faults(root):
    """Whether the comment above each condition has the request's words."""
    words = quoted(root)
    for number, path in enumerate(CONDITIONS):
        comment = " ".join(line.removeprefix("--").strip() for line in (read(root, path) or "").splitlines() if line.startswith("--"))
        if number >= len(words) or f'"{words[number]}"' not in comment:
            yield f"{path} does not have the words of condition {number + 1} as docs/CONDITIONS.md quotes them"


def look(root):
    """What is pinned now, and what is wrong."""
    pins, faults = rests_on(root)
    pins.update({f"docs/CONDITIONS.md {number}": digest(words) for number, words in enumerate(quoted(root)[:len(CONDITIONS)], 1)})
    return pins, [*faults, *function_faults(root), *words_faults(root)]


def compare(pinned, now):
    for name in sorted(pinned.keys() | now.keys()):
        if name not in now:
            yield f"{name} is gone, or the conditions no longer rest on it"
        elif name not in pinned:
            yield f"{name} is not pinned"
        elif pinned[name] != now[name]:
            yield f"{name} says something else"


def pinned_in(text):
    return dict(line.rsplit(" ", 1) for line in text.splitlines() if line and not line.startswith("#"))


def check(root):
    """How much is pinned, and what is wrong by the list of pins."""
    now, faults = look(root)
    return len(now), faults + [*compare(pinned_in(read(root, PINNED) or ""), now)]


def write(root):
    now, faults = look(root)
    (root / PINNED).write_text("# What the three conditions rest on, and the contracts of the functions that are called (tools/pinned.py).\n"
                               + "".join(f"{name} {now[name]}\n" for name in sorted(now)))
    return len(now), faults


def main(arguments):
    if arguments not in (["--check"], ["--write"]):
        print("usage: tools/pinned.py --check | --write", file=sys.stderr)
        return 2
    root = pathlib.Path(__file__).resolve().parent.parent
    count, faults = (check if arguments == ["--check"] else write)(root)
    print("\n".join(faults + ["If that is meant: tools/pinned.py --write, and say in docs/LANDINGS.md what moved."]) if faults
          else f"pinned: {count} definitions, types, contracts and conditions say what they said")
    return 1 if faults else 0


if __name__ == "__main__":
    sys.exit(main(sys.argv[1:]))
