#!/usr/bin/env python3
"""Holds the must-fail edits, and what `rt ci` said of each, to what each edit says that it breaks.

  tools/refused_edits.py LOG            LOG is what `rt ci` printed (or `rt must-fail`)
  tools/refused_edits.py LOG NAME ..    the edits of some crates alone
  tools/refused_edits.py --form         the edits' form alone, with no log

`rt` asks of an edit that the prover refuses the crate with it, and passes where an edit cannot be applied or read any more. Here each edit
also names what it must break. A file is one edit:

  # edit: NAME                        its name
  # ..                                what the wrong program does
  # breaks: MODULE::FUNCTION          the function that is refused, without the crate's name; a method with its type in front (`Entry::put`),
                                      and one of a trait with the type's name and the trait's, joined (`MappedRule::follows`)
  # breaks: lemma FILE NAME           or the lemma of proofs/FILE.antt that fails
  # and: ..                           another one that fails for its own sake, in either form
  file: .. old: .. new: ..            the replacements, as `rt` reads them, each of one line

An edit that replaces text in the body of a function names that function and no other: none else can fail for it but by calling that one,
whose contract stays. The log has to say of each edit that it was refused, neither by a limit of the prover alone nor only because a proof
file names what the edit took away, and its line shows the first fact that failed: that has to be one of what the edit names.

Exit status 1 where an edit is not refused so, or is not as it has to be.
"""
import collections
import pathlib
import re
import sys

Edit = collections.namedtuple("Edit", "name says breaks others replacements")
Replacement = collections.namedtuple("Replacement", "file old new")

SAID = re.compile(r"^(?:\[.*?\] )?rt: must-fail (?P<crate>\w+)/(?P<file>\S+?): (?P<text>.*)$")
REFUSED = "refused, as it must be"
WEAK = re.compile(r"\(only (?:because a proof file names what the edit took away|by a limit of the prover)")
OK = re.compile(r"^(?:\[.*?\] )?rt: ok; .*$", re.M)
NAMED = re.compile(r"lemma \S+ \S+|\w+(::\w+)*")
# Where a line of the log has its first fact: a lemma's file, the answers to a function's goals, or a line of code.
LEMMA_PLACE = re.compile(r": (?:\./)?proofs/(?P<file>[^\s:]+)\.antt:\d+:\d+: error: `(?P<lemma>[^`]*)`: ")
PROOF_PLACE = re.compile(r": (?:\./)?proofs/(?P<folder>[^\s:]+)/(?:Answers|Invariants)\.antt:\d+:\d+: error: ")
CODE_PLACE = re.compile(r": (?:note: )?(?:\./)?(?P<file>src/[^\s:]+\.rt):(?P<line>\d+):\d+: ")
FUNCTION = re.compile(r'^(?P<in> *)(?:pub(?:\(crate\))? )?(?:extern "C" )?fn (?P<name>\w+)(?:<(?:[^<>]|<[^<>]*>)*>)?\(', re.M)
BLOCK = re.compile(r"^(?P<in> *)(?:pub(?:\(crate\))? )?(?:impl(?:<[^<>]*>)? (?:(?P<trait>\S+) for )?|trait )(?P<type>[^\s:{]+(?:::\w+)*).* \{$", re.M)


def read_edit(text):
    """The edit of a file, and what is wrong with its form."""
    name, says, breaks, others, replacements, file, old, faults = [], [], [], [], [], None, None, []
    for line in text.splitlines():
        key, _, rest = line.partition(" ")
        if line.startswith("# edit: "):
            name.append(line[len("# edit: ") :].strip())
        elif line.startswith("# breaks: "):
            breaks.append(line[len("# breaks: ") :].strip())
        elif line.startswith("# and: "):
            others.append(line[len("# and: ") :].strip())
        elif key == "#":
            says.append(rest.strip())
        elif key == "file:":
            file = rest.strip()
        elif key == "old:":
            old = rest
        elif key == "new:":
            replacements.append(Replacement(file, old, rest))
            old = None
        elif line.strip():
            faults.append(f"a line that is none of an edit's: {line}")
    if len(name) != 1:
        faults.append(f"{len(name)} lines '# edit:' where one is meant")
    if not says:
        faults.append("no comment says what the wrong program does")
    if len(breaks) != 1:
        faults.append(f"{len(breaks)} lines '# breaks:' where one is meant")
    for named in breaks + others:
        if not NAMED.fullmatch(named):
            faults.append(f"'{named}' is neither a function nor 'lemma FILE NAME'")
    if not replacements:
        faults.append("it replaces nothing")
    if any(file is None or old is None for file, old, _ in replacements):
        faults.append("a 'new:' without its 'file:' or 'old:'")
    breaks, others = ([named for named in words if NAMED.fullmatch(named)] for words in (breaks, others))
    return Edit(" ".join(name), " ".join(says), " ".join(breaks[:1]), others, replacements), faults


def joined(words):
    """The names in a type or a trait as `rt` joins them: `From<Ground>` is FromGround, u32 is U32, `Text<'a>` is Text."""
    return "".join(name[0].upper() + name[1:] for name in re.findall(r"(?<!['\w])\w+\b(?!::)", words or ""))


def heads(text):
    """The heads of the functions of a source, each with its name: a method's with that of its block in front."""
    blocks = [(found.start(), text.find(f"\n{found['in']}}}\n", found.end()), joined(found["type"]) + joined(found["trait"])) for found in BLOCK.finditer(text)]
    for head in FUNCTION.finditer(text):
        yield "::".join([name for start, end, name in blocks if start < head.start() < end] + [head["name"]]), head


def bodies(text):
    """The functions of a source as `rt fmt` lays it out: name, where the head starts, and where the body starts and ends."""
    found = list(heads(text))
    for (name, head), behind in zip(found, [*(head.start() for _, head in found[1:]), len(text)]):
        start = re.compile(rf"^{head['in']}\{{$|^{head['in']}\S.* \{{$", re.M).search(text, head.start(), behind)
        end = start and re.compile(rf"^{head['in']}\}}$", re.M).search(text, start.end())
        if end:
            yield name, head.start(), start.end(), end.start()


def place_faults(edit, text_of):
    """Where a replacement is not that of one place in the crate as it stands, or is in the body of another function than the one named; and
    the texts with all replacements made."""
    texts, faults = {}, []
    for file, old, new in edit.replacements:
        text = texts.setdefault(file, text_of(file) or "")
        if old is None or text.count(old) != 1:
            faults.append(f"'{old}' stands {text.count(old or '-')} times in {file}")
            continue
        at = text.index(old)
        inside = [name for name, _, start, end in bodies(text) if start <= at and at + len(old) <= end]
        if inside and edit.breaks and files_of(edit.breaks)[1] not in inside:
            faults.append(f"'{old}' is in the body of {inside[0]}, and not of {edit.breaks}")
        if inside and edit.others:
            faults.append(f"'{old}' is in the body of {inside[0]}, and another name stands beside it")
        texts[file] = text.replace(old, new)
    return faults, texts


def files_of(function):
    """The sources in which a function can stand, by its modules, and its name, a method's with its type's."""
    words = function.split("::")
    modules = [module for module in words[:-1] if not module[0].isupper()]
    return [f"src/{'/'.join(modules)}.rt"] if modules else ["src/lib.rt", "src/main.rt"], "::".join(words[len(modules) :])


def named_faults(edit, text_of):
    """What the edit names and is not there."""
    for named in [edit.breaks, *edit.others]:
        if named.startswith("lemma "):
            _, file, lemma = named.split()
            text = text_of(f"proofs/{file}.antt")
            if text is None or not re.search(rf"^ *(?:(?:pub|abbrev|unfoldable) )*{re.escape(lemma)} (?:\S.*)?:", text, re.M):
                yield f"proofs/{file}.antt has no {lemma}"
        elif named:
            files, name = files_of(named)
            if not any(found == name for file in files for found, _ in heads(text_of(file) or "")):
                yield f"there is no function {named}"


def said_in(log):
    """What a log says of each edit, by crate and file."""
    return {(found["crate"], found["file"]): found["text"] for found in map(SAID.match, log.splitlines()) if found}


def first_line(text, start):
    """The line with which a function begins: its first attribute's, which rt names for a fact at the return, or that of its head."""
    lines = text[:start].split("\n")[:-1]
    while lines and lines[-1].lstrip().startswith("#["):
        lines.pop()
    return len(lines) + 1


def function_at(text, line):
    """The function of a source that has this line, from its first to its last, or None."""
    line_of = lambda at: text.count("\n", 0, at) + 1
    return next((name for name, head, _, end in bodies(text) if first_line(text, head) <= line <= line_of(end)), None)


def is_place_of(named, said, text_of):
    """Whether what the log says has its first fact in what is named: a lemma, or a function's code or answers."""
    if named.startswith("lemma "):
        found = LEMMA_PLACE.search(said)
        return bool(found) and named == f"lemma {found['file']} {found['lemma']}"
    found = PROOF_PLACE.search(said)
    if found:
        return found["folder"].replace("+", "").replace("/", "::") == named
    found = CODE_PLACE.search(said)
    files, name = files_of(named)
    return bool(found) and found["file"] in files and function_at(text_of(found["file"]) or "", int(found["line"])) == name


def log_faults(edit, said, text_of):
    """Why a line of the log does not say that the edit was refused for what it does."""
    if said is None:
        yield "the log says nothing of it"
    elif not said.startswith(REFUSED):
        yield said[:200]
    elif WEAK.search(said):
        yield f"it is refused for another reason than its contract: {said[:200]}"
    elif not any(is_place_of(named, said, text_of) for named in [edit.breaks, *edit.others]):
        yield f"what fails first is none of what it names: {said[:200]}"


def read(path):
    return path.read_text(errors="replace") if path.is_file() else None


def check(root, log, crates):
    """How many edits there are, and what is wrong; with no log, of their form alone."""
    names, faults, said = [], [], said_in(log or "")
    for path in sorted(root.glob("crates/*/must-fail/*.edit")):
        home, crate = path.parent.parent, path.parent.parent.name
        if crates and crate not in crates:
            continue
        text_of = lambda file, home=home: read(home / file) if file else None
        edit, wrong = read_edit(path.read_text())
        misplaced, texts = place_faults(edit, text_of)
        wrong += [*misplaced, *named_faults(edit, text_of)]
        if log is not None:
            wrong += log_faults(edit, said.get((crate, path.name)), lambda file: texts.get(file) or text_of(file))
        names.append(f"{crate}/{edit.name}")
        faults += [f"must-fail {crate}/{path.stem}: {fault}" for fault in wrong]
    faults += [f"must-fail {name}: two edits have this name" for name, n in collections.Counter(names).items() if n > 1]
    if log is not None and not crates:
        faults += ok_faults(log, len(names))
    return len(names), faults


def ok_faults(log, count):
    """Why the line `rt: ok` of a log does not say that all edits were refused."""
    ok = OK.search(log)
    if not ok:
        yield "the log has no line 'rt: ok'"
    elif ", " in ok[0] and re.search(r", \d+ bad\b", ok[0]):
        yield f"edits are bad: {ok[0]}"
    elif f"must-fail edits: {count} refused" not in ok[0]:
        yield f"not all {count} edits were refused: {ok[0]}"


def main(arguments):
    if not arguments:
        print(__doc__, file=sys.stderr)
        return 2
    log = None if arguments[0] == "--form" else pathlib.Path(arguments[0]).read_text(errors="replace")
    count, faults = check(pathlib.Path(__file__).resolve().parent.parent, log, arguments[1:])
    print("\n".join(faults) if faults else f"must-fail: {count} edits, each " + ("as it has to be" if log is None else "refused for what it does"))
    return 1 if faults or not count else 0


if __name__ == "__main__":
    sys.exit(main(sys.argv[1:]))
