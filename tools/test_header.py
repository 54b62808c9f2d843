#!/usr/bin/env python3
"""Holds include/cechnuol.h to the definitions and to crates/cechnuol_c. `python3 tools/test_header.py`

Its numbers, which are limits, the places of the words of head and tally, the kinds of orders, the codes of the answers and the
word by which a lookup says that the table answered, are those of the code and of the definitions. The refusals that it names at a
call are those of the definitions, in their order, and tests/c/refusals.c makes each; the memory that it says a call changes is
what tests/c/changes.c tests. Its prototypes are those of the functions that crates/cechnuol_c exports, and its version is theirs.
Its names of answers are those of its constants, and its builders and readers of words give the words that tests/c has by hand.
Each test is shown to fail on edited copies of the texts. What needs the library is in tests/c, which tests/run-c runs.
"""
import pathlib
import re
import subprocess
import tempfile
import unittest

ROOT = pathlib.Path(__file__).resolve().parent.parent
FILES = {
    "header": "include/cechnuol.h",
    "head": "crates/head_words/specs/HeadWords.antt",
    "head_code": "crates/head_words/src/lib.rt",
    "lent": "crates/lent/specs/Lent.antt",
    "storing": "crates/lent/src/storing.rt",
    "numbers": "crates/answers/specs/Numbers.antt",
    "codes": "crates/lent/specs/Codes.antt",
    "codes_code": "crates/lent/src/codes.rt",
    "store": "crates/cechnuol_c/src/store.rt",
    "pricing": "crates/cechnuol_c/src/pricing.rt",
    "version_code": "crates/cechnuol/src/version.rt",
    "version_export": "crates/cechnuol_c/src/version.rt",
    "version": "crates/cechnuol/specs/Version.antt",
    "layout": "crates/layout/src/head.rt",
    "clauses": "crates/layout/specs/Clauses.antt",
    "slots": "crates/slots/specs/Slots.antt",
    "callers": "crates/slots/specs/Callers.antt",
    "callers_code": "crates/slots/src/callers.rt",
    "caller_numbers": "crates/lent/specs/Callers.antt",
    "caller_numbers_code": "crates/lent/src/callers.rt",
    "commit": "crates/commits/specs/Commit.antt",
    "rules": "crates/lists/src/rules.rt",
    "lists": "crates/changes/specs/Lists.antt",
    "checking": "crates/batch/src/checking.rt",
    "batches": "crates/batch/specs/Batches.antt",
    "report": "crates/listing/src/report.rt",
    "image": "crates/image/specs/Image.antt",
    "sheet": "crates/sheet/specs/Sheet.antt",
    "orders": "crates/orders/specs/Orders.antt",
    "grounds": "crates/conditions/specs/Grounds.antt",
    "changes": "tests/c/changes.c",
    "refusals": "tests/c/refusals.c",
    "replay_page": "docs/REPLAY.md",
}
# A file that need not be there: the Rust crate over the library.
RUST = "bindings/rust/Cargo.toml"
CC = ["cc", "-std=c99", "-O2", "-Wall", "-Wextra", "-Wpedantic", "-Werror"]
# Where each limit stands, in code and in definitions: a text, and what comes before its number there and behind it.
LIMITS = {
    "TABLE_WORDS": [("layout", "pub const TABLE_WORDS: usize = ", ";"), ("clauses", "leb 1 table ∷ leb table ", " ∷")],
    "JOURNAL_WORDS": [("layout", "pub const JOURNAL_WORDS: usize = ", ";"), ("clauses", "leb 1 journal ∷ leb journal ", " ∷")],
    "LIST_WORDS": [("rules", "pub const LIST_WORDS: usize = ", ";"), ("lists", "is_list l = leb (length l) ", " &&")],
    "BATCH_ORDERS": [("checking", "pub const BATCH_ORDERS: usize = ", ";"), ("batches", "∷ met (ltb ", " (length orders)) BadList")],
    "SLOTS": [
        ("layout", "pub const SLOTS: usize = ", ";"),
        ("clauses", "are_slots checkpoint taken issued = all_below ", " (is_slot"),
        ("slots", "met (leb ", " reader.slot) SlotRange"),
    ],
    "FOYER_SLOT": [
        ("callers_code", "pub const FOYER_SLOT: usize = ", ";"),
        ("callers", "has_slot Desk slot = ltb slot ", "\n"),
        ("callers", "has_slot Foyer slot = leb ", " slot"),
    ],
    "FOYER_WORDS": [("callers_code", "pub const FOYER_WORDS: usize = ", ";"), ("callers", "most_words Foyer = ", "\n")],
    "STEPS": [
        ("layout", "pub const STEPS: usize = ", ";"),
        ("clauses", "leb (tip - oldest) ", " ∷"),
        ("commit", "met (eqb (held_of head) ", ") StepsFull"),
    ],
    "MOST_DEPTH": [("layout", "pub const MOST_DEPTH: u32 = ", ";"), ("clauses", "is_depth depth = leb depth ", "\n")],
    "HEAD_WORDS": [("head_code", "pub const HEAD_WORDS: usize = ", ";")],
    "TALLY_WORDS": [("storing", "pub const TALLY_WORDS: usize = ", ";")],
}
# The calls of the definitions that take a format: a function for the image, and one for the sheet.
OF_FORMATS = {
    "load": ("load", "load_sheet"),
    "write": ("write_image", "write_sheet"),
    "write_state": ("write_state_image", "write_state_sheet"),
}
# The parts of what is lent as tests/c/lent.h names them, where the header says otherwise.
PARTS = {"*count": "VALUE", "*price": "VALUE", "*since": "SINCE"}


class Odd(Exception):
    """The texts are not of one piece."""


def sure(holds, what):
    if not holds:
        raise Odd(what)


def texts():
    found = {name: (ROOT / path).read_text(encoding="utf-8") for name, path in FILES.items()}
    rust = ROOT / RUST
    return {**found, "rust": rust.read_text(encoding="utf-8")} if rust.is_file() else found


def constant(name):
    """A ground's name, a field's or a call's, as the header has it."""
    return re.sub(r"(?<=[a-z])(?=[A-Z])", "_", name).upper()


def number_in(text, before, behind):
    """The one number of a text that stands between these."""
    found = re.findall(re.escape(before) + r"(\d+)" + re.escape(behind), text)
    sure(len(found) == 1, f"{before!r} stands before one number")
    return int(found[0])


def without_comments(header):
    return re.sub(r"/\*.*?\*/", "", header, flags=re.S)


def in_header(header):
    """The constants of the header's enums, without their prefix."""
    bodies = "".join(re.findall(r"enum \{(.*?)\};", without_comments(header), re.S))
    found = re.findall(r"CECHNUOL_(\w+) = (\d+)", bodies)
    sure(len(dict(found)) == len(found) == bodies.count("CECHNUOL_"), "each constant has one number")
    return {name: int(number) for name, number in found}


def of_limits(of):
    """The limits, each of which all texts have alike; the longest image is that of a full table and a journal of new offers, the longest
    sheet that of as many, each in a row of its own, and the longest image that is listed that of a full table."""
    limits = {}
    for name, places in LIMITS.items():
        found = {number_in(of[file], before, behind) for file, before, behind in places}
        sure(len(found) == 1, f"code and definitions have one {name}")
        limits[name] = found.pop()
    start, each = re.search(r"eqb \(length b\) \((\d+) \+ (\d+) \* count_in b\)", of["image"]).groups()
    sure(f"#define CECHNUOL_IMAGE_BYTES_OF(offers) ({start} + {each} * (offers))\n" in of["header"], "the length of an image")
    offers = limits["TABLE_WORDS"] + limits["JOURNAL_WORDS"]
    sure("pub const MAP_WORDS: usize = TABLE_WORDS + JOURNAL_WORDS;\n" in of["layout"], "the largest map")
    limits["IMAGE_BYTES"] = int(start) + int(each) * offers
    sheet = re.search(r"^sheet_size words = (\d+) \+ (\d+) \* length \(rows_of words\) \+ (\d+) \* length words$", of["sheet"], re.M)
    header, row, price = map(int, sheet.groups())
    sure(f"#define CECHNUOL_SHEET_BYTES_OF(offers) ({header} + {row + price} * (offers))\n" in of["header"], "the length of a sheet")
    limits["SHEET_BYTES"] = header + (row + price) * offers
    listed = number_in(of["report"], "pub const IMAGE_BYTES: usize = ", ";")
    sure(int(start) + int(each) * limits["TABLE_WORDS"] == listed, "the longest image that is listed")
    return limits


def of_kinds(of):
    """The kinds of orders that have a number of their own, `lists` as LIST; those of sixteenths are a macro."""
    first, last = map(int, re.search(r"leb (\d+) k && leb k (\d+)", of["orders"]).groups())
    macro = f"((n) >= 1 && (n) <= {last - first + 1} ? {first - 1} + (n) : 255)"
    sure(f"#define CECHNUOL_SIXTEENTHS(n) {macro}\n" in of["header"], "the kinds of sixteenths")
    return {name.upper(): int(number) for number, name in re.findall(r"cond \(eqb k (\d+)\) (\w+)s$", of["orders"], re.M)}


def head_fields(text):
    """The fields that `head_of` reads: the name of each, the position of its first word, and how many it has."""
    body = re.search(r"^head_of words =\n(.*?)\n\n", text, re.S | re.M).group(1)
    for name, value in re.findall(r"(\w+) = ([^;]*);", body):
        one, some = re.search(r"get_or words (\d+) 0", value), re.search(r"from (\d+) (\d+) words", value)
        yield (name, int(one.group(1)), 1) if one else (name, int(some.group(1)), int(some.group(2)))


def of_head(text):
    """The places of a head's words: the fields lie one after another, in the order of `words_of`."""
    fields, places, end = list(head_fields(text)), {}, 0
    for name, start, count in fields:
        sure(start == end, f"{name} begins at {start}, where {end} words are before it")
        places[constant(name)], end = start, start + count
    words = re.search(r"^words_of head =\n(.*?)\n\n", text, re.S | re.M).group(1)
    sure(re.findall(r"head\.(\w+)", words) == [name for name, _, _ in fields], "words_of and head_of have one order")
    size = int(re.search(r"^head_size = (\d+)$", text, re.M).group(1))
    sure(size == end, f"a head has {size} words, and its fields {end}")
    return {**places, "HEAD_WORDS": size}


def of_tally(text):
    """The places of a tally's words, as `tally_words` writes and `tally_of` reads them."""
    written = re.findall(r"tally\.(\w+)", re.search(r"^tally_words tally = (.*)$", text, re.M).group(1))
    read = re.findall(r"get_or words (\d+) 0", re.search(r"^tally_of words = counts (.*)$", text, re.M).group(1))
    sure(list(map(int, read)) == list(range(len(written))), "tally_of reads the words in their order")
    return {**{constant(name): place for place, name in enumerate(written)}, "TALLY_WORDS": len(written)}


def of_answers(numbers, codes):
    """The code of each answer."""
    grounds = {constant(name): int(number) for name, number in re.findall(r"^number_of (\w+) = (\d+)$", numbers, re.M)}
    accepted = re.search(r"^code_of \(accepted n\) = (\d+)$", codes, re.M).group(1)
    no_price = re.search(r"^no_price = (\d+)$", codes, re.M).group(1)
    return {"OK": int(accepted), **grounds, "NO_PRICE": int(no_price)}


def hold_table_word(of):
    """The word that says that the table answered, which is one number in header, code and definition, and no number of 32 bits."""
    defined = number_in(of["codes"], "\nby_table = ", "\n")
    sure(1 << number_in(of["codes_code"], "pub const BY_TABLE: u64 = 1 << ", ";") == defined, "code and definition have one word for the table")
    sure(1 << number_in(of["header"], "#define CECHNUOL_BY_TABLE (UINT64_C(1) << ", ")\n") == defined, "the header has that word")
    sure(defined >= 1 << 32, "no state has that number")


def of_callers(of):
    """The number of each caller. The first has one number, in code and definition, and the second all others: the next is its own."""
    first, callers = re.search(r"^caller_of number = cond \(eqb number (\d+)\) (\w+ \w+)$", of["caller_numbers"], re.M).groups()
    names = [constant(name) for name in callers.split()]
    sure(number_in(of["caller_numbers_code"], f"pub const {names[0]}: u32 = ", ";") == int(first), "code and definition have one desk")
    return {name: int(first) + place for place, name in enumerate(names)}


def differing(of):
    """The constants that header and definitions do not have alike."""
    limits, head, tally = of_limits(of), of_head(of["head"]), of_tally(of["lent"])
    hold_table_word(of)
    sure(limits["HEAD_WORDS"] == head["HEAD_WORDS"] and limits["TALLY_WORDS"] == tally["TALLY_WORDS"], "the sizes of head and tally")
    defined = {**limits, **head, **tally, **of_callers(of), **of_kinds(of), **of_answers(of["numbers"], of["codes"])}
    header = in_header(of["header"])
    return sorted(name for name in defined.keys() | header.keys() if defined.get(name) != header.get(name))


def versions(of):
    """The version in each text, as major.minor.patch."""
    numbers = [
        number_in(of["header"], "#define CECHNUOL_VERSION ", "\n"),
        number_in(of["version"], "\nversion = ", "\n"),
        number_in(of["version_code"], "const VERSION: u64 = ", ";"),
    ]
    found = [f"{n // 1000000}.{n // 1000 % 1000}.{n % 1000}" for n in numbers]
    found += re.findall(r'^#define CECHNUOL_VERSION_TEXT "(.*)"$', of["header"], re.M)
    return found + re.findall(r'^version = "(.*)"$', of.get("rust", ""), re.M)


def c_parameters(parameters):
    """The parameters that C sees where a function of Rattle has these."""
    for name, kind in re.findall(r"(\w+): ([^,]+?)\s*(?:,|$)", parameters):
        array = re.fullmatch(r"&(mut )?\[u(8|64); (\w+)\]", kind)
        part = re.fullmatch(r"&(mut )?\[u(8|64)\]", kind)
        const = "" if kind.startswith("&mut") else "const "
        if array:
            yield f"{const}uint{array.group(2)}_t {name}[CECHNUOL_{array.group(3)}]"
        elif part:
            yield f"{const}uint{part.group(2)}_t *{name}"
            yield "size_t"
        else:
            yield {"&mut u64": f"uint64_t *{name}", "u32": f"uint32_t {name}", "usize": f"size_t {name}"}[kind]


def exported(text):
    """The functions that a file of crates/cechnuol_c exports, each with its parameters as C sees them."""
    found = re.findall(r'#\[unsafe\(no_mangle\)\]\npub extern "C" fn (\w+)\((.*?)\) -> u64\n', text, re.S)
    sure(len(found) == text.count("extern"), "each exported function is read")
    return {name: list(c_parameters(" ".join(parameters.split()))) for name, parameters in found}


def declared(header):
    """The functions that the header declares, with their parameters; a length's own name is left out."""
    plain = without_comments(header).replace("\\\n", " ")
    macros = dict(re.findall(r"^#define (CECHNUOL_STORE\w*)\s+(.*)$", plain, re.M))
    functions = {}
    for name, parameters in re.findall(r"^uint64_t (cechnuol_\w+)\(([^)]*)\);", plain, re.M):
        whole = re.sub(r"CECHNUOL_STORE\w*", lambda m: macros[m.group(0)], parameters)
        split = [" ".join(one.split()) for one in whole.split(",")] if whole != "void" else []
        functions[name] = [re.sub(r"^size_t \w+_(words|count)$", "size_t", one) for one in split]
    return functions


def undeclared(of):
    """The functions that header and crates/cechnuol_c do not have alike."""
    library = {**exported(of["store"]), **exported(of["pricing"]), **exported(of["version_export"])}
    header = declared(of["header"])
    return sorted(name for name in header.keys() | library.keys() if header.get(name) != library.get(name))


def told(header, what):
    """What the comment of each call says after a word such as "Refusals:", up to the full stop."""
    comments = re.findall(r"/\*((?:(?!\*/).)*)\*/\nuint64_t cechnuol_(\w+)\(", header, re.S)
    plain = {name: re.sub(r"\s*\n \* ?", " ", comment) for comment, name in comments if name != "version"}
    found = {name: re.search(what + r": (.*?)\.", comment) for name, comment in plain.items()}
    sure(all(found.values()) and len(found) == 16, f"each call has a line {what}")
    return {name: match.group(1) for name, match in found.items()}


def refusals_defined(grounds):
    """The numbers by which the definitions turn each call away, in their order; those with a format are two functions."""
    rows = re.findall(r"^of_(?:reset|step|read|query) \(?(\w+)[^)=]*\)? = ((?:\d+ ∷ )*)\[\]$", grounds, re.M)
    named = [(constant(call).lower(), list(map(int, re.findall(r"\d+", numbers)))) for call, numbers in rows]
    found = {function: numbers for call, numbers in named for function in OF_FORMATS.get(call, (call,))}
    batch = re.search(r"^of_batch = ((?:\d+ ∷ )*)\[\]$", grounds, re.M).group(1)
    later = re.search(r"then (\d+) or (\d+), of the first order that fails, and where none does (\d+)", grounds)
    return {**found, "price_batch": list(map(int, re.findall(r"\d+", batch) + list(later.groups())))}


def otherwise_refused(of):
    """The calls at which the header names other refusals than the definitions, or in another order."""
    numbers = in_header(of["header"])
    header = {
        name: [numbers.get(refusal) for refusal in re.findall(r"[A-Z][A-Z_]+", line)]
        for name, line in told(of["header"], "Refusals").items()
    }
    defined = refusals_defined(of["grounds"])
    return sorted(name for name in header.keys() | defined.keys() if header.get(name) != defined.get(name))


def not_provoked(of):
    """The calls of which tests/c/refusals.c makes other refusals than the header names."""
    header = {name: set(re.findall(r"[A-Z][A-Z_]+", line)) for name, line in told(of["header"], "Refusals").items()}
    tested = {}
    for name, refusal in re.findall(r"^    REFUSED\((?:cechnuol_)?(\w+)\(.*\), (\w+)\);$", of["refusals"], re.M):
        tested.setdefault(name, set()).add(refusal)
    return sorted(name for name in header.keys() | tested.keys() if header.get(name) != tested.get(name))


def otherwise_changed(of):
    """The calls of which the header says that they change something else than tests/c/changes.c tests."""
    header = {
        name: {PARTS.get(part) or part.upper() for part in line.split(", ")} for name, line in told(of["header"], "Changes").items()
    }
    tested = re.findall(r"^    CHANGES\(cechnuol_(\w+)\(.*\), ([A-Z |]+)\);$", of["changes"], re.M)
    tested = {name: set(parts.split(" | ")) for name, parts in tested}
    return sorted(name for name in header.keys() | tested.keys() if header.get(name) != tested.get(name))


def run_with(header, source):
    """What a C program says with a header, and its status."""
    with tempfile.TemporaryDirectory() as folder:
        pathlib.Path(folder, "cechnuol.h").write_text(header, encoding="utf-8")
        program = pathlib.Path(folder, "program")
        subprocess.run([*CC, f"-I{folder}", f"-I{ROOT}/tests/c", "-x", "c", "-", "-o", program], check=True, input=source, text=True)
        done = subprocess.run([program], capture_output=True, text=True)
    return done.returncode, done.stdout


def words_test(name, header):
    """What a test of words says with a header, and its status."""
    return run_with(header, (ROOT / "tests/c" / f"{name}.c").read_text(encoding="utf-8"))


def said_of_answers(header):
    """The names and the texts of the answers from 0 to 299."""
    program = """#include "cechnuol.h"
#include <stdio.h>
int main(void) { for (int i = 0; i < 300; i++) printf("%s: %s\\n", cechnuol_name(i), cechnuol_text(i)); return 0; }
"""
    _, said = run_with(header, program)
    return [tuple(line.split(": ", 1)) for line in said.splitlines()]


def unlisted(of):
    """The numbers of the refusals that docs/REPLAY.md does not have with the header's name and sentence."""
    rows = {int(number): (name, text) for number, name, text in re.findall(r"^\| (\d+) \| `(\w+)` \| (.*) \|$", of["replay_page"], re.M)}
    said = said_of_answers(of["header"])
    return [number for number in range(1, max(rows, default=0) + 2) if rows.get(number, ("UNKNOWN", said[number][1])) != said[number]]


def misnamed(of):
    """The answers that cechnuol_name does not give the name of their constant, and numbers that it should not know."""
    answers = {code: name for name, code in of_answers(of["numbers"], of["codes"]).items()}
    return [code for code, (name, _) in enumerate(said_of_answers(of["header"])) if name != answers.get(code, "UNKNOWN")]


class Held(unittest.TestCase):
    def edited(self, file, old, new):
        """The texts with one edit."""
        of = texts()
        self.assertEqual(of[file].count(old), 1, f"{old!r} stands once in {FILES[file]}")
        return {**of, file: of[file].replace(old, new)}

    def is_noticed(self, of, what):
        """Something differs in the edited texts, or they are not of one piece."""
        try:
            found = differing(of)
        except Odd:
            return
        self.assertTrue(found, f"nothing differs with {what}")

    def each_number(self, file, pattern):
        """The texts with each number that the pattern has as its last group one higher."""
        of = texts()
        found = list(re.finditer(pattern, of[file], re.M))
        self.assertTrue(found)
        for match in found:
            start, end = match.span(match.lastindex)
            yield match.group(0), {**of, file: of[file][:start] + str(int(match.group(match.lastindex)) + 1) + of[file][end:]}


class Constants(Held):
    def test_header_and_definitions_agree(self):
        self.assertEqual(differing(texts()), [])

    def test_each_constant_is_compared(self):
        header = in_header(texts()["header"])
        edits = list(self.each_number("header", r"^    CECHNUOL_(\w+) = (\d+)"))
        self.assertEqual(len(edits), len(header))
        for what, of in edits:
            self.is_noticed(of, what)

    def test_each_limit_of_code_and_definitions_is_compared(self):
        for places in LIMITS.values():
            for file, before, behind in places:
                for what, of in self.each_number(file, re.escape(before) + r"(\d+)" + re.escape(behind)):
                    self.is_noticed(of, what)

    def test_each_number_of_the_definitions_is_compared(self):
        for file, pattern in [
            ("head", r"^head_size = (\d+)"),
            ("head", r"= [^=\n]*get_or words (\d+) 0"),
            ("head", r"= [^=\n]*from (\d+) \d+ words\)?;"),
            ("head", r"= [^=\n]*from \d+ (\d+) words\)?;"),
            ("lent", r"^tally_of words = counts \(get_or words (\d+)"),
            ("numbers", r"^number_of \w+ = (\d+)"),
            ("codes", r"^no_price = (\d+)"),
            ("codes", r"^by_table = (\d+)"),
            ("codes_code", r"pub const BY_TABLE: u64 = 1 << (\d+);"),
            ("header", r"BY_TABLE \(UINT64_C\((\d+)\)"),
            ("header", r"BY_TABLE \(UINT64_C\(1\) << (\d+)\)"),
            ("codes", r"^code_of \(accepted n\) = (\d+)"),
            ("caller_numbers", r"cond \(eqb number (\d+)\)"),
            ("caller_numbers_code", r"pub const DESK: u32 = (\d+);"),
            ("orders", r"cond \(eqb k (\d+)\)"),
            ("orders", r"leb (\d+) k && leb k \d+"),
            ("orders", r"leb \d+ k && leb k (\d+)"),
            ("image", r"eqb \(length b\) \((\d+) \+ \d+ \*"),
            ("image", r"eqb \(length b\) \(\d+ \+ (\d+) \*"),
            ("header", r"IMAGE_BYTES_OF\(offers\) \((\d+) \+"),
            ("sheet", r"^sheet_size words = (\d+) \+"),
            ("sheet", r"^sheet_size words = \d+ \+ (\d+) \*"),
            ("sheet", r"^sheet_size words = .* \+ (\d+) \* length words$"),
            ("header", r"SHEET_BYTES_OF\(offers\) \((\d+) \+"),
            ("header", r"SHEET_BYTES_OF\(offers\) \(\d+ \+ (\d+) \*"),
            ("header", r"SIXTEENTHS\(n\) \(\(n\) >= (\d+)"),
            ("header", r"SIXTEENTHS\(n\) .* \? (\d+) \+"),
        ]:
            for what, of in self.each_number(file, pattern):
                self.is_noticed(of, what)

    def test_two_words_exchanged(self):
        edits = [
            (
                "header",
                "CECHNUOL_OLDEST = 1,     /* the state from which steps are held */\n    CECHNUOL_CHECKPOINT = 2,",
                "CECHNUOL_OLDEST = 2,\n    CECHNUOL_CHECKPOINT = 1,",
            ),
            ("header", "CECHNUOL_COMMITTED = 0,\n    CECHNUOL_ROLLED_BACK = 1,", "CECHNUOL_COMMITTED = 1,\n    CECHNUOL_ROLLED_BACK = 0,"),
            ("head", "head.oldest ∷ head.checkpoint ∷", "head.checkpoint ∷ head.oldest ∷"),
            ("lent", "tally.committed ∷ tally.rolled_back", "tally.rolled_back ∷ tally.committed"),
            ("caller_numbers", "(eqb number 0) Desk Foyer", "(eqb number 0) Foyer Desk"),
        ]
        for file, old, new in edits:
            self.is_noticed(self.edited(file, old, new), new)

    def test_a_name_that_one_side_alone_has(self):
        self.assertEqual(differing(self.edited("header", "    CECHNUOL_TIP = 3,", "    CECHNUOL_NEWEST = 3,")), ["NEWEST", "TIP"])
        self.assertEqual(differing(self.edited("numbers", "number_of BadImage = 15\n", "")), ["BAD_IMAGE"])


class Prototypes(Held):
    def test_header_and_library_agree(self):
        self.assertEqual(undeclared(texts()), [])
        self.assertEqual(len(declared(texts()["header"])), 17)

    def test_each_difference_is_noticed(self):
        edits = [
            ("header", "cechnuol_release(CECHNUOL_STORE, uint32_t caller, size_t slot)", "cechnuol_release(CECHNUOL_STORE, size_t slot)", 1),
            ("header", "uint32_t caller, uint32_t offer, uint32_t state, uint64_t *price", "uint32_t offer, uint32_t caller, uint32_t state, uint64_t *price", 1),
            ("header", "uint64_t *price,\n                          uint64_t *since);", "uint64_t *since,\n                          uint64_t *price);", 1),
            ("header", "uint64_t *price,\n                          uint64_t *since);", "uint64_t *price);", 1),
            ("header", "size_t slot, uint32_t state, uint64_t *words", "uint32_t state, size_t slot, uint64_t *words", 1),
            ("header", "        uint64_t tally[CECHNUOL_TALLY_WORDS]", "        uint64_t *tally, size_t tally_words", 10),
            ("header", "        const uint64_t head[CECHNUOL_HEAD_WORDS]", "        uint64_t head[CECHNUOL_HEAD_WORDS]", 5),
            ("header", "uint64_t cechnuol_flush(CECHNUOL_STORE, uint32_t state);", "", 1),
            ("header", "cechnuol_commit(CECHNUOL_STORE, const uint64_t *words", "cechnuol_commit(CECHNUOL_STORE, uint64_t *words", 1),
            ("header", "cechnuol_clear(CECHNUOL_STORE, uint32_t depth)", "cechnuol_clear(CECHNUOL_STORE)", 1),
            ("header", "cechnuol_load(CECHNUOL_STORE, uint32_t depth, const uint8_t *bytes", "cechnuol_load(CECHNUOL_STORE, uint32_t depth, uint8_t *bytes", 1),
            ("header", "cechnuol_load(CECHNUOL_STORE, uint32_t depth, const", "cechnuol_load(CECHNUOL_STORE, uint64_t depth, const", 1),
            ("header", "cechnuol_load_sheet(CECHNUOL_STORE, uint32_t", "cechnuol_load_sheet(CECHNUOL_STORE_TO_READ, uint32_t", 1),
            ("header", "cechnuol_write_state_sheet(CECHNUOL_STORE_TO_READ, uint32_t state,", "cechnuol_write_state_sheet(CECHNUOL_STORE_TO_READ,", 1),
            ("header", "cechnuol_version(void);", "cechnuol_version(uint64_t of);", 1),
            ("pricing", "    reads: &[u64],", "    reads: &mut [u64],", 1),
        ]
        for file, old, new, count in edits:
            self.assertEqual(len(undeclared(self.edited(file, old, new))), count, new)


class Comments(Held):
    def test_refusals_are_those_of_the_definitions(self):
        self.assertEqual(otherwise_refused(texts()), [])

    def test_a_refusal_more_or_less_or_in_another_order(self):
        of_load = "\n * TOO_DEEP is here a depth above 63.\n * At TABLE_FULL lend a longer table"
        edits = [
            ("header", f"LENGTHS, TOO_DEEP, BAD_IMAGE, TABLE_FULL.{of_load};", f"LENGTHS, BAD_IMAGE, TOO_DEEP, TABLE_FULL.{of_load};", ["load"]),
            ("header", f"LENGTHS, TOO_DEEP, BAD_IMAGE, TABLE_FULL.{of_load},", f"LENGTHS, TOO_DEEP, BAD_IMAGE.{of_load},", ["load_sheet"]),
            ("header", "STATE_RANGE, TOO_DEEP, TABLE_FULL.", "STATE_RANGE, TABLE_FULL.", ["flush"]),
            ("header", "Refusals: LENGTHS, TOO_DEEP.", "Refusals: LENGTHS, UNSOUND, TOO_DEEP.", ["clear"]),
            ("header", "ORDER_NO_PRICE or PRICE_RANGE; then", "PRICE_RANGE; then", ["price_batch"]),
            ("grounds", "of_reset Restart = 1 ∷ 2 ∷ 17 ∷ []", "of_reset Restart = 1 ∷ 2 ∷ 15 ∷ []", ["restart"]),
            ("grounds", "= 1 ∷ 20 ∷ 15 ∷ 16 ∷ []", "= 1 ∷ 15 ∷ 20 ∷ 16 ∷ []", ["load", "load_sheet"]),
            ("grounds", "of_query (Write format) = 1 ∷ 2 ∷ 17 ∷ []", "of_query (Write format) = 1 ∷ 2 ∷ []", ["write_image", "write_sheet"]),
            ("grounds", "of_batch = 6 ∷ 7 ∷ 8 ∷ []", "of_batch = 6 ∷ 8 ∷ 7 ∷ []", ["price_batch"]),
        ]
        for file, old, new, calls in edits:
            self.assertEqual(otherwise_refused(self.edited(file, old, new)), calls, new)

    def test_each_refusal_is_provoked(self):
        self.assertEqual(not_provoked(texts()), [])

    def test_a_refusal_that_is_not_provoked(self):
        edits = [
            ("header", "Refusals: LENGTHS, TOO_DEEP.", "Refusals: LENGTHS, UNSOUND, TOO_DEEP.", ["clear"]),
            ("refusals", "    REFUSED(cechnuol_clear(STORE, 64), TOO_DEEP);\n", "", ["clear"]),
            ("refusals", "    REFUSED(cechnuol_restart(STORE, lent.bytes, 21), OUTPUT_SHORT);\n", "", ["restart"]),
            ("refusals", "    REFUSED(price_batch(good, other, 2, 1), OUTPUT_SHORT);\n", "", ["price_batch"]),
            ("refusals", "    REFUSED(cechnuol_load_sheet(STORE, 0, five_seats, 36), TABLE_FULL);\n", "", ["load_sheet"]),
        ]
        for file, old, new, calls in edits:
            self.assertEqual(not_provoked(self.edited(file, old, new)), calls, new)

    def test_changes_are_those_that_are_tested(self):
        self.assertEqual(otherwise_changed(texts()), [])

    def test_a_change_more_or_less(self):
        edits = [
            ("header", "Changes: words, head.", "Changes: words, head, tally.", ["issue"]),
            ("header", "Changes: words, journal, head.", "Changes: words, head.", ["forward"]),
            ("header", "Changes: *price, *since.", "Changes: *price.", ["look_up"]),
            ("changes", "lent.words, 2), WORDS | HEAD);", "lent.words, 2), WORDS);", ["issue"]),
            ("changes", "    CHANGES(cechnuol_release(STORE, CECHNUOL_DESK, 0), JOURNAL | HEAD);\n", "", ["release"]),
        ]
        for file, old, new, calls in edits:
            self.assertEqual(otherwise_changed(self.edited(file, old, new)), calls, new)


class Versions(Held):
    def test_all_texts_have_one(self):
        found = versions(texts())
        self.assertEqual(set(found), {found[0]})
        self.assertGreaterEqual(len(found), 4)

    def test_each_is_compared(self):
        number, text = number_in(texts()["header"], "#define CECHNUOL_VERSION ", "\n"), versions(texts())[0]
        edits = [
            ("header", f"#define CECHNUOL_VERSION {number}", f"#define CECHNUOL_VERSION {number + 1}"),
            ("header", f'_VERSION_TEXT "{text}"', f'_VERSION_TEXT "{text}1"'),
            ("version", f"version = {number}", f"version = {number + 1000}"),
            ("version_code", f"VERSION: u64 = {number}", f"VERSION: u64 = {number + 1000000}"),
        ]
        for file, old, new in edits:
            self.assertEqual(len(set(versions(self.edited(file, old, new)))), 2, new)
        self.assertEqual(set(versions({**texts(), "rust": 'version = "2.0.9"\n'})), {text, "2.0.9"})


class Answers(Held):
    def test_names(self):
        self.assertEqual(misnamed(texts()), [])

    def test_another_name(self):
        edits = [
            ('case CECHNUOL_UNSOUND: return "UNSOUND";', 'case CECHNUOL_UNSOUND: return "LENGTHS";', [2]),
            ('    case CECHNUOL_NO_PRICE: return "NO_PRICE";\n', "", [100]),
            ('default: return "UNKNOWN";', 'default: return "OK";', [*range(21, 100), *range(101, 300)]),
        ]
        for old, new, codes in edits:
            self.assertEqual(misnamed(self.edited("header", old, new)), codes, new)

    def test_the_page_of_replay(self):
        self.assertEqual(unlisted(texts()), [])
        for file, old, new, numbers in [
            ("replay_page", "| 13 | `STEPS_FULL` | 64 steps are held |\n", "", [13]),
            ("replay_page", "| 13 | `STEPS_FULL` | 64 steps are held |", "| 13 | `STEPS_FULL` | 65 steps are held |", [13]),
            ("replay_page", "| 3 | `SLOT_RANGE` |", "| 3 | `SLOT_TAKEN` |", [3]),
            ("header", 'return "the store is not sound";', 'return "the store is unsound";', [2]),
        ]:
            self.assertEqual(unlisted(self.edited(file, old, new)), numbers, new)

    def test_texts(self):
        """Each answer has a text of its own, and a number that is no answer that of all such numbers."""
        said = said_of_answers(texts()["header"])
        self.assertEqual(len({text for _, text in said}), len({name for name, _ in said}))
        self.assertTrue(all(text for _, text in said))


class Words(Held):
    def test_corners(self):
        for test in ("entry_words", "order_words"):
            self.assertEqual(words_test(test, texts()["header"]), (0, ""))

    def test_each_builder_and_reader_is_held(self):
        edits = [
            ("entry_words", "uint64_t cut = offer & CECHNUOL_OFFER_MASK;", "uint64_t cut = offer;"),
            ("entry_words", "UINT64_C(1) << 63 | cechnuol_remove(offer)", "UINT64_C(1) << 63 | (uint64_t)offer << 31"),
            ("entry_words", "UINT64_C(1) << 63 | cechnuol_remove(offer) | price", "cechnuol_remove(offer) | price"),
            ("entry_words", "return word >> 63 != 0;", "return (uint32_t)word != 0;"),
            ("entry_words", "return cechnuol_low_bits(word >> 32) & CECHNUOL_OFFER_MASK;", "return cechnuol_low_bits(word >> 32);"),
            ("entry_words", "return cechnuol_low_bits(word);", "return cechnuol_low_bits(word) & CECHNUOL_OFFER_MASK;"),
            ("entry_words", "return word & UINT32_MAX;", "return word & INT32_MAX;"),
            ("entry_words", "UINT32_C(0x7FFFFFFF)", "UINT32_C(0x3FFFFFFF)"),
            ("entry_words", "    return cechnuol_remove(offer);", "    return cechnuol_put(offer, 0);"),
            ("order_words", "return top << 56 | middle << 31 | offer;", "return top << 56 | middle << 32 | offer;"),
            ("order_words", "return top << 56 | middle << 31 | offer;", "return top << 55 | middle << 31 | offer;"),
            ("order_words", "if (kind > 255 ||", "if (kind > 256 ||"),
            ("order_words", "|| amount > CECHNUOL_AMOUNT_MASK ||", "||"),
            ("order_words", "|| offer > CECHNUOL_OFFER_MASK)", "|| offer == UINT32_MAX)"),
            ("order_words", "UINT32_C(0x1FFFFFF)", "UINT32_C(0xFFFFFF)"),
            ("order_words", "UINT64_C(0xFF00000000000000)", "UINT64_C(0)"),
            ("order_words", "return cechnuol_low_bits(order >> 56);", "return cechnuol_low_bits(order >> 56) & 31;"),
            ("order_words", "cechnuol_low_bits(order >> 31) & CECHNUOL_AMOUNT_MASK", "cechnuol_low_bits(order >> 31)"),
            ("order_words", "cechnuol_low_bits(order) & CECHNUOL_OFFER_MASK", "cechnuol_low_bits(order)"),
            ("order_words", "(n) >= 1 && (n) <= 16 ?", "(n) <= 16 ?"),
        ]
        for test, old, new in edits:
            status, said = words_test(test, self.edited("header", old, new)["header"])
            self.assertEqual((status, bool(said)), (1, True), new)


if __name__ == "__main__":
    unittest.main()
