"""What the pictures show of the code: its constants, the fields of head and tally, and the crates by families."""
import re

HEAD = "crates/layout/src/head.rt"
HEAD_WORDS = "crates/head_words/src/lib.rt"
ENTRY = "crates/entry/src/lib.rt"
ORDERS = "crates/orders/src/lib.rt"
TALLY = "crates/lent/src/storing.rt"
LISTS = "crates/lists/src/rules.rt"
CRATES = "crates.txt"


class Odd(Exception):
    """A source is not as the pictures need it."""


def sure(holds, what):
    if not holds:
        raise Odd(what)


def constant(text, name, path):
    found = re.findall(rf"^\s*(?:pub )?const {name}: \w+ = (\d+);", text, re.M)
    sure(len(found) == 1, f"{path} has no number {name}")
    return int(found[0])


def number_text(number):
    return f"{number:,}"


def head_fields(text):
    """The fields of a head in their order, and how many words each has."""
    body = re.search(r"^pub struct Head \{\n(.*?)^\}", text, re.S | re.M)
    sure(body, f"{HEAD} has no struct Head")
    fields = re.findall(r"^    pub (\w+): (?:\[\w+; (\w+)\]|\w+),", body.group(1), re.M)
    return [(name, constant(text, count, HEAD) if count else 1) for name, count in fields]


def tally_fields(text):
    """The counts of a tally in the order of their words."""
    found = re.findall(r"^\s*(\w+): words\[(\d+)\],", text, re.M)
    sure([int(place) for _, place in found] == list(range(constant(text, "TALLY_WORDS", TALLY))), f"{TALLY} reads no words of a tally")
    return [name for name, _ in found]


def bits(text, names, path, known=None):
    """The widths of a word's fields, most significant first; a width that the source takes from elsewhere is in `known`."""
    widths = [(name.lower(), (known or {}).get(name) or constant(text, f"{name}_BITS", path)) for name in names]
    sure(sum(width for _, width in widths) == 64, f"the fields of a word in {path} have not 64 bits")
    return widths


def memory_facts(read):
    """The facts of the memory of a store; `read` gives the text of a path."""
    head = read(HEAD)
    fields = head_fields(head)
    size = constant(read(HEAD_WORDS), "HEAD_WORDS", HEAD_WORDS)
    sure(sum(count for _, count in fields) == size, f"the fields of a head have not {size} words")
    entry, orders = read(ENTRY), read(ORDERS)
    sure("OFFER_BITS: u32 = Entry::OFFER_BITS;" in orders, f"{ORDERS} does not take its offer from {ENTRY}")
    entry_bits = bits(entry, ["KIND", "OFFER", "PRICE"], ENTRY)
    return {
        "table": constant(head, "TABLE_WORDS", HEAD),
        "journal": constant(head, "JOURNAL_WORDS", HEAD),
        "steps": constant(head, "STEPS", HEAD),
        "slots": constant(head, "SLOTS", HEAD),
        "list": constant(read(LISTS), "LIST_WORDS", LISTS),
        "head": fields,
        "head words": size,
        "tally": tally_fields(read(TALLY)),
        "entry": entry_bits,
        "order": bits(orders, ["KIND", "AMOUNT", "OFFER"], ORDERS, {"OFFER": dict(entry_bits)["offer"]}),
    }


def families(read):
    """The families of crates.txt, lowest first: name, description, and the crates with those that each uses."""
    found = []
    for line in read(CRATES).splitlines():
        family, crate = re.match(r"# (\w+)(?:: (.*))?$", line), re.match(r"(\w+)(?: staticlib)?:((?: \w+)*)$", line)
        sure(family or crate or not line, f"{CRATES} has a line that is neither a family nor a crate: {line}")
        if family:
            found.append((family.group(1), re.sub(r" \(.*?\)", "", family.group(2) or ""), {}))
        elif crate:
            sure(found, f"{CRATES} has a crate before the first family")
            sure(not any(crate.group(1) in crates for _, _, crates in found), f"{CRATES} has {crate.group(1)} twice")
            found[-1][2][crate.group(1)] = crate.group(2).split()
    sure(found, f"{CRATES} has no family")
    in_order([crate for _, _, crates in found for crate in crates.items()])
    return found


def in_order(crates):
    """Each crate stands behind those of crates.txt that it uses."""
    names = [name for name, _ in crates]
    for place, (name, uses) in enumerate(crates):
        later = set(uses) & set(names[place:])
        sure(not later, f"{CRATES} has {name} before {', '.join(sorted(later))}, which it uses")
