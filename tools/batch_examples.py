#!/usr/bin/env python3
"""The examples of pricing a batch, as a script of docs/REPLAY.md, and what document 01 ("Batches", grounds 6 to 10 and 17) and
document 02 (Q-3) say of each.

  tools/batch_examples.py           write tests/batches/examples.script and tests/batches/examples.out
  tools/batch_examples.py --check   exit with status 1 where either file differs

The answers are worked out here from the papers' sentences, with a dictionary for the prices, and not from the Rattle code or the
second model.
"""
import pathlib
import random
import sys

FOLDER = pathlib.Path(__file__).resolve().parent.parent / "tests" / "batches"
TITLE = "# Examples of pricing a batch, written by tools/batch_examples.py with what replay must print for them."
BEFORE = 7  # what each output word holds before an example
TOP = 2 ** 32 - 1  # the highest price
MOST = 2 ** 25 - 1  # the highest amount
LAST = 2 ** 31 - 1  # the highest offer


# The words of the papers.

def shows(offer, price):
    """The entry word that shows an offer's price, or none: kind 1 bit, offer 31 bits, price 32 bits."""
    return offer << 32 if price is None else 1 << 63 | offer << 32 | price


def order(kind, amount, offer):
    """An order word: kind 8 bits, amount 25 bits, offer 31 bits."""
    return kind << 56 | amount << 31 | offer


def split_entry(word):
    return word >> 63, word >> 32 & LAST, word & TOP


def split_order(word):
    return word >> 56, word >> 31 & MOST, word & LAST


# What the papers say of a batch.

def is_list(words):
    """0 to 64 words with strictly rising offers; kind 0 has price 0."""
    fields = [split_entry(w) for w in words]
    offers = [offer for _, offer, _ in fields]
    rising = all(a < b for a, b in zip(offers, offers[1:]))
    return len(words) <= 64 and rising and all(kind == 1 or price == 0 for kind, _, price in fields)


def is_known(kind):
    return kind in (0, 1, 2, 3) or 16 <= kind <= 31


def kept(price, sixteenths):
    """So many sixteenths of a price "to the nearest unit, a half upward"."""
    units, rest = divmod(price * sixteenths, 16)
    return units + 1 if rest >= 8 else units


def new_price(kind, amount, price):
    """The price that an order makes of an offer's price (None where there is none), or the ground by which it fails."""
    if kind == 0:
        return amount
    if kind == 1:
        return None
    if price is None:
        return "refused 9"
    if kind == 2:
        price = price + amount
    elif kind == 3:
        price = price - amount
    else:
        price = max(kept(price, kind - 15), amount)
    return price if 0 <= price <= TOP else "refused 10"


def price_batch(reads, orders, room):
    """The answer, and the words written."""
    if not is_list(reads) or len(orders) > 64:
        return "refused 6", []
    split = [split_order(o) for o in orders]
    if any(not is_known(kind) or kind == 1 and amount != 0 for kind, amount, _ in split):
        return "refused 7", []
    prices = {offer: price if kind == 1 else None for kind, offer, price in map(split_entry, reads)}
    if any(offer not in prices for _, _, offer in split):
        return "refused 8", []
    named = set()
    for kind, amount, offer in split:
        price = new_price(kind, amount, prices[offer])
        if isinstance(price, str):
            return price, []
        prices[offer] = price
        named.add(offer)
    words = [shows(offer, prices[offer]) for offer in sorted(named)]
    if room < len(words):
        return "refused 17", []
    return f"ok {len(words)}", words


# The examples: each a title, a read set, orders and the length of the output memory.

CASES = []


def case(title, reads, orders, room):
    CASES.append((title, reads, orders, room))


def moments():
    case("moment 10: price 1001, kind 27, amount 0", [shows(5, 1001)], [order(27, 0, 5)], 2)
    case("moment 10: the same with amount 800", [shows(5, 1001)], [order(27, 800, 5)], 2)
    case("moment 11: price 1200 cut by 1200", [shows(5, 1200)], [order(3, 1200, 5)], 2)
    case("moment 11: by 1201", [shows(5, 1200)], [order(3, 1201, 5)], 2)


def kinds():
    for kind in [0, 1, 2, 3, *range(16, 32)]:
        for price in (None, 0, TOP):
            for amount in (0, MOST):
                case(f"kind {kind}, price {price}, amount {amount}", [shows(9, price)], [order(kind, amount, 9)], 2)
        case(f"kind {kind}, price 1001, amount 1", [shows(9, 1001)], [order(kind, 1, 9)], 1)
    for kind in (4, 14, 15, 32, 33, 47, 127, 128, 255):
        case(f"kind {kind} is unknown", [shows(9, 100)], [order(kind, 0, 9)], 2)


def ends():
    case("raised to the highest price", [shows(9, TOP - MOST)], [order(2, MOST, 9)], 1)
    case("raised past it", [shows(9, TOP - MOST + 1)], [order(2, MOST, 9)], 1)
    case("the highest amount cut to 0", [shows(9, MOST)], [order(3, MOST, 9)], 1)
    case("cut past 0", [shows(9, MOST - 1)], [order(3, MOST, 9)], 1)
    case("a sixteenth of 15", [shows(9, 15)], [order(16, 0, 9)], 1)
    case("a sixteenth of 16", [shows(9, 16)], [order(16, 0, 9)], 1)
    case("the amount is the price kept", [shows(9, 1600)], [order(23, 800, 9)], 1)
    case("the lowest and the highest offer", [shows(0, 10), shows(LAST, 20)], [order(2, 1, LAST), order(3, 1, 0)], 3)
    case("no order, an empty read set, no output", [], [], 0)
    case("no order", [shows(1, 100), shows(2, None)], [], 2)
    case("price 0 is a price", [shows(9, 0)], [order(2, 5, 9)], 1)
    case("no price is not price 0", [shows(9, None)], [order(2, 5, 9)], 1)


def turns():
    three = [shows(1, 100), shows(2, None), shows(3, TOP)]
    case("listed, then raised", three, [order(0, 50, 2), order(2, 7, 2)], 4)
    case("withdrawn, then raised", three, [order(1, 0, 1), order(2, 7, 1)], 4)
    case("withdrawn, then listed", three, [order(1, 0, 1), order(0, 7, 1)], 4)
    case("listed, then withdrawn", three, [order(0, 7, 2), order(1, 0, 2)], 4)
    case("withdrawn twice", three, [order(1, 0, 2), order(1, 0, 2)], 4)
    case("cut, then raised back", three, [order(3, 5, 3), order(2, 5, 3)], 4)
    case("raised first, past the highest price", three, [order(2, 5, 3), order(3, 5, 3)], 4)
    case("three offers, named from the last to the first", three, [order(3, 1, 3), order(0, 2, 2), order(2, 3, 1)], 4)
    case("halved twice, with a floor", three, [order(23, 0, 1), order(23, 30, 1)], 4)
    case("the second of three orders fails", three, [order(0, 1, 1), order(2, 1, 2), order(0, 1, 3)], 4)
    case("the last order fails", three, [order(0, 1, 1), order(0, 1, 2), order(2, 1, 3)], 4)


def many():
    case("64 raises of one offer", [shows(5, 1000)], [order(2, k, 5) for k in range(64)], 2)
    case("64 raises, of which the last fails", [shows(5, TOP - 63)], [order(2, 1, 5)] * 64, 2)
    sixty_four = [shows(3 * k + 1, 100 * k if k % 3 else None) for k in range(64)]
    case("64 offers, each listed, from the last to the first", sixty_four, [order(0, k, 3 * k + 1) for k in reversed(range(64))], 64)
    case("64 offers, each withdrawn, with room behind", sixty_four, [order(1, 0, 3 * k + 1) for k in range(64)], 66)
    case("64 offers, one named", sixty_four, [order(0, 1, 3 * 63 + 1)], 1)
    case("64 offers, room for 63", sixty_four, [order(0, k, 3 * k + 1) for k in range(64)], 63)
    case("65 offers", sixty_four + [shows(3 * 64 + 1, 5)], [], 1)
    case("65 orders", [shows(5, 1000)], [order(2, 1, 5)] * 65, 2)
    for title, last, room in [
        ("of an unknown kind", order(15, 1, 5), 2),
        ("on an offer not read", order(2, 1, 6), 2),
        ("on an offer without a price", order(2, 1, 7), 2),
        ("past the highest price", order(2, 1, 8), 2),
        ("and no room", order(2, 1, 5), 0),
    ]:
        reads = [shows(5, 1000), shows(7, None), shows(8, TOP)]
        case("65 orders, the last " + title, reads, [order(2, 1, 5)] * 64 + [last], room)
    case("64 orders of which the last is unknown", [shows(5, 1000)], [order(2, 1, 5)] * 63 + [order(15, 1, 5)], 2)
    case("64 orders of which the last is on another offer", [shows(5, 1000)], [order(2, 1, 5)] * 63 + [order(2, 1, 6)], 2)


def lists():
    for title, reads in [
        ("falling offers", [shows(2, 1), shows(1, 1)]),
        ("an offer twice", [shows(2, 1), shows(2, 1)]),
        ("an offer with a price and with none", [shows(2, None), shows(2, 1)]),
        ("kind 0 with a price", [shows(1, 1), shows(2, None) + 1]),
    ]:
        case("not a list: " + title, reads, [], 2)


def grounds():
    """Each ground alone, and each two in every order in which they can stand: the first by number is the answer, and of
    9 and 10 the one of the first order that fails."""
    good = [shows(1, 100), shows(2, None), shows(3, TOP)]
    bad = [good[1], good[0], good[2]]
    fault = {7: order(15, 0, 1), 8: order(0, 1, 4), 9: order(2, 1, 2), 10: order(2, 1, 3)}

    def with_grounds(*numbers):
        orders = [order(0, 1, 1)] + [fault[n] for n in numbers if n in fault]
        title = "grounds " + " and ".join(map(str, numbers))
        case(title, bad if 6 in numbers else good, orders, 0 if 17 in numbers else 4)

    every = [6, 7, 8, 9, 10, 17]
    for n in every:
        with_grounds(n)
    for a in every:
        for b in every:
            if a != b:
                with_grounds(a, b)
    with_grounds(17, 10, 9, 8, 7, 6)
    case("a withdrawal with an amount, after an unknown offer", good, [order(0, 1, 4), order(1, 1, 1)], 4)
    case("exact room", good, [order(0, 1, 1), order(0, 1, 2)], 2)
    case("one word short", good, [order(0, 1, 1), order(0, 1, 2)], 1)


def chance(count):
    draw = random.Random(2024)
    for _ in range(count):
        offers = sorted(draw.sample(range(12), draw.randint(1, 6)))
        reads = [shows(k, draw.choice([None, 0, draw.randint(0, 40), draw.randint(0, TOP)])) for k in offers]
        orders = []
        for _ in range(draw.randint(0, 8)):
            kind = draw.choice([0, 0, 1, 2, 3, 3, 16, 20, 27, 30, 31])
            amount = 0 if kind == 1 else draw.choice([0, draw.randint(0, 30), draw.randint(0, MOST)])
            orders.append(order(kind, amount, draw.choice(offers)))
        case("drawn", reads, orders, draw.randint(2, 7))


def sixteenths():
    """Each kind that keeps sixteenths, at prices about a half and at the ends, with amounts about the price that is kept."""
    for kind in range(16, 32):
        for price in (0, 1, 7, 8, 23, 24, MOST, 2 ** 31, TOP):
            new = kept(price, kind - 15)
            for amount in sorted(a for a in {0, 1, new - 1, new, new + 1, MOST} if 0 <= a <= MOST):
                case(f"{kind - 15}/16 of {price}, amount {amount}", [shows(9, price)], [order(kind, amount, 9)], 1)
    case("marked down twice, each time to the nearest unit", [shows(9, 1001)], [order(27, 0, 9), order(23, 0, 9)], 1)


def tokens(words):
    return [f"{w:016X}" for w in words]


def texts():
    """The script, each case's title as a comment and then the call; and what it prints: for each call the line's number, the
    answer, and every word of the output memory."""
    script, printed = [TITLE], []
    for number, (title, reads, orders, room) in enumerate(CASES, 1):
        script.append(f"# {number}. {title}")
        lists = [*tokens(reads), "/", *tokens(orders), "/", *tokens([BEFORE] * room)]
        script.append(" ".join(["price_batch", *lists]))
        answer, words = price_batch(reads, orders, room)
        after = words + [BEFORE] * (room - len(words))
        printed.append(" ".join([f"line {len(script)}: {answer}", *tokens(after)]))
    return ["".join(line + "\n" for line in lines) for lines in (script, printed)]


def main():
    for part in (moments, kinds, ends, turns, many, lists, grounds):
        part()
    chance(40)
    sixteenths()
    files = dict(zip([FOLDER / "examples.script", FOLDER / "examples.out"], texts()))
    if "--check" in sys.argv[1:]:
        stale = [str(path) for path, text in files.items() if not path.exists() or path.read_text() != text]
        print("\n".join("differs: " + path for path in stale) or f"{len(CASES)} examples as written")
        return 1 if stale else 0
    for path, text in files.items():
        path.write_text(text)
    print(f"{len(CASES)} examples")
    return 0


sys.exit(main())
