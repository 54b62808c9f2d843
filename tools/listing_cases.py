#!/usr/bin/env python3
"""Writes the cases of the listing program to tests/listing: NAME.in is what it is given, NAME.out what it must print.

The bytes and the text are worked out here from document 01, and not by the program.
  listing_cases.py          write the cases
  listing_cases.py --check  say whether the stored cases are those that would be written
"""
import pathlib
import struct
import sys

PUT = 1 << 63


def image(state, words, count=None):
    count = len(words) if count is None else count
    return struct.pack(">IH", state, count) + b"".join(struct.pack(">Q", w) for w in words)


def word(offer, price, kind=1):
    return kind << 63 | offer << 32 | price


def listing(state, words):
    lines = [f"state {state} offers {len(words)}"]
    lines += [f"{w >> 32 & 0x7FFFFFFF} {w & 0xFFFFFFFF}" for w in words]
    return "".join(line + "\n" for line in lines).encode()


REFUSED = b"refused 15\n"
FULL = [word(7 * i + 3, (i * 2654435761) % 2**32) for i in range(8000)]
ENDS = [word(0, 0), word(1, 2**32 - 1), word(2**31 - 1, 0)]
ONE = [word(5, 1200)]

CASES = {
    "paper": (image(7, ONE), listing(7, ONE)),
    "empty": (image(0, []), b"state 0 offers 0\n"),
    "full": (image(4000000000, FULL), listing(4000000000, FULL)),
    "ends": (image(2**32 - 1, ENDS), listing(2**32 - 1, ENDS)),
    "no_input": (b"", REFUSED),
    "short_header": (image(7, ONE)[:5], REFUSED),
    "header_alone": (image(7, [], count=1), REFUSED),
    "one_byte_short": (image(7, ONE)[:-1], REFUSED),
    "one_byte_more": (image(7, ONE) + b"\0", REFUSED),
    "count_too_low": (image(7, ENDS, count=2), REFUSED),
    "kind_0": (image(7, [word(5, 1200, kind=0)]), REFUSED),
    "kind_0_price_0": (image(7, [word(5, 0, kind=0)]), REFUSED),
    "equal_offers": (image(7, [word(5, 1), word(5, 2)]), REFUSED),
    "falling_offers": (image(7, [word(6, 1), word(5, 2)]), REFUSED),
    "bytes_reversed": (image(7, ONE)[::-1], REFUSED),
    "full_and_a_byte": (image(1, FULL) + b"\0", REFUSED),
    "a_word_too_many": (image(1, FULL + [word(60000, 1)]), REFUSED),
    "largest_count": (image(1, [word(i, i) for i in range(65535)]), REFUSED),
}


def main(check):
    folder = pathlib.Path(__file__).resolve().parent.parent / "tests" / "listing"
    wrong = []
    for name, (given, printed) in CASES.items():
        for end, data in (("in", given), ("out", printed)):
            path = folder / f"{name}.{end}"
            if not check:
                path.write_bytes(data)
            elif not path.exists() or path.read_bytes() != data:
                wrong.append(path.name)
    if wrong:
        sys.exit("not as worked out: " + " ".join(wrong))
    print(f"{len(CASES)} cases " + ("as worked out" if check else "written"))


main("--check" in sys.argv[1:])
